//! The snapshot ("saved book"): written, read, and resumed from.
//!
//! Edition 1, own identifier, count, then for each node ascending: identifier,
//! sequence number, age, data length, data. All numbers stand in groups of seven bits.

use crate::node::{first_refusal, Entry, Node, Randoms, Written, CLOCK_MAX, MAX_NODES, TABLE_ROOM};
use crate::wire;

/// Most bytes of a snapshot, and least length of the room lent for saving.
pub const SNAPSHOT_ROOM: usize = 33_319;

const EDITION: u32 = 1;

/// A snapshot that was read.
#[derive(Clone, Debug, PartialEq, Eq)]
pub struct Snapshot {
    pub own: u32,
    /// Ascending, with the saved ages at the reading given to `load`.
    pub table: Vec<Entry>,
}

/// The bytes of a snapshot at a reading.
pub fn write(own: u32, table: &[Entry], now: u64) -> Vec<u8> {
    let mut out = Vec::new();
    wire::write_number(&mut out, EDITION);
    wire::write_number(&mut out, own);
    wire::write_number(&mut out, table.len() as u32);
    for entry in table {
        wire::write_number(&mut out, entry.node);
        wire::write_number(&mut out, entry.seq);
        wire::write_number(&mut out, entry.capped_age_at(now));
        wire::write_number(&mut out, entry.data().len() as u32);
        out.extend_from_slice(entry.data());
    }
    out
}

/// Reads a snapshot; nothing if the bytes are not exactly one.
/// The ages count from the reading `now`.
pub fn load(bytes: &[u8], now: u64) -> Option<Snapshot> {
    let mut rest = bytes;
    if wire::read_number(&mut rest)? != EDITION {
        return None;
    }
    let own = wire::read_number(&mut rest)?;
    let count = wire::read_number(&mut rest)? as usize;
    if !(1..=MAX_NODES).contains(&count) {
        return None;
    }
    let mut table = Vec::new();
    for _ in 0..count {
        table.push(read_entry(&mut rest, now)?);
    }
    let ascending = table.windows(2).all(|pair| pair[0].node < pair[1].node);
    let has_own = table.iter().any(|entry| entry.node == own);
    (rest.is_empty() && ascending && has_own).then_some(Snapshot { own, table })
}

fn read_entry(rest: &mut &[u8], now: u64) -> Option<Entry> {
    let node = wire::read_number(rest)?;
    let seq = wire::read_number(rest)?;
    let age = wire::read_number(rest)?;
    let length = wire::read_number(rest)? as usize;
    let data = rest.get(..length)?;
    *rest = &rest[length..];
    wire::good(data).then(|| Entry::new(node, seq, age, now, data.to_vec()))
}

impl Node {
    /// Writes a snapshot of the whole table, reachable or not. Refusals 1 2 4.
    pub fn save(&self, table_len: usize, room_len: usize, clock: u64) -> Written {
        let refusal = first_refusal(&[
            (1, clock > CLOCK_MAX),
            (2, clock < self.last),
            (4, table_len < TABLE_ROOM || room_len < SNAPSHOT_ROOM),
        ]);
        if refusal != 0 {
            return Written {
                refusal,
                ..Written::default()
            };
        }
        Written {
            refusal: 0,
            bytes: write(self.own, &self.table, clock),
        }
    }

    /// Starts from a snapshot. Our own peers are unknown now, and no keep-alive interval
    /// is chosen yet, so every TLV of ours about them goes, and we republish. Refusals 1 4 11.
    pub fn resume(&mut self, table_len: usize, bytes: &[u8], clock: u64, randoms: &Randoms) -> u32 {
        let snapshot = load(bytes, clock);
        let refusal = first_refusal(&[
            (1, clock > CLOCK_MAX),
            (4, table_len < TABLE_ROOM),
            (11, snapshot.is_none()),
        ]);
        if let (0, Some(snapshot)) = (refusal, snapshot) {
            let mut table = snapshot.table;
            for entry in table.iter_mut().filter(|entry| entry.node == snapshot.own) {
                entry.drop_endpoint_tlvs();
                entry.publish(clock);
            }
            *self = Node::started(snapshot.own, clock, table, randoms);
        }
        refusal
    }
}

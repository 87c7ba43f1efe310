//! What the benchmark's nodes hear: a line of nodes with full data, or 16 of them on one link, and
//! datagrams about them.

use reference::node::{Entry, Randoms};
use reference::sha256::{digest, Digest};
use reference::snapshot;
use reference::wire::{self, Payment, MAX_DATA};

/// The reading of all that has no time of its own.
pub const CLOCK: u64 = 1_000_000;
pub const RANDOMS: Randoms = [1, 22, 333, 4_444];
/// The household whose total is asked for.
pub const HOUSEHOLD: u32 = 1_017;

/// Nodes 1 to `length`, of which the first is ours; each names its neighbours. A node's endpoint to
/// the left is 1, to the right 2; ours is 1.
pub struct Line {
    pub length: usize,
}

impl Line {
    pub fn new(length: usize) -> Line {
        Line { length }
    }

    /// All nodes with as much data as there may be. Ours has no peer yet, but room for one.
    pub fn snapshot(&self) -> Vec<u8> {
        let last = self.length as u32;
        let entry = |node| Entry::new(node, 0, 0, CLOCK, data(node, last, 0));
        let table: Vec<Entry> = (1..=last).map(entry).collect();
        snapshot::write(1, &table, CLOCK)
    }
}

/// Data of a node of a line; ours publishes its peer only later.
fn data(node: u32, last: u32, edition: u32) -> Vec<u8> {
    let most = if node == 1 { MAX_DATA - 16 } else { MAX_DATA };
    filled(peers(node, last), most, edition)
}

/// These Peer TLVs, then payments; other receipts for another edition.
fn filled(mut tlvs: Vec<Vec<u8>>, most: usize, edition: u32) -> Vec<u8> {
    for number in 0..(most / 16 - tlvs.len()) as u32 {
        let payment = Payment {
            household: 1_000 + number % 50,
            receipt: (1 << 30) + 100 * edition + number,
            amount: 1_250,
        };
        tlvs.push(wire::payment_tlv(&payment));
    }
    tlvs.sort();
    let data = tlvs.concat();
    assert!(data.len() == most && wire::good(&data));
    data
}

fn peers(node: u32, last: u32) -> Vec<Vec<u8>> {
    let mut tlvs = Vec::new();
    if node > 1 {
        let theirs = if node == 2 { 1 } else { 2 };
        tlvs.push(wire::peer_tlv(node - 1, theirs, 1));
    }
    if node > 1 && node < last {
        tlvs.push(wire::peer_tlv(node + 1, 1, 2));
    }
    tlvs
}

/// The datagram by which our neighbour becomes our peer.
pub fn neighbour() -> Vec<u8> {
    wire::node_endpoint_tlv(2, 1)
}

/// The nodes of one link but ours, as many as may be peers.
const CROWD: std::ops::RangeInclusive<u32> = 2..=17;

/// Our node without data, and the others with as much as there may be, each naming ours.
pub fn crowd() -> Vec<u8> {
    let full = |node| filled(vec![wire::peer_tlv(1, 1, 1)], MAX_DATA, node);
    let entry = |node| Entry::new(node, 0, 0, CLOCK, full(node));
    let mut table = vec![Entry::new(1, 0, 0, CLOCK, Vec::new())];
    table.extend(CROWD.map(entry));
    snapshot::write(1, &table, CLOCK)
}

/// The datagram by which they become our peers.
pub fn neighbours() -> Vec<u8> {
    CROWD
        .flat_map(|node| wire::node_endpoint_tlv(node, 1))
        .collect()
}

/// Statements of the last node of a line, each newer than the one before, with 1,024 bytes.
pub fn statements(length: u32, count: usize) -> Vec<Vec<u8>> {
    let statement = |seq| {
        let data = data(length, length, seq);
        wire::node_state_tlv(length, seq, 0, &digest(&data), &data)
    };
    (1..=count as u32).map(statement).collect()
}

/// A datagram of Network States with this digest.
pub fn equal_states(digest: &Digest, copies: usize) -> Vec<u8> {
    wire::network_state_tlv(digest).repeat(copies)
}

/// A datagram of TLVs that mean nothing.
pub fn passed_over(bytes: usize) -> Vec<u8> {
    wire::tlv(41, &[7; 4]).repeat(bytes / 8)
}

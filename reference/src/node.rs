//! The node: its state, and the calls that change or show it.
//!
//! A refused call gives its number and leaves the state as it was.
//! Buffers lent by the caller appear only by their lengths.

use crate::sha256::{digest, Digest};
use crate::wire::{self, Payment, Tlv};
use std::collections::BTreeMap;

/// Least length of the lent table memory.
pub const TABLE_ROOM: usize = 32_768;
/// Least length of the lent reply room, and most bytes written into it.
pub const REPLY_ROOM: usize = 4_096;
/// Most bytes of a datagram.
pub const MAX_DATAGRAM: usize = 4_096;
/// Most nodes in the table, our own among them.
pub const MAX_NODES: usize = 32;
/// Most peers on all endpoints together.
pub const MAX_PEERS: usize = 16;
/// The endpoints are numbered 1 to 4.
pub const ENDPOINTS: usize = 4;
/// The greatest clock reading.
pub const CLOCK_MAX: u64 = (1 << 62) - 1;

/// The shortest Trickle interval, also the time between two requests for network state.
pub const INTERVAL_MIN: u64 = 200;
/// The longest Trickle interval: seven doublings.
pub const INTERVAL_MAX: u64 = 25_600;

/// Bytes of a Peer TLV.
const PEER_TLV_SIZE: usize = 16;
/// The Trickle counter stays here once it is reached.
const COUNT_MAX: u8 = 255;
/// From this age on, nobody is reached through a node.
pub const AGE_LIMIT: u64 = (1 << 32) - (1 << 15);
/// From this age on, we republish our own data.
pub const REPUBLISH_AGE: u64 = (1 << 32) - (1 << 16);
/// Keep-alive interval of an endpoint for which no other is published, a peer's or ours.
pub const DEFAULT_KEEP_ALIVE: u32 = 20_000;
/// The interval of an endpoint on which no keep-alives are sent.
const NO_KEEP_ALIVES: u32 = 0;
/// In a Keep-Alive TLV: all endpoints that have none of their own.
pub(crate) const ALL_ENDPOINTS: u32 = 0;
/// The longest keep-alive interval that we may choose; the shortest is 1.
pub const KEEP_ALIVE_MAX: u32 = 600_000;
/// How many delays of a keep-alive there are: 0 to half of the shortest Trickle interval.
const DELAYS: u64 = INTERVAL_MIN / 2 + 1;
/// Added to a received sequence number when we reclaim our identifier.
const RECLAIM_STEP: u32 = 1_000;

/// One random number for each endpoint.
pub type Randoms = [u32; ENDPOINTS];

/// What we hold of one node ("box").
#[derive(Clone, Debug, PartialEq, Eq)]
pub struct Entry {
    pub node: u32,
    pub seq: u32,
    /// The age taken or set, at the reading `since`.
    pub age: u32,
    pub since: u64,
    data: Vec<u8>,
    /// H of the data, kept so that it need not be computed again.
    digest: Digest,
}

impl Entry {
    pub fn new(node: u32, seq: u32, age: u32, since: u64, data: Vec<u8>) -> Entry {
        let digest = digest(&data);
        Entry {
            node,
            seq,
            age,
            since,
            data,
            digest,
        }
    }

    pub fn data(&self) -> &[u8] {
        &self.data
    }

    pub fn digest(&self) -> &Digest {
        &self.digest
    }

    /// Milliseconds since origination at a reading, without a cap.
    pub fn age_at(&self, now: u64) -> u64 {
        u64::from(self.age) + (now - self.since)
    }

    /// The age as it is sent or saved: at most 2^32 - 1.
    pub fn capped_age_at(&self, now: u64) -> u32 {
        u32::try_from(self.age_at(now)).unwrap_or(u32::MAX)
    }

    fn set_data(&mut self, data: Vec<u8>) {
        self.digest = digest(&data);
        self.data = data;
    }

    /// Drops every TLV of type 8 and 9, of any length and for any endpoint.
    pub(crate) fn drop_endpoint_tlvs(&mut self) {
        let kinds = [wire::PEER, wire::KEEP_ALIVE];
        self.set_data(wire::without(&self.data, |tlv| kinds.contains(&tlv.kind)));
    }

    /// New sequence number with age 0.
    fn publish_as(&mut self, seq: u32, now: u64) {
        self.seq = seq;
        self.age = 0;
        self.since = now;
    }

    /// Publishing adds 1 modulo 2^32.
    pub fn publish(&mut self, now: u64) {
        self.publish_as(self.seq.wrapping_add(1), now);
    }
}

/// A peer: a node heard by unicast, from its endpoint, on one of ours.
#[derive(Clone, Copy, Debug, PartialEq, Eq)]
pub struct Peer {
    pub node: u32,
    pub theirs: u32,
    pub ours: u32,
    /// Reading of the last contact.
    pub contact: u64,
}

impl Peer {
    fn tlv(&self) -> Vec<u8> {
        wire::peer_tlv(self.node, self.theirs, self.ours)
    }
}

/// Trickle of one endpoint (RFC 6206, section 4.2).
#[derive(Clone, Copy, Debug, PartialEq, Eq)]
pub struct Trickle {
    pub start: u64,
    /// t: the send point is `start + point`.
    pub point: u64,
    /// I.
    pub interval: u64,
    /// c.
    pub count: u8,
    /// The send point has passed.
    pub spent: bool,
}

impl Trickle {
    /// Starts an interval ("afresh").
    pub fn fresh(now: u64, interval: u64, random: u32) -> Trickle {
        let half = interval / 2;
        let point = half + u64::from(random) % half;
        Trickle {
            start: now,
            point,
            interval,
            count: 0,
            spent: false,
        }
    }

    /// An equal digest was heard over multicast.
    fn hear(&mut self) {
        if self.count < COUNT_MAX {
            self.count += 1;
        }
    }

    /// The network digest changed. An interval at its shortest goes on.
    fn reset(&mut self, now: u64, random: u32) {
        if self.interval > INTERVAL_MIN {
            *self = Trickle::fresh(now, INTERVAL_MIN, random);
        }
    }

    /// A keep-alive goes out: a new interval as long as this one.
    fn restart(&mut self, now: u64, random: u32) {
        *self = Trickle::fresh(now, self.interval, random);
    }

    /// At most one event.
    fn step(&mut self, now: u64, random: u32) -> Event {
        if !self.spent && now >= self.start + self.point {
            self.spent = true;
            return if self.count < 1 {
                Event::Send
            } else {
                Event::NoSend
            };
        }
        if now >= self.start + self.interval {
            let doubled = (self.interval * 2).min(INTERVAL_MAX);
            *self = Trickle::fresh(now, doubled, random);
            return Event::NoSend;
        }
        Event::Nothing
    }
}

/// What Trickle does in a tick.
#[derive(Clone, Copy, Debug, PartialEq, Eq)]
enum Event {
    /// The send point.
    Send,
    /// A send point that is suppressed, or the end of the interval.
    NoSend,
    /// Nothing was due.
    Nothing,
}

/// Keep-alives of one endpoint (RFC 7787, section 6.1.2).
#[derive(Clone, Copy, Debug, PartialEq, Eq)]
pub struct KeepAlive {
    /// The chosen interval.
    pub keep: u32,
    /// The reading of the last sending plus the delay that was fixed then.
    pub quiet: u64,
}

impl KeepAlive {
    /// After a sending, which fixes the delay of the next keep-alive.
    fn after_sending(keep: u32, now: u64, random: u32) -> KeepAlive {
        let quiet = now + u64::from(random) % DELAYS;
        KeepAlive { keep, quiet }
    }

    /// The reading from which a keep-alive is due, if nothing is sent before.
    pub fn due(&self) -> u64 {
        self.quiet + u64::from(self.keep)
    }
}

/// The state that every call gets and hands back.
#[derive(Clone, Debug, PartialEq, Eq)]
pub struct Node {
    pub own: u32,
    /// The last accepted reading.
    pub last: u64,
    /// The network digest at the end of the last state-changing call.
    pub digest: Digest,
    /// Ascending by identifier; our own node is always in it.
    pub table: Vec<Entry>,
    /// In the order in which they came.
    pub peers: Vec<Peer>,
    pub trickle: [Trickle; ENDPOINTS],
    /// For each endpoint, the reading from which the network state may be requested again.
    pub next_request: [u64; ENDPOINTS],
    pub keep_alives: [KeepAlive; ENDPOINTS],
}

/// Answer of `receive`.
#[derive(Clone, Debug, Default, PartialEq, Eq)]
pub struct Received {
    pub refusal: u32,
    pub bytes: Vec<u8>,
    /// Reply TLVs left out because they did not fit.
    pub omitted: usize,
    /// TLVs dropped for room.
    pub dropped: usize,
}

/// Answer of a call that writes bytes: `tick` and `save`.
#[derive(Clone, Debug, Default, PartialEq, Eq)]
pub struct Written {
    pub refusal: u32,
    pub bytes: Vec<u8>,
}

/// Answer of `total` and `sum`.
#[derive(Clone, Copy, Debug, Default, PartialEq, Eq)]
pub struct Summed {
    pub refusal: u32,
    pub value: i64,
    /// Unreadable payments of reachable nodes.
    pub unreadable: usize,
}

/// Answer of `marks`.
#[derive(Clone, Debug, Default, PartialEq, Eq)]
pub struct Marks {
    pub refusal: u32,
    pub digest: Digest,
    /// Identifiers of the reachable nodes, ascending.
    pub nodes: Vec<u32>,
    /// The greatest level with a node in it, 0 for a node alone.
    pub last_level: usize,
}

/// The first number whose condition holds, or 0.
pub fn first_refusal(checks: &[(u32, bool)]) -> u32 {
    checks
        .iter()
        .find(|check| check.1)
        .map_or(0, |check| check.0)
}

fn is_endpoint(endpoint: u32) -> bool {
    (1..=ENDPOINTS as u32).contains(&endpoint)
}

/// Trickle of all endpoints at the start.
fn fresh_trickles(now: u64, randoms: &Randoms) -> [Trickle; ENDPOINTS] {
    randoms.map(|random| Trickle::fresh(now, INTERVAL_MIN, random))
}

/// Keep-alives of all endpoints at the start, which counts as a sending.
fn fresh_keep_alives(now: u64, randoms: &Randoms) -> [KeepAlive; ENDPOINTS] {
    randoms.map(|random| KeepAlive::after_sending(DEFAULT_KEEP_ALIVE, now, random))
}

/// The (peer node, peer endpoint, own endpoint) of each Peer TLV in node data.
fn published_peers(data: &[u8]) -> Vec<[u32; 3]> {
    wire::tlvs_of(data)
        .iter()
        .filter(|tlv| tlv.kind == wire::PEER && tlv.value.len() >= 12)
        .map(|tlv| [0, 1, 2].map(|index| wire::word(tlv.value, index)))
        .collect()
}

/// R publishes (N, NE, RE) and N publishes (R, RE, NE).
fn joined(r: u32, peers_of_r: &[[u32; 3]], n: u32, peers_of_n: &[[u32; 3]]) -> bool {
    peers_of_r
        .iter()
        .any(|&[node, ne, re]| node == n && peers_of_n.contains(&[r, re, ne]))
}

/// For each table entry its level ("ring") of the breadth-first traversal from our own node;
/// none for a node that is not reachable.
pub fn levels(table: &[Entry], own: u32, now: u64) -> Vec<Option<usize>> {
    let peers: Vec<_> = table
        .iter()
        .map(|entry| published_peers(&entry.data))
        .collect();
    let mut levels: Vec<Option<usize>> = table
        .iter()
        .map(|entry| (entry.node == own).then_some(0))
        .collect();
    for level in 0..table.len() {
        for r in 0..table.len() {
            // The age that counts is that of R, the node passed through, not of N.
            if levels[r] != Some(level) || table[r].age_at(now) >= AGE_LIMIT {
                continue;
            }
            for n in 0..table.len() {
                if levels[n].is_none() && joined(table[r].node, &peers[r], table[n].node, &peers[n])
                {
                    levels[n] = Some(level + 1);
                }
            }
        }
    }
    levels
}

/// The greatest level with a node in it. Our own node is in level 0, so there always is one.
pub fn last_level(table: &[Entry], own: u32, now: u64) -> usize {
    let levels = levels(table, own, now);
    levels.into_iter().flatten().max().unwrap_or(0)
}

/// The reachable entries, ascending by identifier.
pub fn reachable(table: &[Entry], own: u32, now: u64) -> Vec<&Entry> {
    let levels = levels(table, own, now);
    table
        .iter()
        .zip(levels)
        .filter(|(_, level)| level.is_some())
        .map(|(entry, _)| entry)
        .collect()
}

/// H over sequence number and H(data) of the reachable nodes, ascending (RFC 7787, 4.1.1).
pub fn network_digest(reachable: &[&Entry]) -> Digest {
    let mut bytes = Vec::new();
    for entry in reachable {
        bytes.extend_from_slice(&entry.seq.to_be_bytes());
        bytes.extend_from_slice(&entry.digest);
    }
    digest(&bytes)
}

/// Totals by household, and the count of unreadable payments.
pub fn household_totals(reachable: &[&Entry]) -> (BTreeMap<u32, i64>, usize) {
    let mut totals = BTreeMap::new();
    let mut unreadable = 0;
    for entry in reachable {
        for tlv in wire::tlvs_of(&entry.data) {
            if tlv.kind != wire::PAYMENT {
                continue;
            }
            match wire::read_payment(tlv.value) {
                Some(payment) => {
                    *totals.entry(payment.household).or_insert(0) += i64::from(payment.amount);
                }
                None => unreadable += 1,
            }
        }
    }
    (totals, unreadable)
}

/// The (endpoint, interval) of each Keep-Alive TLV in node data.
pub(crate) fn published_intervals(data: &[u8]) -> Vec<[u32; 2]> {
    wire::tlvs_of(data)
        .iter()
        .filter(|tlv| tlv.kind == wire::KEEP_ALIVE && tlv.value.len() >= 8)
        .map(|tlv| [0, 1].map(|index| wire::word(tlv.value, index)))
        .collect()
}

/// The keep-alive interval of an endpoint of the node with this data.
fn keep_alive_interval(data: &[u8], endpoint: u32) -> u32 {
    let published = published_intervals(data);
    let first_for = |wanted| published.iter().find(|&&[endpoint, _]| endpoint == wanted);
    // One search for both would find the TLV for all endpoints, which mostly stands first.
    first_for(endpoint)
        .or_else(|| first_for(ALL_ENDPOINTS))
        .map_or(DEFAULT_KEEP_ALIVE, |&[_, interval]| interval)
}

/// A received Node State of length 28 or more.
struct NodeState<'a> {
    node: u32,
    seq: u32,
    age: u32,
    digest: Digest,
    /// None for one without data.
    data: Option<&'a [u8]>,
}

impl<'a> NodeState<'a> {
    fn read(value: &'a [u8]) -> NodeState<'a> {
        let mut stated = [0; 16];
        stated.copy_from_slice(&value[12..wire::NODE_STATE_FIXED]);
        let rest = &value[wire::NODE_STATE_FIXED..];
        // At length 28 there is data only where H(data) is the digest of nothing:
        // empty data, so that an empty node isn't requested again for ever.
        let has_data = !rest.is_empty() || stated == digest(&[]);
        NodeState {
            node: wire::word(value, 0),
            seq: wire::word(value, 1),
            age: wire::word(value, 2),
            digest: stated,
            data: has_data.then_some(rest),
        }
    }
}

/// What to do about a Node State of another node.
#[derive(Debug, PartialEq, Eq)]
enum Decision {
    /// Not wanted, or with data that isn't good or doesn't match H.
    Ignored,
    /// A new node, and the table is full.
    Dropped,
    /// Reply a Request Node State.
    RequestData,
    /// Take sequence number and age, keep the data.
    TakeNumber,
    /// Take sequence number, age and data.
    TakeAll,
}

/// The course of one datagram.
struct Course {
    now: u64,
    endpoint: u32,
    multicast: bool,
    /// A Node State of length 28 or more about another node is somewhere in the datagram.
    has_states_of_others: bool,
    /// Node and endpoint of the last Node Endpoint TLV met.
    sender: Option<(u32, u32)>,
    reply: Vec<u8>,
    omitted: usize,
    dropped: usize,
}

impl Course {
    /// Writes a reply TLV if it fits whole, the first one after our Node Endpoint TLV.
    fn reply(&mut self, own: u32, tlv: &[u8]) -> bool {
        let opening = if self.reply.is_empty() {
            wire::node_endpoint_tlv(own, self.endpoint)
        } else {
            Vec::new()
        };
        let fits = self.reply.len() + opening.len() + tlv.len() <= REPLY_ROOM;
        if fits {
            self.reply.extend_from_slice(&opening);
            self.reply.extend_from_slice(tlv);
        } else {
            self.omitted += 1;
        }
        fits
    }
}

impl Node {
    /// The state to start from: node 0 begun at reading 0 with random numbers 0.
    pub fn blank() -> Node {
        Node::started(
            0,
            0,
            vec![Entry::new(0, 0, 0, 0, Vec::new())],
            &[0; ENDPOINTS],
        )
    }

    /// A state with this table, no peers and nothing requested yet.
    pub(crate) fn started(own: u32, now: u64, table: Vec<Entry>, randoms: &Randoms) -> Node {
        let digest = network_digest(&reachable(&table, own, now));
        Node {
            own,
            last: now,
            digest,
            table,
            peers: Vec::new(),
            trickle: fresh_trickles(now, randoms),
            next_request: [0; ENDPOINTS],
            keep_alives: fresh_keep_alives(now, randoms),
        }
    }

    /// Begins with our own node alone. Refusals 1 4.
    pub fn begin(&mut self, table_len: usize, own: u32, clock: u64, randoms: &Randoms) -> u32 {
        let refusal = first_refusal(&[(1, clock > CLOCK_MAX), (4, table_len < TABLE_ROOM)]);
        if refusal == 0 {
            let table = vec![Entry::new(own, 0, 0, clock, Vec::new())];
            *self = Node::started(own, clock, table, randoms);
        }
        refusal
    }

    /// Handles a datagram TLV by TLV. Refusals 1 2 3 4 5 6.
    #[allow(clippy::too_many_arguments)]
    pub fn receive(
        &mut self,
        table_len: usize,
        reply_len: usize,
        datagram: &[u8],
        clock: u64,
        endpoint: u32,
        multicast: bool,
        randoms: &Randoms,
    ) -> Received {
        let row = wire::row(datagram);
        let refusal = first_refusal(&[
            (1, clock > CLOCK_MAX),
            (2, clock < self.last),
            (3, !is_endpoint(endpoint)),
            (4, table_len < TABLE_ROOM || reply_len < REPLY_ROOM),
            (5, datagram.len() > MAX_DATAGRAM),
            (6, row.is_none()),
        ]);
        if refusal != 0 {
            return Received {
                refusal,
                ..Received::default()
            };
        }
        let tlvs = row.unwrap_or_default();
        let mut course = Course {
            now: clock,
            endpoint,
            multicast,
            has_states_of_others: tlvs.iter().any(|tlv| self.is_state_of_other(tlv)),
            sender: None,
            reply: Vec::new(),
            omitted: 0,
            dropped: 0,
        };
        for tlv in &tlvs {
            self.handle(&mut course, tlv);
        }
        self.compare_digest(clock, randoms);
        self.last = clock;
        Received {
            refusal: 0,
            bytes: course.reply,
            omitted: course.omitted,
            dropped: course.dropped,
        }
    }

    /// What is due on an endpoint: peer removal, republishing, Trickle or else a keep-alive.
    /// Refusals 1 2 3 4.
    pub fn tick(
        &mut self,
        table_len: usize,
        reply_len: usize,
        clock: u64,
        endpoint: u32,
        randoms: &Randoms,
    ) -> Written {
        let refusal = first_refusal(&[
            (1, clock > CLOCK_MAX),
            (2, clock < self.last),
            (3, !is_endpoint(endpoint)),
            (4, table_len < TABLE_ROOM || reply_len < REPLY_ROOM),
        ]);
        if refusal != 0 {
            return Written {
                refusal,
                ..Written::default()
            };
        }
        let aged = self.own_entry().age_at(clock) >= REPUBLISH_AGE;
        let some_went = self.remove_silent_peers(endpoint, clock);
        if some_went || aged {
            self.own_entry_mut().publish(clock);
        }
        self.compare_digest(clock, randoms);
        self.last = clock;
        let index = endpoint as usize - 1;
        let bytes = if self.event(index, clock, randoms[index]) {
            self.status(endpoint)
        } else {
            Vec::new()
        };
        Written { refusal: 0, bytes }
    }

    /// Chooses the keep-alive interval of an endpoint. A choice is no sending: it moves
    /// neither the last one nor its delay. Refusals 1 2 3 12 4 9.
    pub fn keep_alive(
        &mut self,
        table_len: usize,
        clock: u64,
        endpoint: u32,
        interval: u32,
        randoms: &Randoms,
    ) -> u32 {
        let data = self.data_with_interval(endpoint, interval);
        let refusal = first_refusal(&[
            (1, clock > CLOCK_MAX),
            (2, clock < self.last),
            (3, !is_endpoint(endpoint)),
            (12, !(1..=KEEP_ALIVE_MAX).contains(&interval)),
            (4, table_len < TABLE_ROOM),
            (9, data.len() > wire::MAX_DATA),
        ]);
        if refusal == 0 {
            let chosen = &mut self.keep_alives[endpoint as usize - 1].keep;
            let changed = *chosen != interval;
            *chosen = interval;
            if changed {
                let entry = self.own_entry_mut();
                entry.set_data(data);
                entry.publish(clock);
            }
            self.compare_digest(clock, randoms);
            self.last = clock;
        }
        refusal
    }

    /// Puts a payment into our data. Refusals 1 2 4 7 8 9.
    pub fn pay(
        &mut self,
        table_len: usize,
        clock: u64,
        household: u32,
        receipt: u32,
        amount: i32,
        randoms: &Randoms,
    ) -> u32 {
        let tlv = wire::payment_tlv(&Payment {
            household,
            receipt,
            amount,
        });
        let data = &self.own_entry().data;
        let refusal = first_refusal(&[
            (1, clock > CLOCK_MAX),
            (2, clock < self.last),
            (4, table_len < TABLE_ROOM),
            (7, !wire::is_household(household)),
            (8, wire::contains(data, &tlv)),
            (9, data.len() + tlv.len() > wire::MAX_DATA),
        ]);
        if refusal == 0 {
            self.publish_with(&tlv, clock);
            self.compare_digest(clock, randoms);
            self.last = clock;
        }
        refusal
    }

    /// Drops ("forgets") every node that is not reachable. Refusals 1 2 4.
    pub fn purge(&mut self, table_len: usize, clock: u64, randoms: &Randoms) -> u32 {
        let refusal = self.clock_and_table_refusal(table_len, clock);
        if refusal == 0 {
            let levels = levels(&self.table, self.own, clock);
            let mut keep = levels.iter().map(|level| level.is_some());
            self.table.retain(|_| keep.next() == Some(true));
            self.compare_digest(clock, randoms);
            self.last = clock;
        }
        refusal
    }

    /// A household's total over the reachable nodes. Refusals 1 2 4 7.
    pub fn total(&self, table_len: usize, clock: u64, household: u32) -> Summed {
        let refusal = first_refusal(&[
            (1, clock > CLOCK_MAX),
            (2, clock < self.last),
            (4, table_len < TABLE_ROOM),
            (7, !wire::is_household(household)),
        ]);
        if refusal != 0 {
            return Summed {
                refusal,
                ..Summed::default()
            };
        }
        let (totals, unreadable) = household_totals(&self.reachable(clock));
        let value = totals.get(&household).copied().unwrap_or(0);
        Summed {
            refusal: 0,
            value,
            unreadable,
        }
    }

    /// The sum over all households. Refusals 1 2 4.
    pub fn sum(&self, table_len: usize, clock: u64) -> Summed {
        let refusal = self.clock_and_table_refusal(table_len, clock);
        if refusal != 0 {
            return Summed {
                refusal,
                ..Summed::default()
            };
        }
        let (totals, unreadable) = household_totals(&self.reachable(clock));
        Summed {
            refusal: 0,
            value: totals.values().sum(),
            unreadable,
        }
    }

    /// The reachable set, the network digest and the last level at a reading. Refusals 1 2 4.
    pub fn marks(&self, table_len: usize, clock: u64) -> Marks {
        let refusal = self.clock_and_table_refusal(table_len, clock);
        if refusal != 0 {
            return Marks {
                refusal,
                ..Marks::default()
            };
        }
        let reachable = self.reachable(clock);
        Marks {
            refusal: 0,
            digest: network_digest(&reachable),
            nodes: reachable.iter().map(|entry| entry.node).collect(),
            last_level: last_level(&self.table, self.own, clock),
        }
    }

    /// One node's data, in reach or not; empty for a refusal, whose number `show_refusal` gives.
    pub fn show(&self, table_len: usize, node: u32) -> &[u8] {
        match self.entry(node) {
            Some(entry) if self.show_refusal(table_len, node) == 0 => &entry.data,
            _ => &[],
        }
    }

    /// The number of `show` with the same arguments. Refusals 4 10.
    pub fn show_refusal(&self, table_len: usize, node: u32) -> u32 {
        first_refusal(&[
            (4, table_len < TABLE_ROOM),
            (10, self.entry(node).is_none()),
        ])
    }

    /// The checks shared by calls with a clock and the table memory only.
    pub(crate) fn clock_and_table_refusal(&self, table_len: usize, clock: u64) -> u32 {
        first_refusal(&[
            (1, clock > CLOCK_MAX),
            (2, clock < self.last),
            (4, table_len < TABLE_ROOM),
        ])
    }

    fn place(&self, node: u32) -> Result<usize, usize> {
        self.table.binary_search_by_key(&node, |entry| entry.node)
    }

    pub fn entry(&self, node: u32) -> Option<&Entry> {
        self.place(node).ok().map(|index| &self.table[index])
    }

    pub fn own_entry(&self) -> &Entry {
        self.entry(self.own).expect("our own node is in the table")
    }

    fn own_entry_mut(&mut self) -> &mut Entry {
        let index = self.place(self.own).expect("our own node is in the table");
        &mut self.table[index]
    }

    pub fn reachable(&self, now: u64) -> Vec<&Entry> {
        reachable(&self.table, self.own, now)
    }

    pub fn network_digest(&self, now: u64) -> Digest {
        network_digest(&self.reachable(now))
    }

    /// Adds a TLV to our data and publishes.
    fn publish_with(&mut self, tlv: &[u8], now: u64) {
        let entry = self.own_entry_mut();
        let mut data = entry.data.clone();
        wire::insert(&mut data, tlv);
        entry.set_data(data);
        entry.publish(now);
    }

    /// Our data with the Keep-Alive TLV of an endpoint replaced; the default needs none.
    fn data_with_interval(&self, endpoint: u32, interval: u32) -> Vec<u8> {
        let mut data = wire::without(&self.own_entry().data, |tlv| {
            tlv.kind == wire::KEEP_ALIVE && tlv.value.starts_with(&endpoint.to_be_bytes())
        });
        if interval != DEFAULT_KEEP_ALIVE {
            wire::insert(&mut data, &wire::keep_alive_tlv(endpoint, interval));
        }
        data
    }

    /// The one event of a tick: Trickle's, or else a keep-alive. Tells whether to send.
    fn event(&mut self, index: usize, now: u64, random: u32) -> bool {
        let trickle = &mut self.trickle[index];
        let keep_alive = &mut self.keep_alives[index];
        let send = match trickle.step(now, random) {
            Event::Send => true,
            Event::NoSend => false,
            Event::Nothing => {
                let due = now >= keep_alive.due();
                if due {
                    trickle.restart(now, random);
                }
                due
            }
        };
        if send {
            *keep_alive = KeepAlive::after_sending(keep_alive.keep, now, random);
        }
        send
    }

    /// Resets Trickle if the digest differs from the one at the end of the last such call.
    fn compare_digest(&mut self, now: u64, randoms: &Randoms) {
        let digest = self.network_digest(now);
        if digest != self.digest {
            for (trickle, &random) in self.trickle.iter_mut().zip(randoms) {
                trickle.reset(now, random);
            }
        }
        self.digest = digest;
    }

    /// What Trickle and a keep-alive send; the stored digest is that of the current reading.
    fn status(&self, endpoint: u32) -> Vec<u8> {
        let mut bytes = wire::node_endpoint_tlv(self.own, endpoint);
        bytes.extend_from_slice(&wire::network_state_tlv(&self.digest));
        bytes
    }

    /// The keep-alive interval of a peer: from the data held now, reachable or not.
    pub(crate) fn peer_interval(&self, peer: &Peer) -> u32 {
        match self.entry(peer.node) {
            Some(entry) => keep_alive_interval(&entry.data, peer.theirs),
            None => DEFAULT_KEEP_ALIVE,
        }
    }

    fn is_silent(&self, peer: &Peer, now: u64) -> bool {
        let interval = self.peer_interval(peer);
        // Ten times the silence may go beyond 64 bits.
        let long = 10 * u128::from(now - peer.contact) >= 21 * u128::from(interval);
        // Without keep-alives silence tells nothing, however long.
        long && interval != NO_KEEP_ALIVES
    }

    /// Removes the silent peers of an endpoint and their Peer TLVs; tells whether any went.
    fn remove_silent_peers(&mut self, endpoint: u32, now: u64) -> bool {
        let (gone, kept): (Vec<Peer>, Vec<Peer>) = self
            .peers
            .iter()
            .partition(|peer| peer.ours == endpoint && self.is_silent(peer, now));
        if gone.is_empty() {
            return false;
        }
        let tlvs: Vec<_> = gone.iter().map(Peer::tlv).collect();
        let entry = self.own_entry_mut();
        let data = wire::without(&entry.data, |tlv| tlvs.iter().any(|gone| gone == tlv.whole));
        entry.set_data(data);
        self.peers = kept;
        true
    }

    /// A Node State of length 28 or more about another node than ours.
    fn is_state_of_other(&self, tlv: &Tlv) -> bool {
        tlv.kind == wire::NODE_STATE
            && tlv.value.len() >= wire::NODE_STATE_FIXED
            && wire::word(tlv.value, 0) != self.own
    }

    /// One TLV of a datagram at its turn.
    fn handle(&mut self, course: &mut Course, tlv: &Tlv) {
        match (tlv.kind, tlv.value.len()) {
            (wire::REQUEST_NETWORK_STATE, _) => self.handle_request_network_state(course),
            (wire::REQUEST_NODE_STATE, 4..) => {
                self.handle_request_node_state(course, wire::word(tlv.value, 0));
            }
            (wire::NODE_ENDPOINT, 8..) => {
                let (node, endpoint) = (wire::word(tlv.value, 0), wire::word(tlv.value, 1));
                self.handle_node_endpoint(course, node, endpoint);
            }
            (wire::NETWORK_STATE, 16..) => self.handle_network_state(course, &tlv.value[..16]),
            (wire::NODE_STATE, wire::NODE_STATE_FIXED..) => {
                self.handle_node_state(course, &NodeState::read(tlv.value));
            }
            // Too short, or of a type that means nothing outside node data.
            _ => {}
        }
        // Any TLV counts, also one that is passed over.
        if !course.multicast {
            self.touch_sender(course);
        }
    }

    fn handle_request_network_state(&mut self, course: &mut Course) {
        let reachable = self.reachable(course.now);
        course.reply(
            self.own,
            &wire::network_state_tlv(&network_digest(&reachable)),
        );
        for entry in reachable {
            course.reply(self.own, &Node::state_tlv(entry, course.now, &[]));
        }
    }

    fn handle_request_node_state(&mut self, course: &mut Course, node: u32) {
        let reachable = self.reachable(course.now);
        if let Some(entry) = reachable.iter().find(|entry| entry.node == node) {
            course.reply(self.own, &Node::state_tlv(entry, course.now, &entry.data));
        }
    }

    fn handle_node_endpoint(&mut self, course: &mut Course, node: u32, endpoint: u32) {
        if node == self.own {
            return;
        }
        course.sender = Some((node, endpoint));
        if self.sender_peer(course).is_some() {
            return;
        }
        if course.multicast {
            self.request_network_state(course);
        } else {
            self.add_peer(course, node, endpoint);
        }
    }

    /// A new peer, if there is room for it and for its Peer TLV.
    fn add_peer(&mut self, course: &mut Course, node: u32, theirs: u32) {
        let room = self.own_entry().data.len() + PEER_TLV_SIZE <= wire::MAX_DATA;
        if self.peers.len() >= MAX_PEERS || !room {
            course.dropped += 1;
            return;
        }
        let peer = Peer {
            node,
            theirs,
            ours: course.endpoint,
            contact: course.now,
        };
        self.peers.push(peer);
        self.publish_with(&peer.tlv(), course.now);
    }

    fn handle_network_state(&mut self, course: &mut Course, received: &[u8]) {
        if received == self.network_digest(course.now) {
            self.touch_sender(course);
            if course.multicast {
                self.trickle[course.endpoint as usize - 1].hear();
            }
        } else if !course.has_states_of_others {
            self.request_network_state(course);
        }
    }

    fn handle_node_state(&mut self, course: &mut Course, state: &NodeState) {
        if state.node == self.own {
            self.reclaim(course, state);
            return;
        }
        match self.decide(state) {
            Decision::Ignored => {}
            Decision::Dropped => course.dropped += 1,
            Decision::RequestData => {
                course.reply(self.own, &wire::request_node_state_tlv(state.node));
            }
            Decision::TakeNumber => self.take_number(state, course.now),
            Decision::TakeAll => self.take_all(state, course.now),
        }
    }

    /// Republishes above a newer or different statement about our own node.
    fn reclaim(&mut self, course: &mut Course, state: &NodeState) {
        let entry = self.own_entry_mut();
        let newer = wire::older(entry.seq, state.seq);
        let different = entry.seq == state.seq && entry.digest != state.digest;
        if newer || different {
            entry.publish_as(state.seq.wrapping_add(RECLAIM_STEP), course.now);
        }
    }

    fn decide(&self, state: &NodeState) -> Decision {
        let held = self.entry(state.node);
        if held.is_none() && self.table.len() >= MAX_NODES {
            return Decision::Dropped;
        }
        let wanted = held.is_none_or(|held| {
            wire::older(held.seq, state.seq)
                || (held.seq == state.seq && held.digest != state.digest)
        });
        if !wanted {
            return Decision::Ignored;
        }
        match (state.data, held) {
            (Some(data), _) if wire::good(data) && digest(data) == state.digest => {
                Decision::TakeAll
            }
            (Some(_), _) => Decision::Ignored,
            (None, Some(held)) if held.digest == state.digest => Decision::TakeNumber,
            (None, _) => Decision::RequestData,
        }
    }

    fn take_number(&mut self, state: &NodeState, now: u64) {
        if let Ok(index) = self.place(state.node) {
            let entry = &mut self.table[index];
            entry.seq = state.seq;
            entry.age = state.age;
            entry.since = now;
        }
    }

    fn take_all(&mut self, state: &NodeState, now: u64) {
        let data = state.data.unwrap_or_default().to_vec();
        let entry = Entry::new(state.node, state.seq, state.age, now, data);
        match self.place(state.node) {
            Ok(index) => self.table[index] = entry,
            Err(index) => self.table.insert(index, entry),
        }
    }

    /// The peer that the sender is on the endpoint of this call, if it is one.
    fn sender_peer(&mut self, course: &Course) -> Option<&mut Peer> {
        let (node, theirs) = course.sender?;
        self.peers
            .iter_mut()
            .find(|peer| (peer.node, peer.theirs, peer.ours) == (node, theirs, course.endpoint))
    }

    fn touch_sender(&mut self, course: &Course) {
        if let Some(peer) = self.sender_peer(course) {
            peer.contact = course.now;
        }
    }

    /// Requests the network state, at most once per endpoint in 200 ms,
    /// counted from a request that was written.
    fn request_network_state(&mut self, course: &mut Course) {
        let index = course.endpoint as usize - 1;
        if course.now < self.next_request[index] {
            return;
        }
        if course.reply(self.own, &wire::request_network_state_tlv()) {
            self.next_request[index] = course.now + INTERVAL_MIN;
        }
    }

    /// A Node State with this data, or without data where it is empty.
    fn state_tlv(entry: &Entry, now: u64, data: &[u8]) -> Vec<u8> {
        wire::node_state_tlv(
            entry.node,
            entry.seq,
            entry.capped_age_at(now),
            &entry.digest,
            data,
        )
    }
}

//! The calls as a session makes them. The reference answers them, and so does a node that is
//! compared with it: the same script then runs on both.

use crate::node::{
    Marks, Node, Peer, Randoms, Received, Summed, Written, ENDPOINTS, REPLY_ROOM, TABLE_ROOM,
};
use crate::sha256::Digest;
use crate::snapshot::SNAPSHOT_ROOM;
use crate::wire::Payment;

/// Lengths of the lent buffers.
#[derive(Clone, Copy, Debug, PartialEq, Eq)]
pub struct Rooms {
    pub table: usize,
    pub reply: usize,
    pub snapshot: usize,
}

impl Default for Rooms {
    fn default() -> Rooms {
        Rooms {
            table: TABLE_ROOM,
            reply: REPLY_ROOM,
            snapshot: SNAPSHOT_ROOM,
        }
    }
}

/// A node with its state. A call gives its refusal number, 0 if it is accepted.
pub trait Calls {
    fn begin(&mut self, rooms: &Rooms, own: u32, clock: u64, randoms: &Randoms) -> u32;

    fn resume(&mut self, rooms: &Rooms, bytes: &[u8], clock: u64, randoms: &Randoms) -> u32;

    fn receive(
        &mut self,
        rooms: &Rooms,
        datagram: &[u8],
        clock: u64,
        endpoint: u32,
        multicast: bool,
        randoms: &Randoms,
    ) -> Received;

    fn tick(&mut self, rooms: &Rooms, clock: u64, endpoint: u32, randoms: &Randoms) -> Written;

    fn keep_alive(
        &mut self,
        rooms: &Rooms,
        clock: u64,
        endpoint: u32,
        interval: u32,
        randoms: &Randoms,
    ) -> u32;

    fn pay(&mut self, rooms: &Rooms, clock: u64, payment: &Payment, randoms: &Randoms) -> u32;

    fn purge(&mut self, rooms: &Rooms, clock: u64, randoms: &Randoms) -> u32;

    fn total(&self, rooms: &Rooms, clock: u64, household: u32) -> Summed;

    fn sum(&self, rooms: &Rooms, clock: u64) -> Summed;

    fn marks(&self, rooms: &Rooms, clock: u64) -> Marks;

    fn save(&self, rooms: &Rooms, clock: u64) -> Written;

    /// The data, and the number that the second call gives.
    fn show(&self, rooms: &Rooms, node: u32) -> Written;

    /// The whole state.
    fn view(&self) -> View<'_>;
}

/// A state, however a node keeps it.
#[derive(Clone, Debug, PartialEq, Eq)]
pub struct View<'a> {
    pub own: u32,
    pub last: u64,
    pub digest: Digest,
    /// In the order of the table.
    pub nodes: Vec<NodeView<'a>>,
    /// In the order in which they came.
    pub peers: Vec<Peer>,
    pub endpoints: [EndpointView; ENDPOINTS],
}

/// What is held of one node.
#[derive(Clone, Copy, Debug, PartialEq, Eq)]
pub struct NodeView<'a> {
    pub node: u32,
    pub seq: u32,
    pub age: u64,
    pub since: u64,
    pub data: &'a [u8],
    /// H of the data, as it is kept.
    pub digest: Digest,
}

/// Trickle of one endpoint, the reading from which it may request again, its keep-alives.
#[derive(Clone, Copy, Debug, PartialEq, Eq)]
pub struct EndpointView {
    pub start: u64,
    pub point: u64,
    pub interval: u64,
    pub count: u32,
    pub spent: bool,
    pub next_request: u64,
    /// The chosen keep-alive interval.
    pub keep: u32,
    /// The reading of the last sending plus its delay.
    pub quiet: u64,
}

impl Calls for Node {
    fn begin(&mut self, rooms: &Rooms, own: u32, clock: u64, randoms: &Randoms) -> u32 {
        Node::begin(self, rooms.table, own, clock, randoms)
    }

    fn resume(&mut self, rooms: &Rooms, bytes: &[u8], clock: u64, randoms: &Randoms) -> u32 {
        Node::resume(self, rooms.table, bytes, clock, randoms)
    }

    fn receive(
        &mut self,
        rooms: &Rooms,
        datagram: &[u8],
        clock: u64,
        endpoint: u32,
        multicast: bool,
        randoms: &Randoms,
    ) -> Received {
        let (table, reply) = (rooms.table, rooms.reply);
        Node::receive(
            self, table, reply, datagram, clock, endpoint, multicast, randoms,
        )
    }

    fn tick(&mut self, rooms: &Rooms, clock: u64, endpoint: u32, randoms: &Randoms) -> Written {
        Node::tick(self, rooms.table, rooms.reply, clock, endpoint, randoms)
    }

    fn keep_alive(
        &mut self,
        rooms: &Rooms,
        clock: u64,
        endpoint: u32,
        interval: u32,
        randoms: &Randoms,
    ) -> u32 {
        Node::keep_alive(self, rooms.table, clock, endpoint, interval, randoms)
    }

    fn pay(&mut self, rooms: &Rooms, clock: u64, payment: &Payment, randoms: &Randoms) -> u32 {
        let Payment {
            household,
            receipt,
            amount,
        } = *payment;
        Node::pay(
            self,
            rooms.table,
            clock,
            household,
            receipt,
            amount,
            randoms,
        )
    }

    fn purge(&mut self, rooms: &Rooms, clock: u64, randoms: &Randoms) -> u32 {
        Node::purge(self, rooms.table, clock, randoms)
    }

    fn total(&self, rooms: &Rooms, clock: u64, household: u32) -> Summed {
        Node::total(self, rooms.table, clock, household)
    }

    fn sum(&self, rooms: &Rooms, clock: u64) -> Summed {
        Node::sum(self, rooms.table, clock)
    }

    fn marks(&self, rooms: &Rooms, clock: u64) -> Marks {
        Node::marks(self, rooms.table, clock)
    }

    fn save(&self, rooms: &Rooms, clock: u64) -> Written {
        Node::save(self, rooms.table, rooms.snapshot, clock)
    }

    fn show(&self, rooms: &Rooms, node: u32) -> Written {
        Written {
            refusal: self.show_refusal(rooms.table, node),
            bytes: Node::show(self, rooms.table, node).to_vec(),
        }
    }

    fn view(&self) -> View<'_> {
        let nodes = self.table.iter().map(|entry| NodeView {
            node: entry.node,
            seq: entry.seq,
            age: u64::from(entry.age),
            since: entry.since,
            data: entry.data(),
            digest: *entry.digest(),
        });
        View {
            own: self.own,
            last: self.last,
            digest: self.digest,
            nodes: nodes.collect(),
            peers: self.peers.clone(),
            endpoints: std::array::from_fn(|index| self.endpoint_view(index)),
        }
    }
}

impl Node {
    fn endpoint_view(&self, index: usize) -> EndpointView {
        let trickle = &self.trickle[index];
        let keep_alive = &self.keep_alives[index];
        EndpointView {
            start: trickle.start,
            point: trickle.point,
            interval: trickle.interval,
            count: u32::from(trickle.count),
            spent: trickle.spent,
            next_request: self.next_request[index],
            keep: keep_alive.keep,
            quiet: keep_alive.quiet,
        }
    }
}

//! A node that owns its state and its table memory.

use crate::plain::{
    self, Refusal, State, MOST_BYTES, MOST_ENDPOINTS, MOST_NODES, SNAPSHOT_BYTES, TABLE_BYTES,
};
use core::fmt::{self, Debug, Formatter};
use core::ops::RangeInclusive;

/// Our endpoints.
pub const ENDPOINTS: RangeInclusive<u32> = 1..=MOST_ENDPOINTS as u32;

/// One random number for each endpoint. Every call that takes them gets new ones.
pub type Randoms = [u32; MOST_ENDPOINTS];

/// What [`Node::receive`] and [`Node::tick`] write to.
pub type Room = [u8; MOST_BYTES];

/// What [`Node::save`] writes to.
pub type SnapshotRoom = [u8; SNAPSHOT_BYTES];

/// A ledger node: its state, and the data of all nodes that it holds.
///
/// Clock readings are milliseconds and never go back, but at [`begin`](Node::begin) and
/// [`resume`](Node::resume), which set the first one. A refused call changes nothing.
///
/// A node has some 34 KB, and a call needs up to 16 KB of stack. A clone is the same box: of the two
/// only one may go on to send.
#[derive(Clone)]
pub struct Node {
    state: State,
    memory: [u8; TABLE_BYTES],
}

// Safety of the calls below: state and memory are private, they start blank, and nothing but the
// calls writes to them. So they are as the last call left them.
impl Node {
    /// Node 0 at reading 0, to begin or to resume with.
    pub fn new() -> Node {
        Node {
            state: plain::blank(),
            memory: [0; TABLE_BYTES],
        }
    }

    /// Begins with our node alone: empty data, sequence number 0, no peers. All that was held is
    /// gone.
    ///
    /// No other box may have this identifier, nor this one in an earlier life: two boxes with one
    /// replace each other's payments.
    ///
    /// # Errors
    ///
    /// The refusals of [`plain::begin`] but [`Refusal::BufferTooSmall`].
    pub fn begin(&mut self, own: u32, clock: u64, randoms: &Randoms) -> Result<(), Refusal> {
        let done = unsafe { plain::begin(&self.state, &self.memory, own, clock, randoms) };
        self.state = done.state;
        accepted(done.number)
    }

    /// Goes on from a snapshot, at whatever reading. Our peers are unknown at first, so that only
    /// our own node is reachable, and our data are published anew. Keep-alive intervals are the usual
    /// one again.
    ///
    /// # Errors
    ///
    /// The refusals of [`plain::resume`] but [`Refusal::BufferTooSmall`].
    pub fn resume(
        &mut self,
        snapshot: &[u8],
        clock: u64,
        randoms: &Randoms,
    ) -> Result<(), Refusal> {
        let (state, memory) = (&self.state, &mut self.memory);
        let done = unsafe { plain::resume(state, memory, snapshot, clock, randoms) };
        self.state = done.state;
        accepted(done.number)
    }

    /// Takes in a datagram that came on the endpoint, by unicast or else by multicast. The reply
    /// goes back by unicast to where the datagram came from, on the same endpoint.
    ///
    /// # Errors
    ///
    /// The refusals of [`plain::receive`] but [`Refusal::BufferTooSmall`].
    pub fn receive<'a>(
        &mut self,
        room: &'a mut Room,
        datagram: &[u8],
        clock: u64,
        endpoint: u32,
        unicast: bool,
        randoms: &Randoms,
    ) -> Result<Reply<'a>, Refusal> {
        let (state, memory) = (&self.state, &mut self.memory);
        let answer = unsafe {
            plain::receive(
                state, memory, room, datagram, clock, endpoint, unicast, randoms,
            )
        };
        self.state = answer.state;
        accepted(answer.number)?;
        Ok(Reply {
            bytes: &room[..answer.length],
            omitted: answer.omitted,
            dropped: answer.dropped,
        })
    }

    /// Does what is due on the endpoint: removes peers that fell silent, publishes our data anew
    /// before it is too old, and gives what is to be sent by multicast on it; nothing is to be
    /// sent where that is empty.
    ///
    /// Each of the [`ENDPOINTS`] is ticked some ten times a second.
    ///
    /// # Errors
    ///
    /// The refusals of [`plain::tick`] but [`Refusal::BufferTooSmall`].
    pub fn tick<'a>(
        &mut self,
        room: &'a mut Room,
        clock: u64,
        endpoint: u32,
        randoms: &Randoms,
    ) -> Result<&'a [u8], Refusal> {
        let (state, memory) = (&self.state, &mut self.memory);
        let sent = unsafe { plain::tick(state, memory, room, clock, endpoint, randoms) };
        self.state = sent.state;
        accepted(sent.number)?;
        Ok(&room[..sent.length])
    }

    /// Chooses the endpoint's keep-alive interval in milliseconds, 1 to
    /// [`MOST_KEEP_ALIVE`](crate::MOST_KEEP_ALIVE): when ticks of the endpoint have sent nothing for so
    /// long, and a random delay of up to 100 ms, one sends. Our data tell it to the peers, who remove us
    /// when they have not heard us for 2.1 times as long; unless it is
    /// [`USUAL_INTERVAL`](crate::USUAL_INTERVAL), as at first, it takes 12 bytes.
    /// [`begin`](Node::begin) and [`resume`](Node::resume) set that one again.
    ///
    /// With ten ticks a second choose 5,000 or more: with a shorter one peers may remove us though
    /// nobody is gone.
    ///
    /// # Errors
    ///
    /// The refusals of [`plain::keep_alive`] but [`Refusal::BufferTooSmall`].
    pub fn keep_alive(
        &mut self,
        clock: u64,
        endpoint: u32,
        interval: u32,
        randoms: &Randoms,
    ) -> Result<(), Refusal> {
        let (state, memory) = (&self.state, &mut self.memory);
        let done = unsafe { plain::keep_alive(state, memory, clock, endpoint, interval, randoms) };
        self.state = done.state;
        accepted(done.number)
    }

    /// Puts a payment, in cents, into our data, where it takes 8, 12 or 16 bytes, and publishes it.
    /// [Save](Node::save) before anything is sent: a node that resumes from an older snapshot takes
    /// it back everywhere. Only the same household, receipt and amount together are the same payment.
    ///
    /// # Errors
    ///
    /// The refusals of [`plain::pay`] but [`Refusal::BufferTooSmall`].
    pub fn pay(
        &mut self,
        clock: u64,
        household: u32,
        receipt: u32,
        amount: i32,
        randoms: &Randoms,
    ) -> Result<(), Refusal> {
        let (state, memory) = (&self.state, &mut self.memory);
        let done = unsafe { plain::pay(state, memory, clock, household, receipt, amount, randoms) };
        self.state = done.state;
        accepted(done.number)
    }

    /// Drops every node that is not reachable, its payments with it, which makes place for others.
    /// What is reachable again later comes again.
    ///
    /// # Errors
    ///
    /// The refusals of [`plain::purge`] but [`Refusal::BufferTooSmall`].
    pub fn purge(&mut self, clock: u64, randoms: &Randoms) -> Result<(), Refusal> {
        let done = unsafe { plain::purge(&self.state, &self.memory, clock, randoms) };
        self.state = done.state;
        accepted(done.number)
    }

    /// The total of a household over all reachable nodes.
    ///
    /// # Errors
    ///
    /// The refusals of [`plain::total`] but [`Refusal::BufferTooSmall`].
    pub fn total(&self, clock: u64, household: u32) -> Result<Total, Refusal> {
        summed(unsafe { plain::total(&self.state, &self.memory, clock, household) })
    }

    /// The sum over all households.
    ///
    /// # Errors
    ///
    /// The refusals of [`plain::sum`] but [`Refusal::BufferTooSmall`].
    pub fn sum(&self, clock: u64) -> Result<Total, Refusal> {
        summed(unsafe { plain::sum(&self.state, &self.memory, clock) })
    }

    /// The reachable nodes, whose payments are summed, how far they go, and the network digest.
    ///
    /// # Errors
    ///
    /// The refusals of [`plain::marks`] but [`Refusal::BufferTooSmall`].
    pub fn marks(&self, clock: u64) -> Result<Marks, Refusal> {
        let marked = unsafe { plain::marks(&self.state, &self.memory, clock) };
        accepted(marked.number)?;
        Ok(Marks {
            count: marked.count,
            levels: marked.levels,
            nodes: marked.nodes,
            digest: marked.digest,
        })
    }

    /// A snapshot of all nodes held, written to the front of the room.
    ///
    /// # Errors
    ///
    /// The refusals of [`plain::save`] but [`Refusal::BufferTooSmall`].
    pub fn save<'a>(&self, room: &'a mut SnapshotRoom, clock: u64) -> Result<&'a [u8], Refusal> {
        let saved = unsafe { plain::save(&self.state, &self.memory, room, clock) };
        accepted(saved.number)?;
        Ok(&room[..saved.length])
    }

    /// The data of a node, reachable or not.
    ///
    /// # Errors
    ///
    /// The refusals of [`plain::show_refusal`] but [`Refusal::BufferTooSmall`].
    pub fn show(&self, node: u32) -> Result<&[u8], Refusal> {
        accepted(unsafe { plain::show_refusal(&self.state, &self.memory, node) })?;
        let part = unsafe { plain::show(&self.state, &self.memory, node) };
        Ok(&self.memory[part.start..][..part.length])
    }

    /// The state, to look at: our identifier, the last accepted reading, the peers.
    pub fn state(&self) -> &State {
        &self.state
    }
}

impl Default for Node {
    fn default() -> Node {
        Node::new()
    }
}

impl Debug for Node {
    fn fmt(&self, f: &mut Formatter<'_>) -> fmt::Result {
        f.debug_struct("Node")
            .field("own", &self.state.own)
            .field("last", &self.state.last)
            .finish_non_exhaustive()
    }
}

/// What [`Node::receive`] gives.
#[derive(Clone, Copy, Debug, PartialEq, Eq)]
pub struct Reply<'a> {
    /// To be sent back; nothing is to be sent where that is empty.
    pub bytes: &'a [u8],
    /// Replies left out because the room is full. Nothing has to be done: the peer asks again.
    pub omitted: u32,
    /// New peers and nodes dropped because there is no place for them. They come again;
    /// [`Node::purge`] makes place for nodes.
    pub dropped: u32,
}

/// A sum of payments.
#[derive(Clone, Copy, Debug, PartialEq, Eq)]
pub struct Total {
    /// Cents.
    pub value: i64,
    /// Payments of reachable nodes that can't be read, of whatever household.
    pub unread: u32,
}

/// The reachable nodes. Boxes that agree have the same nodes and the same digest, but not always the
/// same levels, which each counts from itself.
#[derive(Clone, Copy, Debug, PartialEq, Eq)]
pub struct Marks {
    count: usize,
    levels: usize,
    nodes: [u32; MOST_NODES],
    digest: [u8; 16],
}

impl Marks {
    /// Their identifiers, ascending.
    pub fn nodes(&self) -> &[u32] {
        &self.nodes[..self.count]
    }

    /// The number of the last level: how many steps it takes from our own node, level 0, to the
    /// farthest reachable one. The marking passes over the table once more than that.
    pub fn levels(&self) -> usize {
        self.levels
    }

    /// The network digest.
    pub fn digest(&self) -> [u8; 16] {
        self.digest
    }
}

fn accepted(number: u32) -> Result<(), Refusal> {
    match number {
        0 => Ok(()),
        _ => Err(Refusal::of(number).expect("a number of the documents")),
    }
}

fn summed(summed: plain::Summed) -> Result<Total, Refusal> {
    accepted(summed.number)?;
    Ok(Total {
        value: summed.value,
        unread: summed.unread,
    })
}

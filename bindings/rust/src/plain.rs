//! The plain calls, for hosts that place state and table memory themselves. For all others there
//! is [`Node`](crate::Node).
//!
//! A ledger node (DNCP, RFC 7787) whose every call is proved. Where a language has no slices, one
//! is a pointer, which is not null, and a length.
//!
//! The library owns nothing: no memory, no clock, no radio, no random numbers. A host
//!
//! - starts from the blank state, and hands each call the state and the table memory just as the
//!   last call left them. That is the one premise of the proofs. It holds for refused calls too, so
//!   nothing has to be checked before a call;
//! - lends [`TABLE_BYTES`] of table memory to every call, [`MOST_BYTES`] of room to receive and
//!   tick, [`SNAPSHOT_BYTES`] to save. More is fine, less is refused with
//!   [`Refusal::BufferTooSmall`]. Buffers lent to one call don't overlap;
//! - gives each box an identifier of its own, for good: two boxes with one identifier replace each
//!   other's payments, and so does a box that begins anew under the one that it had;
//! - gives one random number for each endpoint with every call that changes state, new ones each
//!   time;
//! - gives the clock in milliseconds, never lower than before;
//! - ticks every endpoint, 1 to [`MOST_ENDPOINTS`], again and again, some ten times a second:
//!   Trickle's shortest interval is [`LEAST_INTERVAL`], and a keep-alive that is due may have to
//!   wait for later ticks. What a tick writes goes out by multicast on that endpoint;
//! - hands each datagram to receive, with the endpoint that it came on and whether it came by
//!   unicast. What receive writes goes back by unicast to where the datagram came from, on the same
//!   endpoint;
//! - saves after each accepted payment before anything is sent, and keeps that snapshot over a loss
//!   of power: whole or not at all, and with a checksum, for a snapshot has none. A node that
//!   resumes from an older one takes the payments since back everywhere.
//!
//! An answer's number is 0 for an accepted call, else why it is refused: the first in the order
//! given with each call that applies. A refused call gives 0 in all other fields, hands back the
//! state that came in, and writes to no buffer. Of an accepted call, the bytes of a buffer beyond
//! what is written stay.
//!
//! Calls on different states may run at the same time. A node is a box, a snapshot its saved book.
//! A node is reachable when a chain of nodes that name each other as peers leads from ours to it.
//!
//! Written by tools/bindings from the Rattle source.

// Where a field's name or a number's says all, there are no words besides.
#![allow(missing_docs, clippy::too_many_arguments)]

use core::mem::{offset_of, size_of};

/// Nodes held, with our own.
pub const MOST_NODES: usize = 32;

/// Bytes of node data that are accepted, and held of each node.
pub const DATA_LIMIT: usize = 1024;

/// Bytes that our own data may come to by publishing more.
pub const PUBLISH_LIMIT: usize = 1024;

/// Bytes of table memory: a slot for each node.
pub const TABLE_BYTES: usize = 32768;

/// Endpoints, numbered from 1 on.
pub const MOST_ENDPOINTS: usize = 4;

/// Peers over all endpoints.
pub const MOST_PEERS: usize = 16;

/// Bytes of a datagram at most, of what is sent at most, and of the room lent for it.
pub const MOST_BYTES: usize = 4096;

/// Bytes of a snapshot at most, and of what is lent for it.
pub const SNAPSHOT_BYTES: usize = 33319;

/// The last reading of the clock, in milliseconds.
pub const LAST_READING: u64 = 4611686018427387903;

/// Trickle's shortest interval, in milliseconds.
pub const LEAST_INTERVAL: u64 = 200;

/// Trickle's longest interval.
pub const GREATEST_INTERVAL: u64 = 25600;

/// Trickle's redundancy constant: so many equal digests heard make sending needless.
pub const REDUNDANCY: u32 = 1;

/// Where the count of equal digests stays.
pub const MOST_COUNT: u32 = 255;

/// A request for network state goes out at most once in so many milliseconds on an endpoint.
pub const REQUEST_GAP: u64 = 200;

/// A node this old leads no further.
pub const AGE_LIMIT: u64 = 4294934528;

/// Our data are published anew at this age.
pub const REFRESH_AGE: u64 = 4294901760;

/// The largest age that is sent or saved.
pub const MOST_AGE: u64 = 4294967295;

/// The keep-alive interval, in milliseconds, of an endpoint for which its node publishes no
/// Keep-Alive TLV: a peer's, and ours at first.
pub const USUAL_INTERVAL: u32 = 20000;

/// The shortest keep-alive interval that can be chosen.
pub const LEAST_KEEP_ALIVE: u32 = 1;

/// The longest keep-alive interval that can be chosen.
pub const MOST_KEEP_ALIVE: u32 = 600000;

/// The longest delay of a keep-alive, in milliseconds.
pub const MOST_DELAY: u64 = 100;

/// What a reclaimed sequence number gains.
pub const RECLAIM_STEP: u32 = 1000;

/// Bytes of a Peer TLV.
pub const PEER_BYTES: usize = 16;

/// Bytes of a Keep-Alive TLV.
pub const KEEP_ALIVE_BYTES: usize = 12;

/// The first household.
pub const LEAST_HOUSEHOLD: u32 = 1;

/// The last household.
pub const MOST_HOUSEHOLD: u32 = 9999;

/// Why a call is refused: a number of documents 01 and 02, and its words.
#[repr(u32)]
#[non_exhaustive]
#[derive(Clone, Copy, Debug, PartialEq, Eq, Hash)]
pub enum Refusal {
    /// Clock above 2^62 - 1.
    ClockTooHigh = 1,
    /// Clock below the last accepted reading.
    ClockBack = 2,
    /// Endpoint not 1 to 4.
    NoSuchEndpoint = 3,
    /// A lent buffer is below its figure.
    BufferTooSmall = 4,
    /// Datagram over 4,096 bytes.
    DatagramTooLong = 5,
    /// Datagram is not a row of whole TLVs with zero padding.
    DatagramMalformed = 6,
    /// Household outside 1 to 9,999.
    NoSuchHousehold = 7,
    /// This very payment stands in our data already.
    PaidAlready = 8,
    /// The payment doesn't fit in our 1,024 bytes, or no room in our data for the TLV.
    DataFull = 9,
    /// No such box in the table.
    NoSuchNode = 10,
    /// Not a saved book.
    NotASnapshot = 11,
    /// An interval of 0 or above 600,000.
    NoSuchInterval = 12,
}

impl Refusal {
    /// Every refusal, ascending by number.
    pub const ALL: [Refusal; 12] = [
        Refusal::ClockTooHigh,
        Refusal::ClockBack,
        Refusal::NoSuchEndpoint,
        Refusal::BufferTooSmall,
        Refusal::DatagramTooLong,
        Refusal::DatagramMalformed,
        Refusal::NoSuchHousehold,
        Refusal::PaidAlready,
        Refusal::DataFull,
        Refusal::NoSuchNode,
        Refusal::NotASnapshot,
        Refusal::NoSuchInterval,
    ];

    /// The words of documents 01 and 02.
    pub const fn words(self) -> &'static str {
        match self {
            Refusal::ClockTooHigh => "clock above 2^62 - 1",
            Refusal::ClockBack => "clock below the last accepted reading",
            Refusal::NoSuchEndpoint => "endpoint not 1 to 4",
            Refusal::BufferTooSmall => "a lent buffer is below its figure",
            Refusal::DatagramTooLong => "datagram over 4,096 bytes",
            Refusal::DatagramMalformed => "datagram is not a row of whole TLVs with zero padding",
            Refusal::NoSuchHousehold => "household outside 1 to 9,999",
            Refusal::PaidAlready => "this very payment stands in our data already",
            Refusal::DataFull => {
                "the payment doesn't fit in our 1,024 bytes, or no room in our data for the TLV"
            }
            Refusal::NoSuchNode => "no such box in the table",
            Refusal::NotASnapshot => "not a saved book",
            Refusal::NoSuchInterval => "an interval of 0 or above 600,000",
        }
    }
}

/// What is held of one node. Its data are the len bytes from slot * [`DATA_LIMIT`] on in the table
/// memory.
#[repr(C)]
#[derive(Clone, Copy, Debug, PartialEq, Eq)]
pub struct Entry {
    pub id: u32,
    /// The sequence number.
    pub seq: u32,
    /// In milliseconds, at the reading since.
    pub age: u32,
    pub len: u16,
    pub slot: u16,
    pub since: u64,
    /// H of the data.
    pub hash: [u8; 16],
}

/// The nodes held, ascending by identifier: the first count entries.
#[repr(C)]
#[derive(Clone, Copy, Debug, PartialEq, Eq)]
pub struct Table {
    pub count: usize,
    pub entries: [Entry; MOST_NODES],
}

/// A peer: a node on a link of ours.
#[repr(C)]
#[derive(Clone, Copy, Debug, PartialEq, Eq)]
pub struct Peer {
    pub node: u32,
    /// Its endpoint.
    pub theirs: u32,
    /// Our endpoint.
    pub ours: u32,
    /// The reading of the last contact.
    pub contact: u64,
}

/// The peers, in the order in which they came: the first count of the list.
#[repr(C)]
#[derive(Clone, Copy, Debug, PartialEq, Eq)]
pub struct Peers {
    pub count: usize,
    pub list: [Peer; MOST_PEERS],
}

/// When an endpoint sends: at start + point, unless an equal digest was heard since start.
#[repr(C)]
#[derive(Clone, Copy, Debug, PartialEq, Eq)]
pub struct Trickle {
    /// The reading at which the interval began.
    pub start: u64,
    pub point: u64,
    pub interval: u64,
    /// Equal digests heard in it.
    pub count: u32,
    /// The send point has passed.
    pub spent: bool,
}

/// One of our endpoints.
#[repr(C)]
#[derive(Clone, Copy, Debug, PartialEq, Eq)]
pub struct Endpoint {
    pub trickle: Trickle,
    /// The reading from which network state may be requested again.
    pub next: u64,
    /// The keep-alive interval, in milliseconds.
    pub keep: u32,
    /// The reading of the last sending plus the delay that was fixed then.
    pub quiet: u64,
}

/// The state that a call gets and leaves. A host keeps it and need not look into it; node data
/// stand in the lent table memory.
#[repr(C)]
#[derive(Clone, Copy, Debug, PartialEq, Eq)]
pub struct State {
    /// Our identifier.
    pub own: u32,
    /// The last accepted reading of the clock.
    pub last: u64,
    pub table: Table,
    pub peers: Peers,
    pub endpoints: [Endpoint; MOST_ENDPOINTS],
    /// The network digest at that reading.
    pub digest: [u8; 16],
}

/// What begin, resume, pay and purge answer.
#[repr(C)]
#[derive(Clone, Copy, Debug, PartialEq, Eq)]
pub struct Done {
    pub number: u32,
    pub state: State,
}

/// What receive answers.
#[repr(C)]
#[derive(Clone, Copy, Debug, PartialEq, Eq)]
pub struct Answer {
    pub number: u32,
    pub state: State,
    /// Bytes of the reply, at the front of the room.
    pub length: usize,
    /// Replies left out because the room is full; the peer asks again.
    pub omitted: u32,
    /// New peers and nodes dropped because there is no place for them.
    pub dropped: u32,
}

/// What tick answers.
#[repr(C)]
#[derive(Clone, Copy, Debug, PartialEq, Eq)]
pub struct Sent {
    pub number: u32,
    pub state: State,
    /// Bytes to send, at the front of the room.
    pub length: usize,
}

/// What total and sum answer.
#[repr(C)]
#[derive(Clone, Copy, Debug, PartialEq, Eq)]
pub struct Summed {
    pub number: u32,
    /// Cents.
    pub value: i64,
    /// Payments of reachable nodes that can't be read, of whatever household.
    pub unread: u32,
}

/// What marks answers.
#[repr(C)]
#[derive(Clone, Copy, Debug, PartialEq, Eq)]
pub struct Marked {
    pub number: u32,
    pub count: usize,
    /// The number of the last level: how many steps it takes from our own node, level 0, to the
    /// farthest reachable one. The marking passes over the table once more than that.
    pub levels: usize,
    /// The first count are the identifiers of the reachable nodes, ascending; the others are 0.
    pub nodes: [u32; MOST_NODES],
    /// The network digest.
    pub digest: [u8; 16],
}

/// What save answers.
#[repr(C)]
#[derive(Clone, Copy, Debug, PartialEq, Eq)]
pub struct Saved {
    pub number: u32,
    /// Bytes of the snapshot, at the front of what was lent for it.
    pub length: usize,
}

/// What show answers: a part of the table memory.
#[repr(C)]
#[derive(Clone, Copy, Debug, PartialEq, Eq)]
pub struct Extent {
    pub start: usize,
    pub length: usize,
}

// Where a layout is not the library's, this does not compile.
const _: () = {
    assert!(size_of::<Entry>() == 40);
    assert!(offset_of!(Entry, id) == 0);
    assert!(offset_of!(Entry, seq) == 4);
    assert!(offset_of!(Entry, age) == 8);
    assert!(offset_of!(Entry, len) == 12);
    assert!(offset_of!(Entry, slot) == 14);
    assert!(offset_of!(Entry, since) == 16);
    assert!(offset_of!(Entry, hash) == 24);
    assert!(size_of::<Table>() == 1288);
    assert!(offset_of!(Table, count) == 0);
    assert!(offset_of!(Table, entries) == 8);
    assert!(size_of::<Peer>() == 24);
    assert!(offset_of!(Peer, node) == 0);
    assert!(offset_of!(Peer, theirs) == 4);
    assert!(offset_of!(Peer, ours) == 8);
    assert!(offset_of!(Peer, contact) == 16);
    assert!(size_of::<Peers>() == 392);
    assert!(offset_of!(Peers, count) == 0);
    assert!(offset_of!(Peers, list) == 8);
    assert!(size_of::<Trickle>() == 32);
    assert!(offset_of!(Trickle, start) == 0);
    assert!(offset_of!(Trickle, point) == 8);
    assert!(offset_of!(Trickle, interval) == 16);
    assert!(offset_of!(Trickle, count) == 24);
    assert!(offset_of!(Trickle, spent) == 28);
    assert!(size_of::<Endpoint>() == 56);
    assert!(offset_of!(Endpoint, trickle) == 0);
    assert!(offset_of!(Endpoint, next) == 32);
    assert!(offset_of!(Endpoint, keep) == 40);
    assert!(offset_of!(Endpoint, quiet) == 48);
    assert!(size_of::<State>() == 1936);
    assert!(offset_of!(State, own) == 0);
    assert!(offset_of!(State, last) == 8);
    assert!(offset_of!(State, table) == 16);
    assert!(offset_of!(State, peers) == 1304);
    assert!(offset_of!(State, endpoints) == 1696);
    assert!(offset_of!(State, digest) == 1920);
    assert!(size_of::<Done>() == 1944);
    assert!(offset_of!(Done, number) == 0);
    assert!(offset_of!(Done, state) == 8);
    assert!(size_of::<Answer>() == 1960);
    assert!(offset_of!(Answer, number) == 0);
    assert!(offset_of!(Answer, state) == 8);
    assert!(offset_of!(Answer, length) == 1944);
    assert!(offset_of!(Answer, omitted) == 1952);
    assert!(offset_of!(Answer, dropped) == 1956);
    assert!(size_of::<Sent>() == 1952);
    assert!(offset_of!(Sent, number) == 0);
    assert!(offset_of!(Sent, state) == 8);
    assert!(offset_of!(Sent, length) == 1944);
    assert!(size_of::<Summed>() == 24);
    assert!(offset_of!(Summed, number) == 0);
    assert!(offset_of!(Summed, value) == 8);
    assert!(offset_of!(Summed, unread) == 16);
    assert!(size_of::<Marked>() == 168);
    assert!(offset_of!(Marked, number) == 0);
    assert!(offset_of!(Marked, count) == 8);
    assert!(offset_of!(Marked, levels) == 16);
    assert!(offset_of!(Marked, nodes) == 24);
    assert!(offset_of!(Marked, digest) == 152);
    assert!(size_of::<Saved>() == 16);
    assert!(offset_of!(Saved, number) == 0);
    assert!(offset_of!(Saved, length) == 8);
    assert!(size_of::<Extent>() == 16);
    assert!(offset_of!(Extent, start) == 0);
    assert!(offset_of!(Extent, length) == 8);
};

/// The functions of the archive. A slice is two arguments, pointer and length.
mod raw {
    use super::{Answer, Done, Extent, Marked, Saved, Sent, State, Summed, MOST_ENDPOINTS};

    unsafe extern "C" {
        pub safe fn pingvratha_blank() -> State;

        pub fn pingvratha_begin(
            state: State,
            memory: *const u8,
            memory_length: usize,
            own: u32,
            clock: u64,
            randoms: &[u32; MOST_ENDPOINTS],
        ) -> Done;

        pub fn pingvratha_resume(
            state: State,
            memory: *mut u8,
            memory_length: usize,
            snapshot: *const u8,
            snapshot_length: usize,
            clock: u64,
            randoms: &[u32; MOST_ENDPOINTS],
        ) -> Done;

        pub fn pingvratha_receive(
            state: State,
            memory: *mut u8,
            memory_length: usize,
            room: *mut u8,
            room_length: usize,
            datagram: *const u8,
            datagram_length: usize,
            clock: u64,
            endpoint: u32,
            unicast: bool,
            randoms: &[u32; MOST_ENDPOINTS],
        ) -> Answer;

        pub fn pingvratha_tick(
            state: State,
            memory: *mut u8,
            memory_length: usize,
            room: *mut u8,
            room_length: usize,
            clock: u64,
            endpoint: u32,
            randoms: &[u32; MOST_ENDPOINTS],
        ) -> Sent;

        pub fn pingvratha_keep_alive(
            state: State,
            memory: *mut u8,
            memory_length: usize,
            clock: u64,
            endpoint: u32,
            interval: u32,
            randoms: &[u32; MOST_ENDPOINTS],
        ) -> Done;

        pub fn pingvratha_pay(
            state: State,
            memory: *mut u8,
            memory_length: usize,
            clock: u64,
            household: u32,
            receipt: u32,
            amount: i32,
            randoms: &[u32; MOST_ENDPOINTS],
        ) -> Done;

        pub fn pingvratha_purge(
            state: State,
            memory: *const u8,
            memory_length: usize,
            clock: u64,
            randoms: &[u32; MOST_ENDPOINTS],
        ) -> Done;

        pub fn pingvratha_total(
            state: State,
            memory: *const u8,
            memory_length: usize,
            clock: u64,
            household: u32,
        ) -> Summed;

        pub fn pingvratha_sum(
            state: State,
            memory: *const u8,
            memory_length: usize,
            clock: u64,
        ) -> Summed;

        pub fn pingvratha_marks(
            state: State,
            memory: *const u8,
            memory_length: usize,
            clock: u64,
        ) -> Marked;

        pub fn pingvratha_save(
            state: State,
            memory: *const u8,
            memory_length: usize,
            snapshot: *mut u8,
            snapshot_length: usize,
            clock: u64,
        ) -> Saved;

        pub fn pingvratha_show(
            state: State,
            memory: *const u8,
            memory_length: usize,
            node: u32,
        ) -> Extent;

        pub fn pingvratha_show_refusal(
            state: State,
            memory: *const u8,
            memory_length: usize,
            node: u32,
        ) -> u32;
    }
}

// Safety but for the premise: every pointer is that of a slice and goes with its length, and a slice
// that is written to is borrowed by this call alone.

/// The state to start from, with whatever table memory: node 0, begun at reading 0 with random
/// numbers 0.
///
/// Never refused.
#[inline]
pub fn blank() -> State {
    raw::pingvratha_blank()
}

/// Begins with our node alone: empty data, sequence number 0, no peers. Also over a running node
/// and at an earlier reading; all that was held is gone.
///
/// Refusals in order: [`Refusal::ClockTooHigh`], [`Refusal::BufferTooSmall`].
///
/// # Safety
///
/// State and table memory are as the last call left them.
#[inline]
pub unsafe fn begin(
    state: &State,
    memory: &[u8],
    own: u32,
    clock: u64,
    randoms: &[u32; MOST_ENDPOINTS],
) -> Done {
    unsafe { raw::pingvratha_begin(*state, memory.as_ptr(), memory.len(), own, clock, randoms) }
}

/// Goes on from a snapshot, at whatever reading. Our peers are unknown at first, so that only our
/// own node is reachable, and our data are published anew. Keep-alive intervals are
/// [`USUAL_INTERVAL`] again.
///
/// Refusals in order: [`Refusal::ClockTooHigh`], [`Refusal::BufferTooSmall`],
/// [`Refusal::NotASnapshot`].
///
/// # Safety
///
/// State and table memory are as the last call left them.
#[inline]
pub unsafe fn resume(
    state: &State,
    memory: &mut [u8],
    snapshot: &[u8],
    clock: u64,
    randoms: &[u32; MOST_ENDPOINTS],
) -> Done {
    unsafe {
        raw::pingvratha_resume(
            *state,
            memory.as_mut_ptr(),
            memory.len(),
            snapshot.as_ptr(),
            snapshot.len(),
            clock,
            randoms,
        )
    }
}

/// Takes in a datagram that came on the endpoint, by unicast or else by multicast, and writes the
/// reply to the front of the room; length 0 means that there is none.
///
/// Refusals in order: [`Refusal::ClockTooHigh`], [`Refusal::ClockBack`],
/// [`Refusal::NoSuchEndpoint`], [`Refusal::BufferTooSmall`], [`Refusal::DatagramTooLong`],
/// [`Refusal::DatagramMalformed`].
///
/// # Safety
///
/// State and table memory are as the last call left them.
#[inline]
pub unsafe fn receive(
    state: &State,
    memory: &mut [u8],
    room: &mut [u8],
    datagram: &[u8],
    clock: u64,
    endpoint: u32,
    unicast: bool,
    randoms: &[u32; MOST_ENDPOINTS],
) -> Answer {
    unsafe {
        raw::pingvratha_receive(
            *state,
            memory.as_mut_ptr(),
            memory.len(),
            room.as_mut_ptr(),
            room.len(),
            datagram.as_ptr(),
            datagram.len(),
            clock,
            endpoint,
            unicast,
            randoms,
        )
    }
}

/// Does what is due on the endpoint: removes peers that fell silent, publishes our data anew before
/// it is too old, and writes what is to be sent to the front of the room; length 0 means that there
/// is nothing. At one reading a second and a third tick may still have something to do, a fourth
/// never.
///
/// Refusals in order: [`Refusal::ClockTooHigh`], [`Refusal::ClockBack`],
/// [`Refusal::NoSuchEndpoint`], [`Refusal::BufferTooSmall`].
///
/// # Safety
///
/// State and table memory are as the last call left them.
#[inline]
pub unsafe fn tick(
    state: &State,
    memory: &mut [u8],
    room: &mut [u8],
    clock: u64,
    endpoint: u32,
    randoms: &[u32; MOST_ENDPOINTS],
) -> Sent {
    unsafe {
        raw::pingvratha_tick(
            *state,
            memory.as_mut_ptr(),
            memory.len(),
            room.as_mut_ptr(),
            room.len(),
            clock,
            endpoint,
            randoms,
        )
    }
}

/// Chooses the endpoint's keep-alive interval in milliseconds: when ticks of the endpoint have sent
/// nothing for so long, and a random delay of up to [`MOST_DELAY`], one sends. Our data tell it to
/// the peers, who remove us when they have not heard us for 2.1 times as long; unless it is
/// [`USUAL_INTERVAL`], as at first, it takes 12 bytes. begin and resume set that one again. With
/// ten ticks a second choose 5000 or more: with a shorter one peers may remove us though nobody is
/// gone.
///
/// Refusals in order: [`Refusal::ClockTooHigh`], [`Refusal::ClockBack`],
/// [`Refusal::NoSuchEndpoint`], [`Refusal::NoSuchInterval`], [`Refusal::BufferTooSmall`],
/// [`Refusal::DataFull`].
///
/// # Safety
///
/// State and table memory are as the last call left them.
#[inline]
pub unsafe fn keep_alive(
    state: &State,
    memory: &mut [u8],
    clock: u64,
    endpoint: u32,
    interval: u32,
    randoms: &[u32; MOST_ENDPOINTS],
) -> Done {
    unsafe {
        raw::pingvratha_keep_alive(
            *state,
            memory.as_mut_ptr(),
            memory.len(),
            clock,
            endpoint,
            interval,
            randoms,
        )
    }
}

/// Puts a payment, in cents, into our data, where it takes 8, 12 or 16 bytes, and publishes it.
/// Save before anything is sent. Only the same household, receipt and amount together are the same
/// payment.
///
/// Refusals in order: [`Refusal::ClockTooHigh`], [`Refusal::ClockBack`],
/// [`Refusal::BufferTooSmall`], [`Refusal::NoSuchHousehold`], [`Refusal::PaidAlready`],
/// [`Refusal::DataFull`].
///
/// # Safety
///
/// State and table memory are as the last call left them.
#[inline]
pub unsafe fn pay(
    state: &State,
    memory: &mut [u8],
    clock: u64,
    household: u32,
    receipt: u32,
    amount: i32,
    randoms: &[u32; MOST_ENDPOINTS],
) -> Done {
    unsafe {
        raw::pingvratha_pay(
            *state,
            memory.as_mut_ptr(),
            memory.len(),
            clock,
            household,
            receipt,
            amount,
            randoms,
        )
    }
}

/// Drops every node that is not reachable, its payments with it, which makes place for others. What
/// is reachable again later comes again.
///
/// Refusals in order: [`Refusal::ClockTooHigh`], [`Refusal::ClockBack`],
/// [`Refusal::BufferTooSmall`].
///
/// # Safety
///
/// State and table memory are as the last call left them.
#[inline]
pub unsafe fn purge(
    state: &State,
    memory: &[u8],
    clock: u64,
    randoms: &[u32; MOST_ENDPOINTS],
) -> Done {
    unsafe { raw::pingvratha_purge(*state, memory.as_ptr(), memory.len(), clock, randoms) }
}

/// The total of a household over all reachable nodes.
///
/// Refusals in order: [`Refusal::ClockTooHigh`], [`Refusal::ClockBack`],
/// [`Refusal::BufferTooSmall`], [`Refusal::NoSuchHousehold`].
///
/// # Safety
///
/// State and table memory are as the last call left them.
#[inline]
pub unsafe fn total(state: &State, memory: &[u8], clock: u64, household: u32) -> Summed {
    unsafe { raw::pingvratha_total(*state, memory.as_ptr(), memory.len(), clock, household) }
}

/// The sum over all households.
///
/// Refusals in order: [`Refusal::ClockTooHigh`], [`Refusal::ClockBack`],
/// [`Refusal::BufferTooSmall`].
///
/// # Safety
///
/// State and table memory are as the last call left them.
#[inline]
pub unsafe fn sum(state: &State, memory: &[u8], clock: u64) -> Summed {
    unsafe { raw::pingvratha_sum(*state, memory.as_ptr(), memory.len(), clock) }
}

/// The reachable nodes, whose payments are summed, how far they go, and the network digest.
///
/// Refusals in order: [`Refusal::ClockTooHigh`], [`Refusal::ClockBack`],
/// [`Refusal::BufferTooSmall`].
///
/// # Safety
///
/// State and table memory are as the last call left them.
#[inline]
pub unsafe fn marks(state: &State, memory: &[u8], clock: u64) -> Marked {
    unsafe { raw::pingvratha_marks(*state, memory.as_ptr(), memory.len(), clock) }
}

/// Writes a snapshot of all nodes held to the front of what is lent for it.
///
/// Refusals in order: [`Refusal::ClockTooHigh`], [`Refusal::ClockBack`],
/// [`Refusal::BufferTooSmall`].
///
/// # Safety
///
/// State and table memory are as the last call left them.
#[inline]
pub unsafe fn save(state: &State, memory: &[u8], snapshot: &mut [u8], clock: u64) -> Saved {
    unsafe {
        raw::pingvratha_save(
            *state,
            memory.as_ptr(),
            memory.len(),
            snapshot.as_mut_ptr(),
            snapshot.len(),
            clock,
        )
    }
}

/// Where a node's data stand in the table memory, reachable or not. Length 0 for empty data, and
/// for a refusal, whose number [`show_refusal`] gives.
///
/// Refusals in order: [`Refusal::BufferTooSmall`], [`Refusal::NoSuchNode`].
///
/// # Safety
///
/// State and table memory are as the last call left them.
#[inline]
pub unsafe fn show(state: &State, memory: &[u8], node: u32) -> Extent {
    unsafe { raw::pingvratha_show(*state, memory.as_ptr(), memory.len(), node) }
}

/// The number of show with the same arguments; 0 where the data are shown.
///
/// Refusals in order: [`Refusal::BufferTooSmall`], [`Refusal::NoSuchNode`].
///
/// # Safety
///
/// State and table memory are as the last call left them.
#[inline]
pub unsafe fn show_refusal(state: &State, memory: &[u8], node: u32) -> u32 {
    unsafe { raw::pingvratha_show_refusal(*state, memory.as_ptr(), memory.len(), node) }
}

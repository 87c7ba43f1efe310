//! The benchmark: the archive against the reference on the same calls, and the stack of each call
//! and of the digest.
//!
//! Both sides take turns, so that a busy machine slows neither more than the other, and the median
//! of the rounds counts.

mod network;

use crate::archive::Archive;
use crate::compare::Checked;
use crate::{digest, stack};
use network::{equal_states, passed_over, statements, Line, CLOCK, HOUSEHOLD, RANDOMS};
use pingvratha::{Room, SnapshotRoom, MOST_BYTES, SNAPSHOT_BYTES};
use reference::calls::{Calls, Rooms};
use reference::generate;
use reference::node::{Node, DEFAULT_KEEP_ALIVE, REPLY_ROOM, TABLE_ROOM};
use reference::script::Session;
use reference::sha256::sha256;
use reference::snapshot::SNAPSHOT_ROOM;
use reference::wire::{self, Payment};
use std::hint::black_box;
use std::time::Instant;

const ROUNDS: usize = 61;
/// Calls of the made-up sessions whose stack is measured.
const STACK_CALLS: usize = 4_000;

pub fn run() -> Result<(), String> {
    println!("Time of a call. Ratio: ours by the reference's, so below 1 ours is faster.");
    println!(
        "{:48} {:>12} {:>12} {:>7}",
        "", "ours", "reference", "ratio"
    );
    let (pair, full) = (Sides::new(&Line::new(2)), Sides::new(&Line::new(32)));
    compare_calls(&pair, &full);
    println!("\nReceive, by the bytes of the datagram.");
    let meaningless = |bytes| vec![passed_over(bytes); BATCH];
    by_size(
        "passed-over TLVs",
        &pair,
        [1_024, 2_048, 4_096].map(meaningless),
    );
    let statements = |many| in_datagrams(&statements(2, many * BATCH), many);
    by_size("new statements", &pair, [1, 2, 3].map(statements));
    against_hash(&pair);
    stack_use()
}

// ---- The two sides

/// A node of either side, called as a host calls it.
trait Side: Clone {
    fn receive(&mut self, datagram: &[u8], clock: u64, multicast: bool);
    fn tick(&mut self, clock: u64, endpoint: u32);
    fn resume(&mut self, snapshot: &[u8], clock: u64);
    fn total(&mut self, clock: u64);
    fn save(&mut self, clock: u64);
}

impl Side for Node {
    fn receive(&mut self, datagram: &[u8], clock: u64, multicast: bool) {
        let (table, reply) = (TABLE_ROOM, REPLY_ROOM);
        black_box(Node::receive(
            self, table, reply, datagram, clock, 1, multicast, &RANDOMS,
        ));
    }

    fn tick(&mut self, clock: u64, endpoint: u32) {
        black_box(Node::tick(
            self, TABLE_ROOM, REPLY_ROOM, clock, endpoint, &RANDOMS,
        ));
    }

    fn resume(&mut self, snapshot: &[u8], clock: u64) {
        let refusal = Node::resume(self, TABLE_ROOM, snapshot, clock, &RANDOMS);
        assert_eq!(refusal, 0);
    }

    fn total(&mut self, clock: u64) {
        black_box(Node::total(self, TABLE_ROOM, clock, HOUSEHOLD));
    }

    fn save(&mut self, clock: u64) {
        black_box(Node::save(self, TABLE_ROOM, SNAPSHOT_ROOM, clock));
    }
}

/// The library's node and what its host lends.
#[derive(Clone)]
struct Ours {
    node: pingvratha::Node,
    room: Room,
    book: SnapshotRoom,
}

impl Ours {
    fn blank() -> Ours {
        Ours {
            node: pingvratha::Node::new(),
            room: [0; MOST_BYTES],
            book: [0; SNAPSHOT_BYTES],
        }
    }
}

impl Side for Ours {
    fn receive(&mut self, datagram: &[u8], clock: u64, multicast: bool) {
        let Ours { node, room, .. } = self;
        let reply = node.receive(room, datagram, clock, 1, !multicast, &RANDOMS);
        assert!(black_box(reply).is_ok());
    }

    fn tick(&mut self, clock: u64, endpoint: u32) {
        let sent = self.node.tick(&mut self.room, clock, endpoint, &RANDOMS);
        assert!(black_box(sent).is_ok());
    }

    fn resume(&mut self, snapshot: &[u8], clock: u64) {
        assert_eq!(self.node.resume(snapshot, clock, &RANDOMS), Ok(()));
    }

    fn total(&mut self, clock: u64) {
        assert!(black_box(self.node.total(clock, HOUSEHOLD)).is_ok());
    }

    fn save(&mut self, clock: u64) {
        assert!(black_box(self.node.save(&mut self.book, clock)).is_ok());
    }
}

/// The same network on both sides.
struct Sides {
    ours: Ours,
    theirs: Node,
    snapshot: Vec<u8>,
}

impl Sides {
    fn new(line: &Line) -> Sides {
        Sides::joined(line.snapshot(), &network::neighbour(), line.length)
    }

    /// One link with as many peers as there may be.
    fn crowd() -> Sides {
        Sides::joined(network::crowd(), &network::neighbours(), 17)
    }

    /// Resumed, and once this datagram is heard as many nodes are reachable.
    fn joined(snapshot: Vec<u8>, heard: &[u8], reachable: usize) -> Sides {
        let (mut ours, mut theirs) = (Ours::blank(), Node::blank());
        join(&mut ours, &snapshot, heard);
        join(&mut theirs, &snapshot, heard);
        let marks = ours.node.marks(CLOCK).expect("nothing is refused here");
        assert_eq!(marks.nodes().len(), reachable);
        assert_eq!(theirs.reachable(CLOCK).len(), reachable);
        Sides {
            ours,
            theirs,
            snapshot,
        }
    }

    /// Seconds a call of ours, side 0, or of theirs.
    fn time(&self, side: usize, work: &Work) -> f64 {
        match side {
            0 => work.time(&self.ours),
            _ => work.time(&self.theirs),
        }
    }
}

/// Resumes, and hears the neighbours, so that all nodes are reachable.
fn join(side: &mut impl Side, snapshot: &[u8], heard: &[u8]) {
    side.resume(snapshot, CLOCK);
    side.receive(heard, CLOCK, false);
}

// ---- Times

/// The calls that are timed together.
enum Work {
    /// These datagrams one after the other, by multicast, at one reading.
    Receive(Vec<Vec<u8>>),
    /// All endpoints, at this many readings 50 ms apart.
    Tick(u64),
    Resume(Vec<u8>),
    Total,
    Save,
}

/// Calls of one kind that are timed together.
const BATCH: usize = 16;

impl Work {
    fn calls(&self) -> usize {
        match self {
            Work::Receive(datagrams) => datagrams.len(),
            Work::Tick(readings) => 4 * *readings as usize,
            _ => BATCH,
        }
    }

    /// Seconds a call, from this state on.
    fn time(&self, start: &impl Side) -> f64 {
        let mut side = start.clone();
        let begun = Instant::now();
        self.run(&mut side);
        begun.elapsed().as_secs_f64() / self.calls() as f64
    }

    fn run(&self, side: &mut impl Side) {
        match self {
            Work::Receive(datagrams) => {
                for datagram in datagrams {
                    side.receive(datagram, CLOCK, true);
                }
            }
            Work::Tick(readings) => {
                for reading in 0..*readings {
                    for endpoint in 1..=4 {
                        side.tick(CLOCK + 50 * reading, endpoint);
                    }
                }
            }
            Work::Resume(snapshot) => (0..BATCH).for_each(|_| side.resume(snapshot, CLOCK)),
            Work::Total => (0..BATCH).for_each(|_| side.total(CLOCK)),
            Work::Save => (0..BATCH).for_each(|_| side.save(CLOCK)),
        }
    }
}

/// Times taken in turn, round by round: all of a round meet the machine in the same mood.
struct Rounds<const N: usize>(Vec<[f64; N]>);

impl<const N: usize> Rounds<N> {
    fn new(mut time: impl FnMut(usize) -> f64) -> Rounds<N> {
        let round = |_| std::array::from_fn(&mut time);
        Rounds((0..ROUNDS).map(round).collect())
    }

    /// The median over the rounds.
    fn median(&self, value: impl Fn(&[f64; N]) -> f64) -> f64 {
        let mut values: Vec<f64> = self.0.iter().map(value).collect();
        values.sort_by(f64::total_cmp);
        values[values.len() / 2]
    }
}

fn micros(seconds: f64) -> String {
    format!("{:.2} us", seconds * 1e6)
}

fn compare_calls(pair: &Sides, full: &Sides) {
    let requests = vec![wire::request_network_state_tlv(); BATCH];
    let digest = full.theirs.network_digest(CLOCK);
    let equal = vec![equal_states(&digest, 1); BATCH];
    let many_equal = vec![equal_states(&digest, 204)];
    let received = Work::Receive;
    row(
        "receive, new 1,024-byte statement, 2 nodes",
        pair,
        received(statements(2, BATCH)),
    );
    row(
        "receive, new 1,024-byte statement, 32 nodes",
        full,
        received(statements(32, BATCH)),
    );
    row(
        "receive, Request Network State, 32 in a line",
        full,
        received(requests),
    );
    row(
        "receive, an equal Network State, 32 nodes",
        full,
        received(equal),
    );
    row(
        "receive, 204 equal Network States, 32 nodes",
        full,
        received(many_equal),
    );
    row("tick, 32 nodes", full, Work::Tick(100));
    row("tick, 16 full peers", &Sides::crowd(), Work::Tick(100));
    row("save, 32 full nodes", full, Work::Save);
    row(
        "resume, 32 full nodes",
        full,
        Work::Resume(full.snapshot.clone()),
    );
    row("total of a household, 32 full nodes", full, Work::Total);
}

fn row(name: &str, sides: &Sides, work: Work) {
    let rounds: Rounds<2> = Rounds::new(|side| sides.time(side, &work));
    let ours = micros(rounds.median(|round| round[0]));
    let theirs = micros(rounds.median(|round| round[1]));
    let ratio = rounds.median(|round| round[0] / round[1]);
    println!("{name:48} {ours:>12} {theirs:>12} {ratio:7.2}");
}

/// Datagrams of this many TLVs each.
fn in_datagrams(tlvs: &[Vec<u8>], many: usize) -> Vec<Vec<u8>> {
    tlvs.chunks(many).map(<[Vec<u8>]>::concat).collect()
}

/// Times for three sizes of datagrams, and what a byte costs compared with the smallest: where that
/// does not grow, the time is at most linear.
fn by_size(name: &str, sides: &Sides, sizes: [Vec<Vec<u8>>; 3]) {
    let bytes: Vec<usize> = sizes.iter().map(|datagrams| datagrams[0].len()).collect();
    let works = sizes.map(Work::Receive);
    let rounds: Rounds<6> = Rounds::new(|at| sides.time(at % 2, &works[at / 2]));
    for (size, &bytes_here) in bytes.iter().enumerate() {
        let (ours, theirs) = (2 * size, 2 * size + 1);
        let growth = bytes_here as f64 / bytes[0] as f64;
        println!(
            "{name:18} {bytes_here:5} bytes: {:>10}, a byte {:.2} of the smallest's, ratio {:.2}",
            micros(rounds.median(|round| round[ours])),
            rounds.median(|round| round[ours] / round[0] / growth),
            rounds.median(|round| round[ours] / round[theirs]),
        );
    }
}

/// A new statement against one hashing of its data, which no node can do without.
fn against_hash(pair: &Sides) {
    let work = Work::Receive(statements(2, BATCH));
    let rounds: Rounds<2> = Rounds::new(|at| match at {
        0 => work.time(&pair.ours),
        _ => hash_time(),
    });
    println!(
        "\nReceive of a new 1,024-byte statement: {:.2} times the reference's SHA-256 of 1,024 bytes.",
        rounds.median(|round| round[0] / round[1])
    );
}

fn hash_time() -> f64 {
    let data = vec![7; wire::MAX_DATA];
    let begun = Instant::now();
    for _ in 0..BATCH {
        black_box(sha256(black_box(&data)));
    }
    begun.elapsed().as_secs_f64() / BATCH as f64
}

// ---- Stack

/// The most stack of each call, over made-up sessions and the full network.
fn stack_use() -> Result<(), String> {
    let mut session = Session::new(Archive::measuring());
    session.run_script(&generate::script(1, STACK_CALLS));
    exercise(&mut session.node);
    if let Some(fault) = session.node.fault() {
        return Err(fault.to_string());
    }
    println!("\nBytes of stack, arguments and answer included.");
    let depths = session.node.depths();
    for (name, depth) in &depths {
        println!("{name:12} {depth:7}");
    }
    let most = depths.values().max().copied().unwrap_or_default();
    println!("most         {most:7}");
    println!("\nThe digest by itself, of up to 1,024 bytes.");
    println!("hash16       {:7}", digest_use(digest::hash16));
    println!("digest       {:7}", digest_use(digest::digest));
    Ok(())
}

/// The most stack of a function of the digest, over messages with every form of the last block.
fn digest_use<const BYTES: usize>(hash: impl Fn(&[u8], &mut [u8; BYTES]) + Sync) -> usize {
    let message = [7; wire::MAX_DATA];
    let mut digest = [0; BYTES];
    [0, 1, 55, 56, 63, 64, wire::MAX_DATA]
        .map(|length| stack::measured(|| hash(&message[..length], &mut digest)).1)
        .into_iter()
        .max()
        .unwrap_or_default()
}

/// Each call with as much to do as there can be.
fn exercise(node: &mut Archive) {
    let rooms = &Rooms::default();
    node.resume(rooms, &Line::new(32).snapshot(), CLOCK, &RANDOMS);
    let equal = equal_states(&node.view().digest, 204);
    let requests = wire::request_network_state_tlv().repeat(1_000);
    let news = statements(32, 3).concat();
    for datagram in [network::neighbour(), equal, requests, news] {
        node.receive(rooms, &datagram, CLOCK, 1, false, &RANDOMS);
    }
    node.total(rooms, CLOCK, HOUSEHOLD);
    node.sum(rooms, CLOCK);
    node.marks(rooms, CLOCK);
    node.save(rooms, CLOCK);
    node.show(rooms, 32);
    let later = CLOCK + 42_000;
    node.tick(rooms, later, 1, &RANDOMS);
    // The peer is gone. A Keep-Alive TLV takes its place, is replaced, and leaves it to the payment.
    for interval in [7, 8, DEFAULT_KEEP_ALIVE] {
        node.keep_alive(rooms, later, 1, interval, &RANDOMS);
    }
    let payment = Payment {
        household: HOUSEHOLD,
        receipt: 1,
        amount: 1,
    };
    node.pay(rooms, later, &payment, &RANDOMS);
    node.purge(rooms, later, &RANDOMS);
}

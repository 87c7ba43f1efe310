//! Nodes on lossless links find each other, agree, and keep each other.

use reference::node::{Node, REPLY_ROOM, TABLE_ROOM};
use reference::random::Random;

/// A node and its endpoint on each of the links it is on.
type Link = Vec<(usize, u32)>;

struct Mesh {
    nodes: Vec<Node>,
    links: Vec<Link>,
    random: Random,
    /// Peers that ticks removed for their silence.
    removed: usize,
}

impl Mesh {
    fn new(ids: &[u32], links: Vec<Link>) -> Mesh {
        let mut random = Random::new(77);
        let nodes = ids
            .iter()
            .map(|&id| {
                let mut node = Node::blank();
                node.begin(TABLE_ROOM, id, 0, &random.randoms());
                node
            })
            .collect();
        Mesh {
            nodes,
            links,
            random,
            removed: 0,
        }
    }

    /// One step of time: every endpoint ticks, everything sent arrives at once.
    fn step(&mut self, clock: u64) {
        for link in self.links.clone() {
            for &from in &link {
                let randoms = self.random.randoms();
                let node = &mut self.nodes[from.0];
                let peers = node.peers.len();
                let sent = node.tick(TABLE_ROOM, REPLY_ROOM, clock, from.1, &randoms);
                self.removed += peers - node.peers.len();
                for &to in link
                    .iter()
                    .filter(|&&to| to != from && !sent.bytes.is_empty())
                {
                    self.hand_over(clock, from, to, true, &sent.bytes);
                }
            }
        }
    }

    /// Hands a datagram over, and the replies to and fro until one is empty.
    fn hand_over(
        &mut self,
        clock: u64,
        from: (usize, u32),
        to: (usize, u32),
        multicast: bool,
        bytes: &[u8],
    ) {
        let randoms = self.random.randoms();
        let node = &mut self.nodes[to.0];
        let answer = node.receive(
            TABLE_ROOM, REPLY_ROOM, bytes, clock, to.1, multicast, &randoms,
        );
        assert_eq!(answer.refusal, 0);
        if !answer.bytes.is_empty() {
            self.hand_over(clock, to, from, false, &answer.bytes);
        }
    }

    /// All have the same nodes in reach and the same digest. The last level is each node's own:
    /// from the end of a line it is farther to the other end than from its middle.
    fn is_level(&self, clock: u64) -> bool {
        let marks = self.nodes[0].marks(TABLE_ROOM, clock);
        marks.nodes.len() == self.nodes.len()
            && self.nodes.iter().all(|node| {
                let other = node.marks(TABLE_ROOM, clock);
                other.nodes == marks.nodes && other.digest == marks.digest
            })
    }

    /// The reading at which all agree.
    fn run_until_level(&mut self, start: u64, end: u64) -> u64 {
        for clock in (start..end).step_by(10) {
            self.step(clock);
            if self.is_level(clock) {
                return clock;
            }
        }
        panic!("not level by {end}");
    }
}

/// All on one link: in an hour of ten ticks a second no peer is removed for silence.
fn check_hour(count: usize) {
    let ids: Vec<u32> = (1..=count as u32).collect();
    let mut mesh = Mesh::new(&ids, vec![(0..count).map(|node| (node, 1)).collect()]);
    for clock in (0..3_600_000).step_by(100) {
        mesh.step(clock);
        assert_eq!(mesh.removed, 0, "at {clock}");
    }
    for node in &mesh.nodes {
        assert_eq!(node.peers.len(), count - 1);
    }
    assert!(mesh.is_level(3_600_000));
}

fn pay(node: &mut Node, clock: u64, receipt: u32, amount: i32) {
    assert_eq!(node.pay(TABLE_ROOM, clock, 17, receipt, amount, &[0; 4]), 0);
}

fn check(mut mesh: Mesh) {
    let level = mesh.run_until_level(0, 20_000);
    for (index, node) in mesh.nodes.iter_mut().enumerate() {
        pay(node, level, index as u32, 100 + index as i32);
    }
    let expected: i64 = (0..mesh.nodes.len() as i64).map(|index| 100 + index).sum();
    let clock = mesh.run_until_level(level + 10, level + 20_000);
    for node in &mesh.nodes {
        assert_eq!(node.total(TABLE_ROOM, clock, 17).value, expected);
        assert_eq!(node.sum(TABLE_ROOM, clock).value, expected);
    }
}

#[test]
fn two_fresh_nodes() {
    check(Mesh::new(&[7, 3], vec![vec![(0, 1), (1, 4)]]));
}

#[test]
fn eight_on_one_link() {
    check(Mesh::new(
        &[1, 2, 3, 4, 5, 6, 7, 8],
        vec![(0..8).map(|node| (node, 1)).collect()],
    ));
}

#[test]
fn line_of_six() {
    let links = (0..5).map(|node| vec![(node, 2), (node + 1, 3)]).collect();
    check(Mesh::new(&[60, 20, 50, 10, 40, 30], links));
}

#[test]
fn ring_of_four_with_double_links() {
    let mut links: Vec<Link> = (0..4)
        .map(|node| vec![(node, 1), ((node + 1) % 4, 2)])
        .collect();
    links.push(vec![(0, 3), (1, 3)]);
    links.push(vec![(0, 4), (1, 4)]);
    check(Mesh::new(&[4, 3, 2, 1], links));
}

#[test]
fn two_for_an_hour() {
    check_hour(2);
}

#[test]
fn three_for_an_hour() {
    check_hour(3);
}

#[test]
fn five_for_an_hour() {
    check_hour(5);
}

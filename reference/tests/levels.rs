//! The levels of the traversal are the lengths of the shortest chains, and the last one is that
//! of the farthest node.

use reference::node::{last_level, levels, Entry, Marks, Node, AGE_LIMIT, REPLY_ROOM, TABLE_ROOM};
use reference::random::Random;
use reference::sha256::digest;
use reference::wire;

/// A chain goes from node to joined node; every one but the last is under the age limit.
/// Tries all chains without repeats from `at` and notes the shortest to each node.
fn follow(table: &[Entry], now: u64, chain: &mut Vec<usize>, shortest: &mut [Option<usize>]) {
    let at = chain[chain.len() - 1];
    let length = chain.len() - 1;
    if shortest[at].is_none_or(|known| length < known) {
        shortest[at] = Some(length);
    }
    if u64::from(table[at].age) + now - table[at].since >= AGE_LIMIT {
        return;
    }
    for next in 0..table.len() {
        if !chain.contains(&next) && are_joined(&table[at], &table[next]) {
            chain.push(next);
            follow(table, now, chain, shortest);
            chain.pop();
        }
    }
}

/// Looks for the two Peer TLVs as bytes, for every pair of endpoints in use here.
fn are_joined(r: &Entry, n: &Entry) -> bool {
    let publishes = |entry: &Entry, tlv: &[u8]| entry.data().chunks(16).any(|bytes| bytes == tlv);
    (1..=2).any(|re| {
        (1..=2).any(|ne| {
            publishes(r, &wire::peer_tlv(n.node, ne, re))
                && publishes(n, &wire::peer_tlv(r.node, re, ne))
        })
    })
}

fn random_table(random: &mut Random, size: u32) -> Vec<Entry> {
    let density = random.range(1, 8);
    (1..=size)
        .map(|node| {
            let mut tlvs = Vec::new();
            for other in 1..=size {
                for (theirs, ours) in [(1, 1), (1, 2), (2, 1), (2, 2)] {
                    if random.below(10) < density {
                        tlvs.push(wire::peer_tlv(other, theirs, ours));
                    }
                }
            }
            let limit = AGE_LIMIT as u32;
            let age = random.pick(&[0, 0, 0, 5, limit - 10, limit - 1, limit, u32::MAX]);
            Entry::new(node, 0, age, random.below(3), tlvs.concat())
        })
        .collect()
}

#[test]
fn levels_are_shortest_chains() {
    let mut random = Random::new(44);
    let mut far = 0;
    for _ in 0..10_000 {
        let size = random.range(1, 6);
        let table = random_table(&mut random, size as u32);
        let own = random.below(size) as usize;
        let now = 3 + random.below(12);
        let mut shortest = vec![None; table.len()];
        follow(&table, now, &mut vec![own], &mut shortest);
        assert_eq!(levels(&table, table[own].node, now), shortest);
        let farthest = shortest.iter().flatten().max().copied();
        assert_eq!(Some(last_level(&table, table[own].node, now)), farthest);
        far += shortest
            .iter()
            .flatten()
            .filter(|&&level| level >= 3)
            .count();
    }
    assert!(far > 100, "some tables should be deep");
}

/// A line of 32 nodes is walked to its end.
#[test]
fn longest_line() {
    let table: Vec<Entry> = (0..32u32)
        .map(|node| {
            let mut data = Vec::new();
            if node > 0 {
                data.extend(wire::peer_tlv(node - 1, 1, 2));
            }
            if node < 31 {
                data.extend(wire::peer_tlv(node + 1, 2, 1));
            }
            Entry::new(node, 0, 0, 0, data)
        })
        .collect();
    let expected: Vec<Option<usize>> = (0..32).map(Some).collect();
    assert_eq!(levels(&table, 0, 0), expected);
    assert_eq!(last_level(&table, 0, 0), 31);
    // From the middle there are 15 on one side and 16 on the other.
    assert_eq!(last_level(&table, 15, 0), 16);
}

/// How two nodes name each other.
#[derive(Clone, Copy, PartialEq, Eq)]
enum Naming {
    FirstOnly,
    SecondOnly,
    /// Both do, but an endpoint differs.
    AtOdds,
    Joined,
}

struct Link {
    ends: [usize; 2],
    endpoints: [u32; 2],
    naming: Naming,
}

/// A made-up network; its member 0 is our node.
struct Network {
    ids: Vec<u32>,
    /// At reading 0; ours is 0.
    ages: Vec<u32>,
    links: Vec<Link>,
}

impl Network {
    /// Mostly a line, with shortcuts and gaps.
    fn new(random: &mut Random) -> Network {
        let size = random.range(1, 10) as usize;
        // In the table they stand in another order than in the line.
        let mut ids: Vec<u32> = (0..size as u32).collect();
        random.shuffle(&mut ids);
        let limit = AGE_LIMIT as u32;
        let mut ages = vec![0];
        ages.resize_with(size, || {
            random.pick(&[0, 0, 0, 0, 0, 0, limit - 6, limit - 1, limit])
        });
        let rarity = random.range(3, 80);
        let mut links = Vec::new();
        for second in 0..size {
            for first in 0..second {
                if first + 1 != second && !random.one_in(rarity) {
                    continue;
                }
                let naming = match random.below(16) {
                    0 => Naming::FirstOnly,
                    1 => Naming::SecondOnly,
                    2 => Naming::AtOdds,
                    _ => Naming::Joined,
                };
                links.push(Link {
                    ends: [first, second],
                    endpoints: [random.range(1, 4) as u32, random.range(1, 4) as u32],
                    naming,
                });
            }
        }
        Network { ids, ages, links }
    }

    /// The (peer, peer endpoint, own endpoint) that a member publishes.
    fn named_by(&self, member: usize) -> Vec<[u32; 3]> {
        let mut named = Vec::new();
        for link in &self.links {
            let [first, second] = link.ends;
            let [near, far] = link.endpoints;
            if first == member && link.naming != Naming::SecondOnly {
                named.push([self.ids[second], far, near]);
            }
            if second == member && link.naming != Naming::FirstOnly {
                let odd = u32::from(link.naming == Naming::AtOdds);
                named.push([self.ids[first], near + odd, far]);
            }
        }
        named
    }

    /// Our node, told all of it at reading 0 by datagrams.
    fn told(&self) -> Node {
        let mut node = Node::blank();
        node.begin(TABLE_ROOM, self.ids[0], 0, &[0; 4]);
        let mut tell = |endpoint: u32, bytes: &[u8]| {
            let answer = node.receive(TABLE_ROOM, REPLY_ROOM, bytes, 0, endpoint, false, &[0; 4]);
            assert_eq!((answer.refusal, answer.dropped), (0, 0));
        };
        for [peer, theirs, ours] in self.named_by(0) {
            tell(ours, &wire::node_endpoint_tlv(peer, theirs));
        }
        for member in 1..self.ids.len() {
            let mut tlvs: Vec<Vec<u8>> = self
                .named_by(member)
                .iter()
                .map(|&[peer, theirs, ours]| wire::peer_tlv(peer, theirs, ours))
                .collect();
            tlvs.sort();
            let data = tlvs.concat();
            let (id, age) = (self.ids[member], self.ages[member]);
            tell(1, &wire::node_state_tlv(id, 1, age, &digest(&data), &data));
        }
        node
    }

    /// A joined member is one step away, if the way goes on from a member under the age limit.
    fn is_step(&self, from: usize, to: usize, now: u64) -> bool {
        let under_age = u64::from(self.ages[from]) + now < AGE_LIMIT;
        let mut joined = self
            .links
            .iter()
            .filter(|link| link.naming == Naming::Joined);
        under_age && joined.any(|link| link.ends == [from, to] || link.ends == [to, from])
    }

    /// The length of the shortest way from our node to each member, by Floyd and Warshall.
    fn shortest_ways(&self, now: u64) -> Vec<Option<usize>> {
        let size = self.ids.len();
        // No way without a repeat is as long.
        let none = size;
        let first_guess = |from, to| {
            if from == to {
                0
            } else if self.is_step(from, to, now) {
                1
            } else {
                none
            }
        };
        let row = |from| (0..size).map(|to| first_guess(from, to)).collect();
        let mut ways: Vec<Vec<usize>> = (0..size).map(row).collect();
        for middle in 0..size {
            for from in 0..size {
                for to in 0..size {
                    let over = ways[from][middle] + ways[middle][to];
                    ways[from][to] = ways[from][to].min(over);
                }
            }
        }
        let from_us = ways[0].iter();
        from_us
            .map(|&length| (length < none).then_some(length))
            .collect()
    }
}

#[test]
fn last_level_is_the_longest_of_the_shortest_ways() {
    let mut random = Random::new(66);
    let mut met = [0; 10];
    let mut shortened = 0;
    for _ in 0..10_000 {
        let network = Network::new(&mut random);
        let node = network.told();
        let now = random.pick(&[0, 0, 0, 0, 0, 5, AGE_LIMIT - 1, AGE_LIMIT]);
        let marks = node.marks(TABLE_ROOM, now);
        let ways = network.shortest_ways(now);
        let mut expected: Vec<u32> = network
            .ids
            .iter()
            .zip(&ways)
            .filter(|(_, way)| way.is_some())
            .map(|(&id, _)| id)
            .collect();
        expected.sort_unstable();
        assert_eq!(marks.nodes, expected);
        assert_eq!(Some(marks.last_level), ways.iter().flatten().max().copied());
        assert!(marks.last_level < marks.nodes.len() && marks.nodes.len() <= node.table.len());
        assert_eq!(marks.last_level == 0, marks.nodes.len() == 1);
        met[marks.last_level] += 1;
        shortened += usize::from(marks.last_level + 1 < marks.nodes.len());
    }
    assert!(met.iter().all(|&count| count > 10), "{met:?}");
    assert!(shortened > 1_000, "{shortened}");
}

#[test]
fn refused_marks_have_no_level() {
    let mut random = Random::new(67);
    let mut node = Network::new(&mut random).told();
    while node.marks(TABLE_ROOM, 7).last_level == 0 {
        node = Network::new(&mut random).told();
    }
    assert_eq!(node.purge(TABLE_ROOM, 7, &[0; 4]), 0);
    for (refusal, room, clock) in [
        (1, TABLE_ROOM, 1 << 62),
        (2, TABLE_ROOM, 6),
        (4, TABLE_ROOM - 1, 7),
    ] {
        let expected = Marks {
            refusal,
            ..Marks::default()
        };
        assert_eq!(node.marks(room, clock), expected);
        assert_eq!(expected.last_level, 0);
    }
    assert!(node.marks(TABLE_ROOM, 7).last_level > 0);
}

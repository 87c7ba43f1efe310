//! Made-up networks of nodes that have taken payments. Totals and reach are worked out from what
//! was made up, not from node data.

use reference::calls::{Calls, Rooms};
use reference::node::{Entry, Node, AGE_LIMIT, TABLE_ROOM};
use reference::random::Random;
use reference::sha256::digest;
use reference::snapshot;
use reference::wire::{self, Payment};
use std::collections::BTreeSet;

/// Nobody pays for the last two.
const HOUSEHOLDS: [u32; 7] = [1, 17, 127, 128, 9_999, 2, 5_000];
/// Values of type 40 TLVs that are no payments.
const UNREADABLE: [&[u8]; 4] = [&[], &[17, 1], &[0, 1, 2], &[17, 0xac, 0x82, 0, 2]];

/// The totals of all households that occur and some that don't, the sum, and the count of
/// unreadable payments.
#[derive(Clone, Debug, Default, PartialEq, Eq)]
pub struct Figures {
    totals: [i64; 7],
    sum: i64,
    unreadable: usize,
}

impl Figures {
    /// What a node answers. The count comes with every total.
    pub fn asked(node: &Node, now: u64) -> Figures {
        let sum = node.sum(TABLE_ROOM, now);
        assert_eq!(sum.refusal, 0);
        for household in [0, 10_000] {
            let total = node.total(TABLE_ROOM, now, household);
            assert_eq!((total.refusal, total.value, total.unreadable), (7, 0, 0));
        }
        let totals = HOUSEHOLDS.map(|household| {
            let total = node.total(TABLE_ROOM, now, household);
            assert_eq!((total.refusal, total.unreadable), (0, sum.unreadable));
            total.value
        });
        Figures {
            totals,
            sum: sum.value,
            unreadable: sum.unreadable,
        }
    }

    pub fn with(mut self, payment: &Payment) -> Figures {
        let amount = i64::from(payment.amount);
        for (total, household) in self.totals.iter_mut().zip(HOUSEHOLDS) {
            if household == payment.household {
                *total += amount;
            }
        }
        self.sum += amount;
        self
    }

    pub fn plus(mut self, other: &Figures) -> Figures {
        for (total, more) in self.totals.iter_mut().zip(other.totals) {
            *total += more;
        }
        self.sum += other.sum;
        self.unreadable += other.unreadable;
        self
    }
}

pub fn random_payment(random: &mut Random) -> Payment {
    let any = random.word() as i32;
    let amounts = [0, 5, -5, 250, -250, i32::MAX, -i32::MAX, i32::MIN, any];
    Payment {
        household: random.pick(&HOUSEHOLDS[..5]),
        receipt: random.below(3) as u32,
        amount: random.pick(&amounts),
    }
}

/// Members of a network.
pub type Group = BTreeSet<usize>;

#[derive(Clone, Default)]
pub struct Member {
    pub id: u32,
    pub paid: Vec<Payment>,
    /// So many of `UNREADABLE`.
    unreadable: usize,
    /// The (member, its endpoint, own endpoint) that it names.
    names: Vec<(usize, u32, u32)>,
}

/// A node is told of a member: its data, and this age.
#[derive(Clone, Copy)]
pub struct Told {
    member: usize,
    seq: u32,
    age: u32,
}

impl Told {
    /// Any number, and mostly a low age.
    pub fn new(random: &mut Random, member: usize) -> Told {
        let limit = AGE_LIMIT as u32;
        let old = random.pick(&[limit - 9, limit - 1, limit, u32::MAX]);
        Told {
            member,
            seq: random.word(),
            age: random.pick(&[0, 0, 5, old]),
        }
    }
}

/// The node of a member at a reading, and the members that it has in reach.
pub struct View {
    pub node: Node,
    pub now: u64,
    pub reach: Group,
}

#[derive(Clone)]
pub struct Network {
    pub members: Vec<Member>,
}

impl Network {
    /// A line, a star or a tree, with shortcuts, gaps, and some who name and are not named.
    pub fn new(random: &mut Random) -> Network {
        let size = random.range(1, 10) as usize;
        let mut members = vec![Member::default(); size];
        // In the table they stand in another order than here.
        let mut ids: Vec<u32> = (0..size as u32).collect();
        random.shuffle(&mut ids);
        let (shape, rarity) = (random.below(4) as usize, random.range(3, 80));
        for second in 0..size {
            members[second].id = ids[second];
            members[second].unreadable = random.pick(&[0, 0, 0, 1, 2, 4]);
            for _ in 0..random.below(5) {
                // It may be just what another member has.
                let other = members[random.below(size as u64) as usize].paid.first();
                let payment = match other {
                    Some(&payment) if random.one_in(3) => payment,
                    _ => random_payment(random),
                };
                if !members[second].paid.contains(&payment) {
                    members[second].paid.push(payment);
                }
            }
            let any = random.below(second.max(1) as u64) as usize;
            let before = [second.max(1) - 1, 0, second / 2, any][shape];
            for first in 0..second {
                if first != before && !random.one_in(rarity) {
                    continue;
                }
                let [near, far] = [(); 2].map(|()| random.range(1, 4) as u32);
                if !random.one_in(20) {
                    members[first].names.push((second, far, near));
                }
                if !random.one_in(20) {
                    members[second].names.push((first, near, far));
                }
            }
        }
        Network { members }
    }

    pub fn are_joined(&self, first: usize, second: usize) -> bool {
        let names = |one: usize, other| self.members[one].names.iter().any(|name| name.0 == other);
        names(first, second) && names(second, first)
    }

    /// What a group of members adds up to.
    pub fn figures(&self, group: &Group) -> Figures {
        let mut figures = Figures::default();
        for member in group.iter().map(|&member| &self.members[member]) {
            figures = member.paid.iter().fold(figures, Figures::with);
            figures.unreadable += member.unreadable;
        }
        figures
    }

    fn data(&self, member: &Member) -> Vec<u8> {
        let mut tlvs: Vec<Vec<u8>> = member.paid.iter().map(wire::payment_tlv).collect();
        for value in &UNREADABLE[..member.unreadable] {
            tlvs.push(wire::tlv(wire::PAYMENT, value));
        }
        for &(peer, theirs, ours) in &member.names {
            tlvs.push(wire::peer_tlv(self.members[peer].id, theirs, ours));
        }
        tlvs.sort();
        tlvs.concat()
    }

    /// The node of a member that published `own_age` ago and was told of others not long ago.
    pub fn view(&self, random: &mut Random, me: usize, own_age: u64, told: &[Told]) -> View {
        let published = random.below(1 << 40);
        let now = published + own_age;
        let passed = random.below(own_age.min(20) + 1);
        let (id, own) = (self.members[me].id, self.data(&self.members[me]));
        let book = snapshot::write(id, &[Entry::new(id, random.word(), 0, 0, own.clone())], 0);
        let mut node = Node::blank();
        assert_eq!(node.resume(TABLE_ROOM, &book, published, &[0; 4]), 0);
        let mut tell = |clock, endpoint, bytes: &[u8]| {
            let (rooms, randoms) = (Rooms::default(), random.randoms());
            let answer = Calls::receive(&mut node, &rooms, bytes, clock, endpoint, false, &randoms);
            assert_eq!((answer.refusal, answer.dropped), (0, 0));
        };
        // Resuming took our Peer TLVs; the peers bring them back.
        for &(peer, theirs, ours) in &self.members[me].names {
            let peer = self.members[peer].id;
            tell(published, ours, &wire::node_endpoint_tlv(peer, theirs));
        }
        for told in told {
            let member = &self.members[told.member];
            let data = self.data(member);
            let state = wire::node_state_tlv(member.id, told.seq, told.age, &digest(&data), &data);
            tell(now - passed, 1, &state);
        }
        assert_eq!(node.show(TABLE_ROOM, id), own);
        let reach = self.reach(me, own_age, told, passed);
        let ids: BTreeSet<u32> = reach
            .iter()
            .map(|&member| self.members[member].id)
            .collect();
        assert!(node.marks(TABLE_ROOM, now).nodes.iter().eq(&ids));
        View { node, now, reach }
    }

    fn reach(&self, me: usize, own_age: u64, told: &[Told], passed: u64) -> Group {
        let mut reach = Group::from([me]);
        let mut ways = vec![(me, own_age)];
        while let Some((from, age)) = ways.pop() {
            for told in told {
                let is_step = age < AGE_LIMIT && self.are_joined(from, told.member);
                if is_step && reach.insert(told.member) {
                    ways.push((told.member, u64::from(told.age) + passed));
                }
            }
        }
        reach
    }
}

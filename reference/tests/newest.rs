//! Demand 3: after any list of statements the table holds each node's newest one,
//! whatever the order, the repeats and the datagrams they came in.

use reference::node::{Node, REPLY_ROOM, TABLE_ROOM};
use reference::random::Random;
use reference::sha256::digest;
use reference::wire;

const OWN: u32 = 50;

#[derive(Clone, Debug, PartialEq, Eq)]
struct Statement {
    node: u32,
    seq: u32,
    age: u32,
    data: Vec<u8>,
}

impl Statement {
    fn tlv(&self) -> Vec<u8> {
        wire::node_state_tlv(
            self.node,
            self.seq,
            self.age,
            &digest(&self.data),
            &self.data,
        )
    }
}

/// Data that names neighbours often enough for nodes to be in reach. Equal arguments, equal data.
fn data(node: u32, seq: u32) -> Vec<u8> {
    let mut random = Random::new(u64::from(node) << 32 | u64::from(seq));
    let mut tlvs = Vec::new();
    for other in (40..72).filter(|&other| other != node && (other ^ node) % 7 < 3) {
        if !random.one_in(5) {
            tlvs.push(wire::peer_tlv(other, 1, 1));
        }
    }
    if random.one_in(6) {
        tlvs.clear();
    }
    tlvs.concat()
}

/// Statements about up to 31 others, whose numbers lie on a stretch of 2^31 of the circle.
fn statements(random: &mut Random) -> Vec<Statement> {
    let nodes: Vec<u32> = (40..72).filter(|&node| node != OWN).collect();
    let mut list = Vec::new();
    for _ in 0..random.range(1, 60) {
        let node = random.pick(&nodes);
        // The stretch of a node begins at a point of its own.
        let base = node.wrapping_mul(0x1fff_ffff);
        let step = random.pick(&[0, 1, 2, 3, 1 << 30, (1 << 31) - 2, (1 << 31) - 1]);
        let seq = base.wrapping_add(step);
        list.push(Statement {
            node,
            seq,
            age: random.below(1_000_000) as u32,
            data: data(node, seq),
        });
    }
    list
}

/// A node with some peers that has heard the first statements.
fn start(random: &mut Random, held: &[Statement]) -> Node {
    let mut node = Node::blank();
    node.begin(TABLE_ROOM, OWN, 0, &random.randoms());
    for peer in (40..72)
        .filter(|&peer| peer != OWN && (peer ^ OWN) % 7 < 3)
        .take(16)
    {
        let datagram = wire::node_endpoint_tlv(peer, 1);
        node.receive(TABLE_ROOM, REPLY_ROOM, &datagram, 0, 1, false, &[0; 4]);
    }
    for statement in held {
        node.receive(
            TABLE_ROOM,
            REPLY_ROOM,
            &statement.tlv(),
            0,
            1,
            false,
            &[0; 4],
        );
    }
    node
}

/// Hands over all statements in a new order, some twice, in datagrams of any size,
/// with other TLVs that leave the table alone between them.
fn deliver(random: &mut Random, node: &mut Node, statements: &[Statement]) {
    let mut list = statements.to_vec();
    for statement in statements {
        if random.one_in(4) {
            let age = random.below(1_000_000) as u32;
            list.push(Statement {
                age,
                ..statement.clone()
            });
        }
    }
    random.shuffle(&mut list);
    let mut clock = node.last;
    let mut datagram = Vec::new();
    for statement in list {
        let noise = random.pick(&[
            wire::request_network_state_tlv(),
            wire::network_state_tlv(&[7; 16]),
            wire::tlv(40, &[1]),
            wire::node_state_tlv(
                statement.node,
                statement.seq.wrapping_add(1),
                0,
                &[3; 16],
                &[],
            ),
            Vec::new(),
        ]);
        let next = [noise, statement.tlv()].concat();
        if datagram.len() + next.len() > 4_096 || random.one_in(3) {
            hand_over(random, node, &mut clock, &std::mem::take(&mut datagram));
        }
        datagram.extend(next);
    }
    hand_over(random, node, &mut clock, &datagram);
}

fn hand_over(random: &mut Random, node: &mut Node, clock: &mut u64, datagram: &[u8]) {
    *clock += random.below(5_000);
    let endpoint = random.range(1, 4) as u32;
    let multicast = random.one_in(2);
    let randoms = random.randoms();
    let answer = node.receive(
        TABLE_ROOM, REPLY_ROOM, datagram, *clock, endpoint, multicast, &randoms,
    );
    assert_eq!((answer.refusal, answer.dropped), (0, 0));
}

/// Of the statements about a node, the one whose number all its other numbers are older than.
fn newest(node: u32, all: &[Statement]) -> Option<&Statement> {
    let about: Vec<&Statement> = all
        .iter()
        .filter(|statement| statement.node == node)
        .collect();
    about.iter().copied().find(|candidate| {
        about
            .iter()
            .all(|other| other.seq == candidate.seq || wire::older(other.seq, candidate.seq))
    })
}

#[test]
fn newest_statement_wins_in_any_order() {
    let mut random = Random::new(33);
    let mut reached = 0;
    for _ in 0..4_000 {
        let held: Vec<Statement> = statements(&mut random).into_iter().take(8).collect();
        let heard = statements(&mut random);
        let before = start(&mut random, &held);
        let mut first = before.clone();
        let mut second = before.clone();
        deliver(&mut random, &mut first, &heard);
        deliver(&mut random, &mut second, &heard);

        let all = [held, heard].concat();
        for node in [&first, &second] {
            assert_eq!(node.own_entry(), before.own_entry());
            for id in 40..72 {
                let expected =
                    newest(id, &all).map(|statement| (statement.seq, &statement.data[..]));
                let got = node.entry(id).map(|entry| (entry.seq, entry.data()));
                if id != OWN {
                    assert_eq!(got, expected);
                }
            }
        }
        // All entries are under age, so marks and digest agree at any later reading.
        let later = first.last.max(second.last) + random.below(1 << 31);
        assert_eq!(
            first.marks(TABLE_ROOM, later),
            second.marks(TABLE_ROOM, later)
        );
        reached += first.marks(TABLE_ROOM, later).nodes.len();
    }
    assert!(
        reached > 8_000,
        "the lists should often bring other nodes in reach"
    );
}

//! The 13 marked examples of document 01, its example of the program `totals`, and the intervals
//! of request 2 of document 02.

use reference::node::{levels, Entry, Node, CLOCK_MAX, REPLY_ROOM, TABLE_ROOM};
use reference::script::from_hex;
use reference::sha256::digest;
use reference::totals;
use reference::wire::{self, fold, keep_alive_tlv, older, peer_tlv, unfold, Payment};

fn groups(number: u32) -> Vec<u8> {
    let mut bytes = Vec::new();
    wire::write_number(&mut bytes, number);
    bytes
}

fn bytes(hex: &str) -> Vec<u8> {
    from_hex(hex).unwrap()
}

#[test]
fn examples_1_to_4_older() {
    assert!(older(0, 1));
    assert!(older(4_294_967_295, 0));
    assert!(older(0, 2_147_483_648) && older(2_147_483_648, 0));
    assert!(!older(2_147_483_647, 0));
}

#[test]
fn example_5_groups() {
    assert_eq!(groups(300), [0xac, 0x02]);
    assert_eq!(groups(128), [0x80, 0x01]);
}

#[test]
fn example_6_not_shortest() {
    assert_eq!(wire::read_number(&mut &[0xac, 0x82, 0x00][..]), None);
    assert_eq!(wire::read_payment(&bytes("11ac8200c413")), None);
}

#[test]
fn example_7_fold() {
    assert_eq!(fold(-2_147_483_648), 4_294_967_295);
    assert_eq!([0, -1, 1, -2].map(fold), [0, 1, 2, 3]);
    assert_eq!([0, 1, 2, 3].map(unfold), [0, -1, 1, -2]);
}

#[test]
fn example_8_tlv() {
    assert_eq!(wire::tlv(123, &[0x78]), bytes("007b000178000000"));
}

#[test]
fn example_9_payment() {
    let payment = Payment {
        household: 17,
        receipt: 300,
        amount: 1_250,
    };
    assert_eq!(
        wire::payment_tlv(&payment),
        bytes("0028000511ac02c413000000")
    );
    assert_eq!(wire::read_payment(&bytes("11ac02c413")), Some(payment));
}

/// A node with age 0 at reading 0 and these Peer TLVs.
fn entry(node: u32, age: u32, peers: &[(u32, u32, u32)]) -> Entry {
    let data = peers
        .iter()
        .flat_map(|&(node, theirs, ours)| peer_tlv(node, theirs, ours))
        .collect();
    Entry::new(node, 0, age, 0, data)
}

#[test]
fn example_10_one_sided() {
    let table = [entry(1, 0, &[(2, 1, 1)]), entry(2, 0, &[])];
    assert_eq!(levels(&table, 1, 0), [Some(0), None]);
}

#[test]
fn example_11_endpoint_differs() {
    let table = [entry(1, 0, &[(2, 1, 1)]), entry(2, 0, &[(1, 1, 2)])];
    assert_eq!(levels(&table, 1, 0), [Some(0), None]);
    let table = [entry(1, 0, &[(2, 1, 1)]), entry(2, 0, &[(1, 2, 1)])];
    assert_eq!(levels(&table, 1, 0), [Some(0), None]);
    let table = [entry(1, 0, &[(2, 1, 2)]), entry(2, 0, &[(1, 2, 1)])];
    assert_eq!(levels(&table, 1, 0), [Some(0), Some(1)]);
}

#[test]
fn example_12_age_limit() {
    let chain = |age| {
        [
            entry(1, 0, &[(2, 1, 1)]),
            entry(2, age, &[(1, 1, 1), (3, 1, 1)]),
            entry(3, 0, &[(2, 1, 1)]),
        ]
    };
    assert_eq!(
        levels(&chain(4_294_934_528), 1, 0),
        [Some(0), Some(1), None]
    );
    assert_eq!(
        levels(&chain(4_294_934_527), 1, 0),
        [Some(0), Some(1), Some(2)]
    );
    // The time passed since counts, and for our own node as well.
    assert_eq!(
        levels(&chain(4_294_934_527), 1, 1),
        [Some(0), Some(1), None]
    );
    assert_eq!(levels(&chain(0), 1, 4_294_934_528), [Some(0), None, None]);
}

#[test]
fn example_13_default_interval() {
    let mut node = Node::blank();
    let datagram = wire::node_endpoint_tlv(2, 1);
    node.receive(TABLE_ROOM, REPLY_ROOM, &datagram, 1_000, 1, false, &[0; 4]);
    node.tick(TABLE_ROOM, REPLY_ROOM, 1_000 + 41_999, 1, &[0; 4]);
    assert_eq!(node.peers.len(), 1);
    node.tick(TABLE_ROOM, REPLY_ROOM, 1_000 + 42_000, 1, &[0; 4]);
    assert_eq!(node.peers.len(), 0);
}

/// Whether a peer from this endpoint, with these TLVs as its data, still stands after a silence.
fn stands_after(silence: u64, theirs: u32, tlvs: &[&[u8]]) -> bool {
    let mut node = Node::blank();
    let data = tlvs.concat();
    let mut datagram = wire::node_endpoint_tlv(2, theirs);
    datagram.extend(wire::node_state_tlv(2, 1, 0, &digest(&data), &data));
    node.receive(TABLE_ROOM, REPLY_ROOM, &datagram, 0, 1, false, &[0; 4]);
    assert_eq!(node.show(TABLE_ROOM, 2), data);
    node.tick(TABLE_ROOM, REPLY_ROOM, silence, 1, &[0; 4]);
    node.peers.len() == 1
}

#[test]
fn request_2_intervals() {
    let check = |theirs, tlvs: &[&[u8]], silence| {
        assert!(stands_after(silence - 1, theirs, tlvs));
        assert!(!stands_after(silence, theirs, tlvs));
    };
    let longer = bytes("0009000c000000030000000100290000");
    let short = bytes("000900060000000300000000");
    check(3, &[&keep_alive_tlv(0, 7), &keep_alive_tlv(3, 9)], 19);
    check(4, &[&keep_alive_tlv(0, 7), &keep_alive_tlv(3, 9)], 15);
    check(3, &[&keep_alive_tlv(0, 5), &longer], 3);
    check(3, &[&keep_alive_tlv(0, 0), &keep_alive_tlv(3, 9)], 19);
    check(3, &[&keep_alive_tlv(0, 6), &keep_alive_tlv(0, 9)], 13);
    check(3, &[&short, &keep_alive_tlv(0, 6)], 13);
    check(3, &[&short, &keep_alive_tlv(4, 0)], 42_000);
    check(0, &[&keep_alive_tlv(0, 6), &keep_alive_tlv(3, 9)], 13);
}

#[test]
fn request_2_interval_0() {
    for silence in [0, 15, 42_000, CLOCK_MAX] {
        assert!(stands_after(silence, 3, &[&keep_alive_tlv(0, 0)]));
        assert!(stands_after(silence, 0, &[&keep_alive_tlv(0, 0)]));
        assert!(stands_after(
            silence,
            3,
            &[&keep_alive_tlv(0, 7), &keep_alive_tlv(3, 0)]
        ));
    }
}

#[test]
fn totals_example() {
    let snapshot = bytes("0101010101000c0028000511ac02c413000000");
    assert_eq!(
        totals::text(&snapshot),
        "household total\n17 1250\nall 1250\n"
    );
}

#[test]
fn totals_refused() {
    assert_eq!(totals::text(&[]), "refused\n");
    assert_eq!(
        totals::text(&bytes("0101010101000c0028000511ac02c41300000000")),
        "refused\n"
    );
}

#[test]
fn totals_without_payments() {
    assert_eq!(
        totals::text(&bytes("01010101000000")),
        "household total\nall 0\n"
    );
}

/// Households ascending by number, one whose payments cancel, unreadable ones not printed,
/// Peer TLVs kept, the saved ages counting.
#[test]
fn totals_as_saved() {
    let pay = |household, receipt, amount| {
        wire::payment_tlv(&Payment {
            household,
            receipt,
            amount,
        })
    };
    let ours = [
        peer_tlv(2, 1, 1),
        pay(9, 1, 5),
        pay(9, 2, -5),
        pay(300, 1, 7),
    ]
    .concat();
    let second = [
        peer_tlv(1, 1, 1),
        peer_tlv(3, 1, 1),
        wire::tlv(40, &[]),
        pay(17, 1, -30),
    ]
    .concat();
    let third = [peer_tlv(2, 1, 1), pay(5, 1, 1)].concat();
    let stranger = pay(1, 1, 1_000);
    let text = |own_age, second_age| {
        let table = [
            Entry::new(1, 4, own_age, 0, ours.clone()),
            Entry::new(2, 4, second_age, 0, second.clone()),
            Entry::new(3, 4, u32::MAX, 0, third.clone()),
            Entry::new(4, 4, 0, 0, stranger.clone()),
        ];
        totals::text(&reference::snapshot::write(1, &table, 0))
    };
    assert_eq!(
        text(0, 0),
        "household total\n5 1\n9 0\n17 -30\n300 7\nall -22\n"
    );
    assert_eq!(
        text(0, 4_294_934_528),
        "household total\n9 0\n17 -30\n300 7\nall -23\n"
    );
    assert_eq!(
        text(4_294_934_528, 0),
        "household total\n9 0\n300 7\nall 7\n"
    );
}

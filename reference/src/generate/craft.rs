//! Made-up bytes: node data, odd TLVs, snapshots, and damage to them.

use crate::node::ALL_ENDPOINTS;
use crate::random::Random;
use crate::wire::{self, Payment, MAX_DATA};

/// Few households, so that payments meet.
pub const HOUSEHOLDS: [u32; 6] = [1, 2, 17, 128, 300, 9_999];

pub fn payment(random: &mut Random) -> Payment {
    let any = random.word();
    Payment {
        household: random.pick(&HOUSEHOLDS),
        receipt: random.pick(&[0, 1, 2, 127, 128, 300, 16_384, u32::MAX, any]),
        amount: random.pick(&[0, -1, 1, -2, 63, 64, 1_250, i32::MIN, i32::MAX, any as i32]),
    }
}

/// A keep-alive interval to choose: mostly small ones, so that keep-alives go out, and edges.
pub fn interval(random: &mut Random) -> u32 {
    let small = random.range(2, 3_000) as u32;
    random.pick(&[
        0,
        1,
        10,
        100,
        small,
        small,
        small,
        5_000,
        19_999,
        20_000,
        20_000,
        20_001,
        600_000,
        600_001,
        u32::MAX,
    ])
}

/// A type 40 TLV that is no payment.
fn unreadable_payment(random: &mut Random) -> Vec<u8> {
    let value: &[u8] = random.pick(&[
        &[][..],
        &[17],
        &[17, 1],
        &[0, 1, 2],
        &[0x90, 0x4e, 1, 2],
        &[0x91, 0x00, 1, 2],
        &[17, 0xac, 0x82, 0x00, 2],
        &[17, 1, 2, 0],
        &[17, 1, 2, 3, 4, 5, 6],
        &[17, 0xff, 0xff, 0xff, 0xff, 0x10, 2],
        &[17, 0xff, 0xff, 0xff, 0xff, 0xff, 0x01, 2],
        &[17, 1, 0x80],
    ]);
    wire::tlv(wire::PAYMENT, value)
}

/// A TLV as it may stand in node data, besides the Peer TLVs that matter.
pub fn published_tlv(random: &mut Random) -> Vec<u8> {
    let node = random.below(8) as u32;
    let endpoint = random.below(5) as u32;
    match random.below(12) {
        0..=4 => wire::payment_tlv(&payment(random)),
        5 => unreadable_payment(random),
        6 | 7 => keep_alive(random, endpoint),
        8 => {
            // Longer or shorter than its fixed value.
            let mut value = wire::peer_tlv(node, endpoint, endpoint)[4..].to_vec();
            value.resize(random.pick(&[0, 4, 11, 13, 16]), 0);
            wire::tlv(wire::PEER, &value)
        }
        9 => keep_alive(random, ALL_ENDPOINTS),
        10 => wire::peer_tlv(node, endpoint, endpoint),
        _ => odd_tlv(random),
    }
}

/// A type 9 TLV for an endpoint as another maker may publish it: often with interval 0,
/// sometimes too short, sometimes with something after the interval.
fn keep_alive(random: &mut Random, endpoint: u32) -> Vec<u8> {
    let interval = match random.below(12) {
        0..=3 => 0,
        // Short ones, so that silence soon tells.
        4..=8 => random.pick(&[1, 3, 10, 100, 1_000]),
        _ => random.pick(&[5_000, 20_000, 600_000, u32::MAX]),
    };
    let mut value = wire::keep_alive_tlv(endpoint, interval)[4..].to_vec();
    match random.below(8) {
        0 => value.truncate(random.pick(&[0, 4, 6, 6, 7])),
        1 => value.push(1),
        2 => value.extend(wire::tlv(41, &[])),
        _ => {}
    }
    wire::tlv(wire::KEEP_ALIVE, &value)
}

/// A type 9 TLV for an endpoint that may be none of ours.
fn odd_keep_alive(random: &mut Random) -> Vec<u8> {
    let endpoint = random.pick(&[0, 1, 2, 3, 4, 5, 9, u32::MAX]);
    keep_alive(random, endpoint)
}

/// Type 9 TLVs for this endpoint, for all endpoints and for any one: none, one or two of each.
pub fn keep_alives(random: &mut Random, endpoint: u32) -> Vec<Vec<u8>> {
    let mut tlvs = Vec::new();
    let any = random.range(1, 4) as u32;
    for endpoint in [endpoint, ALL_ENDPOINTS, any] {
        for _ in 0..random.below(3) {
            tlvs.push(keep_alive(random, endpoint));
        }
    }
    tlvs
}

/// A TLV of any type, with a value of any length that is small.
pub fn odd_tlv(random: &mut Random) -> Vec<u8> {
    let any = random.word() as u16;
    let kind = random.pick(&[
        0,
        1,
        2,
        3,
        4,
        5,
        6,
        7,
        8,
        9,
        10,
        32,
        40,
        41,
        123,
        511,
        512,
        u16::MAX,
        any,
    ]);
    let length = random.pick(&[0, 1, 3, 4, 7, 8, 11, 12, 15, 16, 20, 27, 28, 31]);
    let value: Vec<u8> = (0..length).map(|_| random.below(4) as u8).collect();
    wire::tlv(kind, &value)
}

/// A whole TLV with its value made somewhat shorter or longer.
pub fn resized(random: &mut Random, tlv: &[u8]) -> Vec<u8> {
    let row = wire::tlvs_of(tlv);
    let mut value = row[0].value.to_vec();
    let length = match random.below(4) {
        0 => value.len().saturating_sub(1),
        1 => value.len().saturating_sub(4),
        2 => value.len() + 1,
        _ => value.len() + 4,
    };
    value.resize(length, random.below(3) as u8);
    wire::tlv(row[0].kind, &value)
}

/// The TLVs in order, repeats left out, as many as fit.
pub fn good_data(mut tlvs: Vec<Vec<u8>>) -> Vec<u8> {
    tlvs.sort();
    tlvs.dedup();
    let mut data = Vec::new();
    for tlv in tlvs {
        if data.len() + tlv.len() <= MAX_DATA {
            data.extend(tlv);
        }
    }
    data
}

/// Ordered node data of this length, a multiple of 4; it may be more than is good.
pub fn data_of_length(random: &mut Random, length: usize) -> Vec<u8> {
    let mut tlvs = Vec::new();
    for _ in 0..random.below(20) {
        tlvs.push(wire::payment_tlv(&payment(random)));
    }
    // In our own data these go when we resume.
    for _ in 0..random.pick(&[0, 0, 1, 3]) {
        tlvs.push(odd_keep_alive(random));
    }
    let mut data = good_data(tlvs);
    // The filler's type is above that of payments, so it stands last.
    let filler = vec![random.word() as u8; length - data.len() - 4];
    data.extend(wire::tlv(500, &filler));
    data
}

/// A node as a snapshot has it: identifier, sequence number, age, data.
pub type Saved = (u32, u32, u32, Vec<u8>);

/// The snapshot of these nodes as they stand, in order or not.
pub fn snapshot_of(own: u32, nodes: &[Saved]) -> Vec<u8> {
    let mut out = vec![1];
    wire::write_number(&mut out, own);
    wire::write_number(&mut out, nodes.len() as u32);
    for (node, seq, age, data) in nodes {
        for number in [*node, *seq, *age, data.len() as u32] {
            wire::write_number(&mut out, number);
        }
        out.extend_from_slice(data);
    }
    out
}

fn saved_node(random: &mut Random, node: u32, own: u32) -> Saved {
    let mut tlvs = Vec::new();
    for _ in 0..random.below(6) {
        tlvs.push(published_tlv(random));
    }
    if node == own {
        for _ in 0..random.below(4) {
            tlvs.push(odd_keep_alive(random));
        }
    }
    let any = random.word();
    let seq = random.pick(&[0, 1, u32::MAX, (1 << 31) - 1, any]);
    let age = random.pick(&[0, 0, 500, u32::MAX, any]);
    (node, seq, age, good_data(tlvs))
}

/// A snapshot of our own node and some others.
pub fn snapshot(random: &mut Random, own: u32) -> Vec<u8> {
    let mut ids = vec![own];
    let others = random.pick(&[0, 0, 1, 3, 31]);
    ids.extend((0..40).filter(|&node| node != own).take(others));
    ids.sort_unstable();
    let nodes: Vec<Saved> = ids
        .into_iter()
        .map(|node| saved_node(random, node, own))
        .collect();
    snapshot_of(own, &nodes)
}

/// Something that makes a snapshot another one, or none.
pub fn damage_snapshot(random: &mut Random, bytes: &mut Vec<u8>) {
    match random.below(9) {
        0 => bytes.push(0),
        1 => bytes.truncate(random.below(bytes.len() as u64 + 1) as usize),
        2 => bytes[0] = random.pick(&[0, 2, 0x81]),
        3 => {
            // Edition 1 with a needless group.
            bytes[0] = 0x81;
            bytes.insert(1, 0);
        }
        4 => *bytes = broken_snapshot(random),
        _ => flip(random, bytes),
    }
}

/// A snapshot with one rule broken on purpose.
fn broken_snapshot(random: &mut Random) -> Vec<u8> {
    let many = |count: u32| {
        (0..count)
            .map(|node| (node, 1, 0, Vec::new()))
            .collect::<Vec<Saved>>()
    };
    let payment = wire::payment_tlv(&payment(random));
    let twice = [payment.clone(), payment.clone()].concat();
    match random.below(7) {
        0 => snapshot_of(3, &[]),
        1 => snapshot_of(3, &many(33)),
        2 => snapshot_of(40, &many(5)),
        3 => snapshot_of(3, &[(4, 0, 0, payment), (3, 0, 0, Vec::new())]),
        4 => snapshot_of(3, &[(3, 0, 0, payment), (3, 0, 0, Vec::new())]),
        5 => snapshot_of(3, &[(3, 0, 0, twice)]),
        _ => snapshot_of(3, &[(3, 0, 0, data_of_length(random, 1_028))]),
    }
}

fn flip(random: &mut Random, bytes: &mut [u8]) {
    if !bytes.is_empty() {
        let at = random.below(bytes.len() as u64) as usize;
        bytes[at] ^= 1 << random.below(8);
    }
}

/// Something that goes wrong on the way, or that another maker does wrong.
pub fn damage_datagram(random: &mut Random, bytes: &mut Vec<u8>) {
    match random.below(7) {
        0 => bytes.truncate(random.below(bytes.len() as u64 + 1) as usize),
        1 => bytes.push(0),
        2 => bytes.extend([0, 41, 0, 1, 7, 0, 0, 1]),
        3 => {
            let node = random.below(8) as u32;
            bytes.extend(bad_statement(random, node));
        }
        4 => bytes.extend(odd_tlv(random)),
        _ => flip(random, bytes),
    }
}

/// A Node State whose data or digest is wrong.
pub fn bad_statement(random: &mut Random, node: u32) -> Vec<u8> {
    let data = match random.below(5) {
        // Not ascending.
        0 => [wire::tlv(41, &[2]), wire::tlv(41, &[1])].concat(),
        // Twice the same.
        1 => [wire::tlv(41, &[2]), wire::tlv(41, &[2])].concat(),
        // Not a row.
        2 => vec![0xff; 4],
        // Padding not zero.
        3 => vec![0, 41, 0, 1, 7, 0, 0, 1],
        _ => data_of_length(random, 1_028),
    };
    let mut digest = crate::sha256::digest(&data);
    if random.one_in(4) {
        digest[15] ^= 1;
    }
    wire::node_state_tlv(node, 1 << 30, 0, &digest, &data)
}

/// Makes a datagram just as long as allowed, or longer.
pub fn lengthen(random: &mut Random, bytes: &mut Vec<u8>) {
    let length: usize = random.pick(&[4_096, 4_097, 4_100, 4_500]);
    let value = length.saturating_sub(bytes.len() + 4);
    bytes.extend(wire::tlv(41, &vec![0; value]));
}

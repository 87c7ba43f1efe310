//! What is written is read back, and nothing else is.

use reference::generate;
use reference::random::Random;
use reference::script::{from_hex, hex, Session};
use reference::snapshot;
use reference::wire::{self, Payment};

fn edge_numbers(random: &mut Random) -> Vec<u32> {
    let mut numbers = vec![0, 1, u32::MAX, u32::MAX - 1];
    for bit in 0..32 {
        numbers.extend([(1u32 << bit) - 1, 1 << bit, (1 << bit) + 1]);
    }
    numbers.extend((0..2_000).map(|_| random.word() >> random.below(32)));
    numbers
}

#[test]
fn numbers() {
    let mut random = Random::new(1);
    for number in edge_numbers(&mut random) {
        let mut bytes = Vec::new();
        wire::write_number(&mut bytes, number);
        let length = bytes.len();
        for cut in 0..length {
            assert_eq!(wire::read_number(&mut &bytes[..cut]), None);
        }
        bytes.push(7);
        let mut rest = &bytes[..];
        assert_eq!(wire::read_number(&mut rest), Some(number));
        assert_eq!(rest, [7]);
        // A needless zero group is refused.
        bytes[length - 1] |= 0x80;
        bytes[length] = 0;
        assert_eq!(wire::read_number(&mut &bytes[..]), None);
    }
}

/// Whatever can be read is what would be written.
#[test]
fn numbers_have_one_form() {
    let mut random = Random::new(2);
    for _ in 0..100_000 {
        let bytes: Vec<u8> = (0..6)
            .map(|_| random.pick(&[0, 1, 0x0f, 0x10, 0x7f, 0x80, 0x81, 0xff]))
            .collect();
        let mut rest = &bytes[..];
        if let Some(number) = wire::read_number(&mut rest) {
            let mut written = Vec::new();
            wire::write_number(&mut written, number);
            assert_eq!(written, bytes[..6 - rest.len()]);
        }
    }
}

#[test]
fn folding() {
    let mut random = Random::new(3);
    for folded in edge_numbers(&mut random) {
        assert_eq!(wire::fold(wire::unfold(folded)), folded);
        assert_eq!(wire::unfold(wire::fold(folded as i32)), folded as i32);
    }
}

#[test]
fn payments() {
    let mut random = Random::new(4);
    for receipt in edge_numbers(&mut random) {
        let household = random.range(1, 9_999) as u32;
        let payment = Payment {
            household,
            receipt,
            amount: random.word() as i32,
        };
        let bytes = wire::payment_tlv(&payment);
        let tlvs = wire::row(&bytes).unwrap();
        assert_eq!(tlvs.len(), 1);
        assert_eq!(wire::read_payment(tlvs[0].value), Some(payment));
        assert!([8, 12, 16].contains(&bytes.len()));
    }
}

#[test]
fn rows() {
    let mut random = Random::new(5);
    for _ in 0..5_000 {
        let mut bytes = Vec::new();
        let mut written = Vec::new();
        for _ in 0..random.below(6) {
            let kind = random.word() as u16;
            let value: Vec<u8> = (0..random.below(9)).map(|_| random.word() as u8).collect();
            bytes.extend(wire::tlv(kind, &value));
            written.push((kind, value));
        }
        let read: Vec<_> = wire::row(&bytes)
            .unwrap()
            .iter()
            .map(|tlv| (tlv.kind, tlv.value.to_vec()))
            .collect();
        assert_eq!(read, written);
        assert_eq!(bytes.len() % 4, 0);
        for stray in 1..4 {
            let mut longer = bytes.clone();
            longer.resize(bytes.len() + stray, 0);
            assert!(wire::row(&longer).is_none());
        }
    }
}

#[test]
fn hexadecimal() {
    let all: Vec<u8> = (0..=255).collect();
    assert_eq!(from_hex(&hex(&all)), Some(all));
    assert_eq!(hex(&[]), "-");
    assert_eq!(from_hex("-"), Some(Vec::new()));
    for bad in ["", "a", "AB", "0g", "--", "- "] {
        assert_eq!(from_hex(bad), None);
    }
}

/// At every moment of made-up sessions: reading gives back what was saved, ages capped,
/// and no shorter or longer bytes are a snapshot.
#[test]
fn snapshots() {
    let mut session = Session::default();
    let mut random = Random::new(6);
    for line in generate::script(6, 3_000).lines() {
        session.run_line(line);
        let node = &session.node;
        let now = node.last + random.pick(&[0, 1, 1 << 33]).min((1 << 62) - 1 - node.last);
        let bytes = snapshot::write(node.own, &node.table, now);
        assert!(bytes.len() <= snapshot::SNAPSHOT_ROOM);
        let read = snapshot::load(&bytes, 0).unwrap();
        assert_eq!(read.own, node.own);
        assert_eq!(read.table.len(), node.table.len());
        for (read, held) in read.table.iter().zip(&node.table) {
            assert_eq!(
                (read.node, read.seq, read.data()),
                (held.node, held.seq, held.data())
            );
            assert_eq!(
                u64::from(read.age),
                held.age_at(now).min(u64::from(u32::MAX))
            );
        }
        let cut = random.below(bytes.len() as u64) as usize;
        assert_eq!(snapshot::load(&bytes[..cut], 0), None);
        assert_eq!(snapshot::load(&[&bytes[..], &[0]].concat(), 0), None);
    }
}

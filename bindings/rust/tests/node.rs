//! What a node refuses and chooses, and what it is as a value.

#![forbid(unsafe_code)]

use pingvratha::{
    Node, Refusal, DATA_LIMIT, LAST_READING, LEAST_KEEP_ALIVE, MOST_BYTES, MOST_ENDPOINTS,
    MOST_HOUSEHOLD, MOST_KEEP_ALIVE, SNAPSHOT_BYTES, USUAL_INTERVAL,
};

const RANDOMS: [u32; MOST_ENDPOINTS] = [1, 2, 3, 4];

/// Box 7, begun at reading 1,000.
fn begun() -> Node {
    let mut node = Node::new();
    assert_eq!(node.begin(7, 1_000, &RANDOMS), Ok(()));
    node
}

/// Payments of eight bytes each, until our data are full. So many fit.
fn fill(node: &mut Node) -> usize {
    let paid = (1..).take_while(|&receipt| node.pay(1_000, 17, receipt, 1, &RANDOMS).is_ok());
    paid.count()
}

/// The call is refused so, and the node stays as it was.
fn refuses<T>(refusal: Refusal, call: impl FnOnce(&mut Node) -> Result<T, Refusal>) {
    let mut node = begun();
    let (state, data) = (*node.state(), node.show(7).unwrap().to_vec());
    assert_eq!(call(&mut node).err(), Some(refusal));
    assert_eq!((*node.state(), node.show(7).unwrap()), (state, &data[..]));
}

#[test]
fn refuses_clocks_and_endpoints() {
    let mut room = [0; MOST_BYTES];
    refuses(Refusal::ClockTooHigh, |node| {
        node.begin(7, LAST_READING + 1, &RANDOMS)
    });
    refuses(Refusal::ClockTooHigh, |node| node.sum(LAST_READING + 1));
    refuses(Refusal::ClockBack, |node| node.purge(999, &RANDOMS));
    refuses(Refusal::ClockBack, |node| node.marks(999));
    refuses(Refusal::NoSuchEndpoint, |node| {
        node.tick(&mut room, 1_000, 0, &RANDOMS).map(drop)
    });
    refuses(Refusal::NoSuchEndpoint, |node| {
        node.receive(&mut room, &[], 1_000, 5, true, &RANDOMS)
            .map(drop)
    });
    assert_eq!(room, [0; MOST_BYTES]);
}

#[test]
fn refuses_datagrams() {
    let mut room = [0; MOST_BYTES];
    for (refusal, datagram) in [
        (Refusal::DatagramTooLong, vec![0; MOST_BYTES + 4]),
        (Refusal::DatagramMalformed, vec![0, 1, 0]),
        (Refusal::DatagramMalformed, vec![0, 123, 0, 1, 120, 0, 0, 1]),
    ] {
        refuses(refusal, |node| {
            node.receive(&mut room, &datagram, 1_000, 1, true, &RANDOMS)
                .map(drop)
        });
    }
    assert_eq!(room, [0; MOST_BYTES]);
}

#[test]
fn refuses_payments() {
    refuses(Refusal::NoSuchHousehold, |node| {
        node.pay(1_000, 0, 1, 1, &RANDOMS)
    });
    refuses(Refusal::NoSuchHousehold, |node| {
        node.total(1_000, MOST_HOUSEHOLD + 1)
    });
    let mut node = begun();
    assert_eq!(node.pay(1_000, 17, 1, 1, &RANDOMS), Ok(()));
    assert_eq!(
        node.pay(1_000, 17, 1, 1, &RANDOMS),
        Err(Refusal::PaidAlready)
    );
    let mut node = begun();
    assert_eq!(8 * fill(&mut node), DATA_LIMIT);
    assert_eq!(node.pay(1_000, 18, 1, 1, &RANDOMS), Err(Refusal::DataFull));
    assert_eq!(node.show(7).unwrap().len(), DATA_LIMIT);
}

#[test]
fn refuses_intervals() {
    for interval in [LEAST_KEEP_ALIVE - 1, MOST_KEEP_ALIVE + 1] {
        refuses(Refusal::NoSuchInterval, |node| {
            node.keep_alive(1_000, 1, interval, &RANDOMS)
        });
        refuses(Refusal::NoSuchEndpoint, |node| {
            node.keep_alive(1_000, 5, interval, &RANDOMS)
        });
    }
    let mut node = begun();
    fill(&mut node);
    assert_eq!(
        node.keep_alive(1_000, 1, 5_000, &RANDOMS),
        Err(Refusal::DataFull)
    );
    assert_eq!(node.keep_alive(1_000, 1, USUAL_INTERVAL, &RANDOMS), Ok(()));
    assert_eq!(node.show(7).unwrap().len(), DATA_LIMIT);
}

/// Both ends of the range are good, and our data tell any choice but the usual one, until we resume.
#[test]
fn chooses_intervals() {
    let mut node = begun();
    for (interval, bytes) in [
        (LEAST_KEEP_ALIVE, 12),
        (USUAL_INTERVAL, 0),
        (MOST_KEEP_ALIVE, 12),
    ] {
        assert_eq!(node.keep_alive(1_000, 2, interval, &RANDOMS), Ok(()));
        assert_eq!(node.show(7).unwrap().len(), bytes);
        assert_eq!(node.state().endpoints[1].keep, interval);
    }
    let mut book = [0; SNAPSHOT_BYTES];
    let saved = node.save(&mut book, 1_000).unwrap();
    assert_eq!(node.resume(saved, 1_000, &RANDOMS), Ok(()));
    assert_eq!(node.show(7).unwrap().len(), 0);
    assert_eq!(node.state().endpoints[1].keep, USUAL_INTERVAL);
}

#[test]
fn refuses_unknown_nodes_and_snapshots() {
    refuses(Refusal::NoSuchNode, |node| node.show(8).map(<[u8]>::len));
    refuses(Refusal::NotASnapshot, |node| node.resume(&[], 0, &RANDOMS));
    let (node, mut book) = (begun(), [0; SNAPSHOT_BYTES]);
    let saved = node.save(&mut book, 1_000).unwrap();
    refuses(Refusal::NotASnapshot, |node| {
        node.resume(&saved[1..], 0, &RANDOMS)
    });
    assert_eq!(node.clone().resume(saved, 0, &RANDOMS), Ok(()));
}

#[test]
fn numbers_and_words() {
    for (at, refusal) in Refusal::ALL.into_iter().enumerate() {
        assert_eq!(refusal.number() as usize, at + 1);
        assert_eq!(Refusal::of(refusal.number()), Some(refusal));
        assert_eq!(refusal.to_string(), refusal.words());
    }
    assert_eq!(Refusal::of(0), None);
    assert_eq!(Refusal::of(13), None);
}

/// A refusal goes where errors go, a node where data go.
#[test]
fn fits_in() {
    fn is_error<T: std::error::Error + Send + Sync + 'static>() {}
    fn is_data<T: Send + Sync + Clone + Default + std::fmt::Debug + 'static>() {}
    is_error::<Refusal>();
    is_data::<Node>();
    assert_eq!(format!("{:?}", begun()), "Node { own: 7, last: 1000, .. }");
}

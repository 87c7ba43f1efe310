//! Made-up sessions: what holds at every moment of them.

use reference::generate;
use reference::node::{
    Node, Peer, CLOCK_MAX, DEFAULT_KEEP_ALIVE, INTERVAL_MAX, INTERVAL_MIN, KEEP_ALIVE_MAX,
    MAX_NODES, MAX_PEERS, REPLY_ROOM, TABLE_ROOM,
};
use reference::random::Random;
use reference::script::{parse, Line, Session};
use reference::wire;
use std::collections::{BTreeMap, BTreeSet};

/// What every call keeps.
fn check_state(node: &Node) {
    assert!(node.last <= CLOCK_MAX);
    assert!(node.table.len() <= MAX_NODES);
    assert!(node
        .table
        .windows(2)
        .all(|pair| pair[0].node < pair[1].node));
    for entry in &node.table {
        assert!(wire::good(entry.data()));
        assert_eq!(*entry.digest(), reference::sha256::digest(entry.data()));
        assert!(entry.since <= node.last);
    }
    check_peers(node);
    check_keep_alives(node);
    for (trickle, next_request) in node.trickle.iter().zip(node.next_request) {
        assert!(trickle.start <= node.last);
        assert!((0..=7).any(|doublings| trickle.interval == INTERVAL_MIN << doublings));
        assert!(trickle.interval <= INTERVAL_MAX);
        assert!(trickle.interval / 2 <= trickle.point && trickle.point < trickle.interval);
        assert!(next_request == 0 || next_request <= node.last + INTERVAL_MIN);
    }
    assert_eq!(node.digest, node.network_digest(node.last));
}

/// The type 8 TLVs of our data are exactly those of our peers.
fn check_peers(node: &Node) {
    assert!(node.peers.len() <= MAX_PEERS);
    let mut tlvs: Vec<Vec<u8>> = Vec::new();
    for peer in &node.peers {
        assert!(peer.node != node.own && (1..=4).contains(&peer.ours) && peer.contact <= node.last);
        tlvs.push(wire::peer_tlv(peer.node, peer.theirs, peer.ours));
    }
    tlvs.sort();
    assert_eq!(published(node, wire::PEER), tlvs);
}

/// The type 9 TLVs of our data are exactly those of the endpoints with another interval than
/// the default.
fn check_keep_alives(node: &Node) {
    let mut tlvs: Vec<Vec<u8>> = Vec::new();
    for (endpoint, keep_alive) in (1..).zip(node.keep_alives) {
        assert!((1..=KEEP_ALIVE_MAX).contains(&keep_alive.keep));
        assert!(keep_alive.quiet <= node.last + INTERVAL_MIN / 2);
        if keep_alive.keep != DEFAULT_KEEP_ALIVE {
            tlvs.push(wire::keep_alive_tlv(endpoint, keep_alive.keep));
        }
    }
    assert_eq!(published(node, wire::KEEP_ALIVE), tlvs);
}

/// The TLVs of one type in our data.
fn published(node: &Node, kind: u16) -> Vec<Vec<u8>> {
    wire::tlvs_of(node.own_entry().data())
        .iter()
        .filter(|tlv| tlv.kind == kind)
        .map(|tlv| tlv.whole.to_vec())
        .collect()
}

/// Refused calls and calls that only show leave the state; the others keep its rules.
#[test]
fn state_rules() {
    for seed in 100..108 {
        let mut session = Session::default();
        for line in generate::script(seed, 3_000).lines() {
            let before = session.node.clone();
            let answer = session.run_line(line);
            let words: Vec<&str> = answer.split_whitespace().collect();
            let shows = ["total", "sum", "marks", "save", "show", "state", "bad"];
            let changes = !words.is_empty() && words[1] == "0" && !shows.contains(&words[0]);
            if changes {
                check_state(&session.node);
            } else {
                assert_eq!(session.node, before, "{line}");
            }
        }
    }
}

#[test]
fn blank_state_keeps_the_rules() {
    check_state(&Node::blank());
}

/// The same seed gives the same script, of the number of calls that was asked for.
#[test]
fn scripts_are_reproducible() {
    let script = generate::script(9, 500);
    assert_eq!(script, generate::script(9, 500));
    assert_ne!(script, generate::script(10, 500));
    let calls = script
        .lines()
        .filter(|line| reference::script::parse(line).is_some())
        .filter(|line| *line != "state" && !line.starts_with("rooms "))
        .count();
    assert_eq!(calls, 500);
}

/// After three ticks at one reading nothing further is due on that endpoint.
#[test]
fn three_ticks_then_nothing() {
    let mut random = Random::new(55);
    let mut session = Session::default();
    let mut checks = 0;
    let mut third = 0;
    for line in generate::script(55, 12_000).lines() {
        session.run_line(line);
        let mut node = session.node.clone();
        let leap = random.pick(&[0, 1, 100, 200, 400, 1_000, 42_000, 1 << 32, 1 << 50]);
        let clock = (node.last + leap).min(CLOCK_MAX);
        let endpoint = random.range(1, 4) as u32;
        let mut tick = |node: &mut Node| {
            let answer = node.tick(TABLE_ROOM, REPLY_ROOM, clock, endpoint, &random.randoms());
            assert_eq!(answer.refusal, 0);
            answer.bytes
        };
        let answers = [(); 3].map(|()| tick(&mut node));
        let sent = answers.iter().filter(|bytes| !bytes.is_empty()).count();
        assert!(sent <= 1, "at most one of the three sends");
        third += usize::from(!answers[2].is_empty());
        let settled = node.clone();
        assert!(tick(&mut node).is_empty());
        assert_eq!(node, settled);
        checks += 1;
    }
    assert!(checks > 12_000);
    assert!(third > 0, "sometimes the third sends");
}

/// Reading and endpoint of a tick that was accepted.
fn accepted_tick(line: &str, answer: &str) -> Option<(u64, u32)> {
    match parse(line)? {
        Line::Tick {
            clock, endpoint, ..
        } if answer.starts_with("tick 0") => Some((clock, endpoint)),
        _ => None,
    }
}

/// Keep-alives are sent with and without a reset, at the first reading at which they are due and
/// not one earlier; choices meet each of their numbers.
#[test]
fn sessions_meet_keep_alives() {
    let mut sent = [0; 2];
    let mut just_due = [0; 2];
    let mut answers = BTreeSet::new();
    for seed in 300..308 {
        let mut session = Session::default();
        for line in generate::script(seed, 3_000).lines() {
            let before = session.node.clone();
            let answer = session.run_line(line);
            if answer.starts_with("keep-alive") {
                answers.insert(answer.clone());
            }
            let Some((clock, endpoint)) = accepted_tick(line, &answer) else {
                continue;
            };
            let index = endpoint as usize - 1;
            let due = before.keep_alives[index].due();
            // After a send point of Trickle's own it would be spent.
            let kept_alive = answer.starts_with("tick 0 32") && !session.node.trickle[index].spent;
            if kept_alive {
                let interval = session.node.trickle[index].interval;
                let reset = interval != before.trickle[index].interval;
                sent[usize::from(reset)] += 1;
            }
            if clock == due || clock + 1 == due {
                just_due[usize::from(kept_alive)] += 1;
                assert!(clock == due || !kept_alive, "{line}");
            }
        }
    }
    assert!(sent.iter().all(|&count| count > 20), "{sent:?}");
    assert!(just_due.iter().all(|&count| count > 50), "{just_due:?}");
    let numbers = [0, 1, 12, 2, 3, 4, 9].map(|number| format!("keep-alive {number}\n"));
    assert!(answers.iter().eq(&numbers), "{answers:?}");
}

/// Where the interval of a peer is from. The earlier one counts.
#[derive(Clone, Copy, Debug, PartialEq, Eq, PartialOrd, Ord)]
enum Source {
    Endpoint,
    AllEndpoints,
    NoTlv,
    NotHeld,
}

/// The interval of a peer, found in one walk through its data.
fn interval_of(node: &Node, peer: &Peer) -> (Source, u32) {
    let Some(entry) = node.entry(peer.node) else {
        return (Source::NotHeld, DEFAULT_KEEP_ALIVE);
    };
    let mut found = (Source::NoTlv, DEFAULT_KEEP_ALIVE);
    for tlv in wire::tlvs_of(entry.data()) {
        if tlv.kind != wire::KEEP_ALIVE || tlv.value.len() < 8 {
            continue;
        }
        let source = match wire::word(tlv.value, 0) {
            endpoint if endpoint == peer.theirs => Source::Endpoint,
            0 => Source::AllEndpoints,
            _ => continue,
        };
        if source < found.0 {
            found = (source, wire::word(tlv.value, 1));
        }
    }
    found
}

/// A silence beside the limit of its interval.
#[derive(Clone, Copy, Debug, PartialEq, Eq, PartialOrd, Ord)]
enum Silence {
    Short,
    JustShort,
    JustLong,
    Long,
    /// Interval 0, but the limit of the default is reached.
    Endless,
}

impl Silence {
    fn new(silence: u64, interval: u32) -> Silence {
        let limit = (21 * u64::from(interval)).div_ceil(10);
        match interval {
            0 if silence >= 42_000 => Silence::Endless,
            0 => Silence::Short,
            _ if silence == limit => Silence::JustLong,
            _ if silence > limit => Silence::Long,
            _ if silence + 1 == limit => Silence::JustShort,
            _ => Silence::Short,
        }
    }

    fn is_over(self) -> bool {
        [Silence::JustLong, Silence::Long].contains(&self)
    }
}

/// A tick removes the peers of its endpoint that are silent for too long, and no others. Intervals
/// of each source meet both sides of their limit, and interval 0 meets long silences.
#[test]
fn sessions_meet_silences() {
    let mut met = BTreeMap::new();
    for seed in 400..408 {
        let mut session = Session::default();
        for line in generate::script(seed, 3_000).lines() {
            let before = session.node.clone();
            let answer = session.run_line(line);
            let Some((clock, endpoint)) = accepted_tick(line, &answer) else {
                continue;
            };
            let mut kept = before.peers.clone();
            kept.retain(|peer| {
                if peer.ours != endpoint {
                    return true;
                }
                let (source, interval) = interval_of(&before, peer);
                let silence = Silence::new(clock - peer.contact, interval);
                *met.entry((source, silence)).or_insert(0) += 1;
                !silence.is_over()
            });
            assert_eq!(session.node.peers, kept, "{line}");
        }
    }
    // Only a published interval can be 0.
    assert_eq!(met.len(), 4 * 4 + 2, "{met:?}");
    assert!(met.values().all(|&count| count > 20), "{met:?}");
}

/// Last levels near and far are printed, always below the number of nodes in reach.
#[test]
fn sessions_meet_levels() {
    let mut met = [0; 5];
    let mut fewer = 0;
    for seed in 500..508 {
        let mut session = Session::default();
        for line in generate::script(seed, 3_000).lines() {
            let answer = session.run_line(line);
            let words: Vec<&str> = answer.split_whitespace().collect();
            let ["marks", "0", count, last, _, ids @ ..] = words.as_slice() else {
                continue;
            };
            let (count, last): (usize, usize) = (count.parse().unwrap(), last.parse().unwrap());
            assert_eq!(ids.len(), count);
            assert!(last < count && count <= session.node.table.len());
            met[last.min(4)] += 1;
            fewer += usize::from(last + 1 < count);
        }
    }
    assert!(met.iter().all(|&count| count > 5), "{met:?}");
    assert!(fewer > 20, "{fewer}");
}

/// The sum over all households is the sum of the totals, with one count for all.
#[test]
fn totals_add_up() {
    let mut session = Session::default();
    for line in generate::script(66, 2_000).lines() {
        session.run_line(line);
        let node = &session.node;
        let sum = node.sum(TABLE_ROOM, node.last);
        let mut added = 0;
        for household in [1, 2, 17, 128, 300, 9_999] {
            let total = node.total(TABLE_ROOM, node.last, household);
            assert_eq!(total.unreadable, sum.unreadable);
            added += total.value;
        }
        assert_eq!(added, sum.value);
    }
}

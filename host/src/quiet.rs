//! One multicast link of nodes that agree: how many peers they remove for silence, though nobody is
//! gone. Counted from outside, by the calls that every host has.

use pingvratha::{Node, Randoms, Refusal, Room, MOST_BYTES, USUAL_INTERVAL};
use reference::random::Random;
use reference::wire;
use std::collections::VecDeque;

/// What is asked for: simulated hours of each link, and the keep-alive interval that its nodes choose.
pub struct Quiet {
    pub hours: f64,
    pub interval: u32,
}

/// Unless others are.
pub const USUAL: Quiet = Quiet {
    hours: 6.0,
    interval: USUAL_INTERVAL,
};

const SEED: u64 = 7787;
/// Nodes of the links; 16 peers are the most that a node has.
const COUNTS: [u32; 5] = [2, 3, 5, 8, 17];
/// Milliseconds.
const HOUR: f64 = 3_600_000.0;
/// Every node is on the link with this endpoint, and uses no other.
const ENDPOINT: u32 = 1;
/// All nodes have begun before this reading.
const BEGUN: u64 = 1_000;
/// Milliseconds between two ticks of a node.
const PACE: u64 = 100;
/// Replies to replies end here, whatever the nodes do; they need fewer.
const MOST_TURNS: usize = 16;

/// Links without loss, then with some.
pub fn run(quiet: &Quiet) -> Result<(), String> {
    let Quiet { hours, interval } = quiet;
    let end = (hours * HOUR).round() as u64;
    for loss in [0, 20] {
        for count in COUNTS {
            let removed = removed_until(end, count, *interval, loss);
            let removed = removed.map_err(|refusal| refusal.to_string())?;
            println!("{count} nodes, {hours} h, every {interval} ms, loss {loss} %: {removed} peers removed");
        }
    }
    Ok(())
}

fn removed_until(end: u64, count: u32, interval: u32, loss: u64) -> Result<usize, Refusal> {
    let mut link = Link::new(count, interval, loss, SEED)?;
    link.run_until(end)?;
    Ok(link.removed)
}

/// A node on the link.
struct Member {
    node: Node,
    own: u32,
    /// The reading at which it begins. Earlier it hears nothing.
    begun: u64,
    /// The reading of its next tick.
    due: u64,
}

impl Member {
    /// How many peers it publishes.
    fn peers(&self) -> Result<usize, Refusal> {
        let tlvs = wire::tlvs_of(self.node.show(self.own)?);
        let is_peer = |tlv: &&wire::Tlv| tlv.kind == wire::PEER && tlv.value.len() == 12;
        Ok(tlvs.iter().filter(is_peer).count())
    }
}

/// A datagram on its way, from one member to another.
struct Datagram {
    from: usize,
    to: usize,
    /// Its place in the row of replies; 0 is the multicast that they follow.
    turn: usize,
    bytes: Vec<u8>,
}

/// All nodes have one clock, and a datagram arrives at the reading at which it is sent.
struct Link {
    members: Vec<Member>,
    /// Of a hundred datagrams so many are lost; of multicast each receiver's copy by itself.
    loss: u64,
    random: Random,
    /// Peers removed for silence, by all members.
    removed: usize,
    room: Room,
}

impl Link {
    /// Nodes 1 to `count`, which begin at different readings so that they don't tick together.
    fn new(count: u32, interval: u32, loss: u64, seed: u64) -> Result<Link, Refusal> {
        let mut link = Link {
            members: Vec::new(),
            loss,
            random: Random::new(seed),
            removed: 0,
            room: [0; MOST_BYTES],
        };
        for own in 1..=count {
            let (begun, randoms) = (link.random.below(BEGUN), link.draw());
            let mut node = Node::new();
            node.begin(own, begun, &randoms)?;
            node.keep_alive(begun, ENDPOINT, interval, &randoms)?;
            link.members.push(Member {
                node,
                own,
                begun,
                due: begun,
            });
        }
        Ok(link)
    }

    fn draw(&mut self) -> Randoms {
        std::array::from_fn(|_| self.random.word())
    }

    /// All ticks before this reading, in the order of time.
    fn run_until(&mut self, end: u64) -> Result<(), Refusal> {
        while let Some(at) = self.next_before(end) {
            self.tick(at)?;
        }
        Ok(())
    }

    /// The member that ticks next, if that is before this reading.
    fn next_before(&self, end: u64) -> Option<usize> {
        let members = self.members.iter().enumerate();
        let (at, next) = members.min_by_key(|(_, member)| member.due)?;
        (next.due < end).then_some(at)
    }

    /// A tick of one member; all others hear what it sends. No other call removes peers.
    fn tick(&mut self, from: usize) -> Result<(), Refusal> {
        let randoms = self.draw();
        let member = &mut self.members[from];
        let reading = member.due;
        member.due += PACE;
        let before = member.peers()?;
        let sent = member
            .node
            .tick(&mut self.room, reading, ENDPOINT, &randoms)?;
        self.removed += before.saturating_sub(member.peers()?);
        if sent.is_empty() {
            return Ok(());
        }
        let copy = |to| Datagram {
            from,
            to,
            turn: 0,
            bytes: sent.to_vec(),
        };
        let others = (0..self.members.len()).filter(|&to| to != from);
        let copies = others.map(copy).collect();
        self.deliver(copies, reading)
    }

    /// These datagrams, then the replies to them, and so on until there is none.
    fn deliver(&mut self, mut ways: VecDeque<Datagram>, reading: u64) -> Result<(), Refusal> {
        while let Some(datagram) = ways.pop_front() {
            let bytes = self.hear(&datagram, reading)?;
            if !bytes.is_empty() && datagram.turn < MOST_TURNS {
                ways.push_back(Datagram {
                    from: datagram.to,
                    to: datagram.from,
                    turn: datagram.turn + 1,
                    bytes,
                });
            }
        }
        Ok(())
    }

    /// What the receiver replies; nothing if the datagram is lost.
    fn hear(&mut self, datagram: &Datagram, reading: u64) -> Result<Vec<u8>, Refusal> {
        let is_lost = self.random.below(100) < self.loss;
        let randoms = self.draw();
        let member = &mut self.members[datagram.to];
        if is_lost || reading < member.begun {
            return Ok(Vec::new());
        }
        let (bytes, unicast) = (&datagram.bytes, datagram.turn > 0);
        let node = &mut member.node;
        let reply = node.receive(&mut self.room, bytes, reading, ENDPOINT, unicast, &randoms)?;
        Ok(reply.bytes.to_vec())
    }
}

#[cfg(test)]
mod tests {
    use super::{Link, COUNTS, SEED, USUAL};
    use pingvratha::Refusal;

    /// Every node reaches all, and they have the same network digest.
    fn is_level(link: &Link, reading: u64) -> Result<bool, Refusal> {
        let first = link.members[0].node.marks(reading)?;
        let mut level = true;
        for member in &link.members {
            let marks = member.node.marks(reading)?;
            level &= marks.nodes().len() == link.members.len() && marks.digest() == first.digest();
        }
        Ok(level)
    }

    /// The reading, in whole seconds, at which the link is level first, within two minutes.
    fn first_level(link: &mut Link) -> Result<Option<u64>, Refusal> {
        for second in 1..=120 {
            link.run_until(1_000 * second)?;
            if is_level(link, 1_000 * second)? {
                return Ok(Some(1_000 * second));
            }
        }
        Ok(None)
    }

    #[test]
    fn nodes_come_level() -> Result<(), Refusal> {
        for count in COUNTS {
            let mut link = Link::new(count, USUAL.interval, 0, SEED)?;
            assert!(first_level(&mut link)?.is_some());
        }
        Ok(())
    }

    /// A link that is cut: each of two nodes loses the other, once, and not at once.
    #[test]
    fn counts_what_is_removed() -> Result<(), Refusal> {
        let mut link = Link::new(2, USUAL.interval, 0, SEED)?;
        let level = first_level(&mut link)?.expect("two nodes come level");
        link.loss = 100;
        link.run_until(level + 10_000)?;
        assert_eq!(link.removed, 0);
        link.run_until(level + 600_000)?;
        assert_eq!(link.removed, 2);
        Ok(())
    }
}

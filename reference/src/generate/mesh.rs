//! A mesh of up to eight nodes: the node under test and others that the reference plays,
//! on links where datagrams are lost, repeated, late and damaged.

use super::{craft, Generator};
use crate::node::{Entry, Node, CLOCK_MAX, REPLY_ROOM, TABLE_ROOM};
use crate::random::Random;
use crate::wire;

/// Where a node is connected to a link. Member 0 is the node under test.
#[derive(Clone, Copy, PartialEq, Eq)]
struct Port {
    member: usize,
    endpoint: u32,
}

/// A datagram under way.
#[derive(Clone)]
struct Flight {
    arrival: u64,
    from: Port,
    to: Port,
    multicast: bool,
    bytes: Vec<u8>,
}

struct Mesh {
    /// Members 1 and up.
    others: Vec<Node>,
    /// The ports on each link; all of them hear a multicast.
    links: Vec<Vec<Port>>,
    flights: Vec<Flight>,
}

pub fn episode(generator: &mut Generator, end: usize) {
    generator.choose_first_clock();
    let own = generator.choose_own();
    generator.begin(own);
    generator.choose_universe(9);
    let mut mesh = Mesh::new(generator);
    while generator.left > end {
        mesh.step(generator);
    }
}

impl Mesh {
    fn new(generator: &mut Generator) -> Mesh {
        let members = generator.random.range(1, 7) as usize;
        let clock = generator.clock;
        let mut others = Vec::new();
        for index in 0..members {
            let id = generator.universe[index];
            others.push(other_node(&mut generator.random, id, clock));
        }
        let links = links(&mut generator.random, members + 1);
        Mesh {
            others,
            links,
            flights: Vec::new(),
        }
    }

    fn step(&mut self, generator: &mut Generator) {
        let step = match generator.random.below(60) {
            0 => generator.leap(),
            1..=4 => generator.random.below(20_000),
            _ => generator.random.below(120),
        };
        generator.clock = (generator.clock + step).min(CLOCK_MAX);
        if generator.random.one_in(25) {
            generator.wait_for_some_silence();
        }
        self.others_act(generator);
        self.tick_under_test(generator);
        self.deliver(generator);
        self.under_test_acts(generator);
    }

    fn others_act(&mut self, generator: &mut Generator) {
        let clock = generator.clock;
        for member in 1..=self.others.len() {
            let other = &mut self.others[member - 1];
            if generator.random.one_in(60) {
                let payment = craft::payment(&mut generator.random);
                let randoms = generator.random.randoms();
                other.pay(
                    TABLE_ROOM,
                    clock,
                    payment.household,
                    payment.receipt,
                    payment.amount,
                    &randoms,
                );
            }
            if generator.random.one_in(150) {
                let endpoint = generator.random.range(1, 4) as u32;
                let interval = craft::interval(&mut generator.random);
                let randoms = generator.random.randoms();
                other.keep_alive(TABLE_ROOM, clock, endpoint, interval, &randoms);
            }
            if generator.random.one_in(400) {
                // Power lost, nothing saved: it must reclaim its identifier.
                other.begin(TABLE_ROOM, other.own, clock, &[0; 4]);
            }
            for endpoint in 1..=4 {
                let randoms = generator.random.randoms();
                let sent =
                    self.others[member - 1].tick(TABLE_ROOM, REPLY_ROOM, clock, endpoint, &randoms);
                self.send_to_link(
                    &mut generator.random,
                    clock,
                    Port { member, endpoint },
                    &sent.bytes,
                );
            }
        }
    }

    fn tick_under_test(&mut self, generator: &mut Generator) {
        let clock = generator.clock;
        for endpoint in 1..=4 {
            let node = &generator.session.node;
            let due = node.trickle[endpoint as usize - 1];
            let point = if due.spent { due.interval } else { due.point };
            let keep_alive_due = node.keep_alives[endpoint as usize - 1].due();
            let is_due = clock >= (due.start + point).min(keep_alive_due);
            if (is_due && !generator.random.one_in(5)) || generator.random.one_in(60) {
                let sent = generator.tick(endpoint);
                let port = Port {
                    member: 0,
                    endpoint,
                };
                self.send_to_link(&mut generator.random, clock, port, &sent);
            }
        }
    }

    fn under_test_acts(&mut self, generator: &mut Generator) {
        match generator.random.below(60) {
            0..=2 => generator.pay(),
            3 if generator.random.one_in(4) => generator.purge(),
            4..=7 => generator.look(),
            8 if generator.random.one_in(3) => generator.restart(),
            9 => {
                // A stranger, or a statement out of nowhere.
                let datagram = generator.datagram(4);
                let endpoint = generator.endpoint();
                let multicast = generator.random.one_in(2);
                generator.receive(endpoint, multicast, &datagram);
            }
            10 | 11 => generator.keep_alive(),
            _ => {}
        }
    }

    /// A multicast to all other ports of the link.
    fn send_to_link(&mut self, random: &mut Random, clock: u64, from: Port, bytes: &[u8]) {
        if bytes.is_empty() {
            return;
        }
        for link in self.links.clone() {
            if !link.contains(&from) {
                continue;
            }
            for to in link {
                if to != from || random.one_in(20) {
                    self.send(random, clock, from, to, true, bytes);
                }
            }
        }
    }

    /// Puts a datagram on its way: it may be lost, late, or come twice.
    fn send(
        &mut self,
        random: &mut Random,
        clock: u64,
        from: Port,
        to: Port,
        multicast: bool,
        bytes: &[u8],
    ) {
        if bytes.is_empty() || random.one_in(12) {
            return;
        }
        let copies = if random.one_in(15) { 2 } else { 1 };
        for _ in 0..copies {
            let delay = if random.one_in(15) {
                random.below(2_000)
            } else {
                random.below(30)
            };
            let arrival = clock.saturating_add(delay);
            self.flights.push(Flight {
                arrival,
                from,
                to,
                multicast,
                bytes: bytes.to_vec(),
            });
        }
    }

    /// Delivers what has arrived, replies included if they are quick enough.
    fn deliver(&mut self, generator: &mut Generator) {
        let clock = generator.clock;
        for _ in 0..3 {
            let (mut arrived, waiting): (Vec<_>, Vec<_>) = self
                .flights
                .drain(..)
                .partition(|flight| flight.arrival <= clock || clock == CLOCK_MAX);
            self.flights = waiting;
            arrived.sort_by_key(|flight| flight.arrival);
            for flight in arrived {
                let reply = self.hand_over(generator, &flight);
                self.send(
                    &mut generator.random,
                    clock,
                    flight.to,
                    flight.from,
                    false,
                    &reply,
                );
            }
        }
    }

    fn hand_over(&mut self, generator: &mut Generator, flight: &Flight) -> Vec<u8> {
        let endpoint = flight.to.endpoint;
        if flight.to.member == 0 {
            let mut bytes = flight.bytes.clone();
            if generator.random.one_in(25) {
                craft::damage_datagram(&mut generator.random, &mut bytes);
            }
            return generator.receive(endpoint, flight.multicast, &bytes);
        }
        let randoms = generator.random.randoms();
        let other = &mut self.others[flight.to.member - 1];
        let answer = other.receive(
            TABLE_ROOM,
            REPLY_ROOM,
            &flight.bytes,
            generator.clock,
            endpoint,
            flight.multicast,
            &randoms,
        );
        answer.bytes
    }
}

/// Another node, begun afresh or with something published already, sometimes of another maker.
fn other_node(random: &mut Random, id: u32, clock: u64) -> Node {
    let mut node = Node::blank();
    if random.one_in(2) {
        node.begin(TABLE_ROOM, id, clock, &random.randoms());
    } else {
        let mut tlvs = Vec::new();
        for _ in 0..random.below(5) {
            tlvs.push(craft::published_tlv(random));
        }
        let seq = random.pick(&[0, 7, u32::MAX - 1, (1 << 31) - 2]);
        let snapshot = craft::snapshot_of(id, &[(id, seq, 0, craft::good_data(tlvs))]);
        node.resume(TABLE_ROOM, &snapshot, clock, &random.randoms());
    }
    if random.one_in(3) {
        publish_intervals(random, &mut node);
    }
    node
}

/// Makes a node one of another maker: it publishes Keep-Alive TLVs that none of our calls writes.
fn publish_intervals(random: &mut Random, node: &mut Node) {
    let endpoint = random.range(1, 4) as u32;
    let mut tlvs = craft::keep_alives(random, endpoint);
    let own = node.own_entry();
    let present = wire::tlvs_of(own.data());
    tlvs.extend(present.iter().map(|tlv| tlv.whole.to_vec()));
    let data = craft::good_data(tlvs);
    // No other is in its table yet.
    node.table = vec![Entry::new(own.node, own.seq, own.age, own.since, data)];
    node.digest = node.network_digest(node.last);
}

/// A connected mesh: each member shares a link with an earlier one; some links are shared by more.
fn links(random: &mut Random, members: usize) -> Vec<Vec<Port>> {
    let mut links: Vec<Vec<Port>> = Vec::new();
    for member in 1..members {
        let endpoint = random.range(1, 4) as u32;
        let newcomer = Port { member, endpoint };
        if !links.is_empty() && random.one_in(2) {
            let index = random.below(links.len() as u64) as usize;
            links[index].push(newcomer);
        } else {
            let earlier = random.below(member as u64) as usize;
            links.push(vec![
                Port {
                    member: earlier,
                    endpoint: random.range(1, 4) as u32,
                },
                newcomer,
            ]);
        }
    }
    links
}

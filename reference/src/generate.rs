//! Seeded random session scripts for one node under test.
//!
//! A script is a succession of episodes. Each begins or resumes the node and then
//! leads it through one kind of trouble: a mesh of other nodes with a lossy radio,
//! made-up statements, full tables, full replies, keep-alives, refused calls,
//! damaged snapshots. The generator runs the node itself as it goes, so that the
//! answers of the node under test reach the others and datagrams can speak about
//! what it holds.

mod craft;
mod mesh;

use crate::calls::Rooms;
use crate::node::{
    published_intervals, Peer, Randoms, AGE_LIMIT, CLOCK_MAX, DEFAULT_KEEP_ALIVE, MAX_NODES,
    REPUBLISH_AGE,
};
use crate::random::Random;
use crate::script::{from_hex, hex, Session, ROOMS_MAX};
use crate::wire;

/// A script with this many calls. Lines `rooms`, `state` and bad lines come on top.
pub fn script(seed: u64, count: usize) -> String {
    let mut generator = Generator {
        random: Random::new(seed),
        session: Session::default(),
        script: String::new(),
        left: count,
        clock: 0,
        universe: Vec::new(),
    };
    while generator.left > 0 {
        generator.episode();
    }
    generator.extra("state");
    generator.script
}

struct Generator {
    random: Random,
    session: Session,
    script: String,
    /// Calls still to be made.
    left: usize,
    clock: u64,
    /// Identifiers that made-up datagrams speak about; our own is never among them.
    universe: Vec<u32>,
}

impl Generator {
    fn episode(&mut self) {
        let calls = self.random.range(20, 150) as usize;
        let end = self.left.saturating_sub(calls);
        match self.random.below(20) {
            0..=4 => mesh::episode(self, end),
            5..=6 => self.statements_episode(end),
            7 => self.full_table_episode(end),
            8 => self.full_data_episode(end),
            9 => self.full_reply_episode(end),
            10 => self.refusals_episode(end),
            11 => self.tree_episode(end),
            12 => self.quiet_episode(end),
            13..=16 => self.silence_episode(end),
            17 | 18 => self.keep_alives_episode(end),
            _ => self.snapshots_episode(end),
        }
        self.restore_rooms();
        self.extra("state");
    }

    // Writing lines.

    /// Writes a call, runs it, and gives the bytes that its answer ends with.
    fn call(&mut self, line: &str) -> Vec<u8> {
        if self.left == 0 {
            return Vec::new();
        }
        self.left -= 1;
        let answer = self.extra(line);
        if self.random.one_in(14) {
            self.extra("state");
        }
        answer
            .trim_end()
            .rsplit(' ')
            .next()
            .and_then(from_hex)
            .unwrap_or_default()
    }

    /// Writes and runs a line that isn't counted as a call.
    fn extra(&mut self, line: &str) -> String {
        self.script.push_str(line);
        self.script.push('\n');
        self.session.run_line(line)
    }

    fn words(randoms: Randoms) -> String {
        randoms.map(|random| random.to_string()).join(" ")
    }

    fn randoms(&mut self) -> String {
        Generator::words(self.random.randoms())
    }

    fn begin(&mut self, own: u32) {
        let randoms = self.randoms();
        self.call(&format!("begin {own} {} {randoms}", self.clock));
    }

    fn resume(&mut self, snapshot: &[u8]) {
        let randoms = self.randoms();
        self.call(&format!(
            "resume {} {randoms} {}",
            self.clock,
            hex(snapshot)
        ));
    }

    fn receive(&mut self, endpoint: u32, multicast: bool, datagram: &[u8]) -> Vec<u8> {
        let randoms = self.randoms();
        let kind = if multicast { "m" } else { "u" };
        self.call(&format!(
            "receive {} {endpoint} {kind} {randoms} {}",
            self.clock,
            hex(datagram)
        ))
    }

    fn tick(&mut self, endpoint: u32) -> Vec<u8> {
        let randoms = self.randoms();
        self.call(&format!("tick {} {endpoint} {randoms}", self.clock))
    }

    /// Chooses an interval, often the one that stands, for an endpoint that may be none.
    fn keep_alive(&mut self) {
        let endpoint = self.random.pick(&[0, 1, 1, 1, 1, 2, 2, 3, 4, 5]);
        let chosen = self.session.node.keep_alives[endpoint.clamp(1, 4) - 1].keep;
        let interval = if self.random.one_in(6) {
            chosen
        } else {
            craft::interval(&mut self.random)
        };
        let randoms = self.randoms();
        self.call(&format!(
            "keep-alive {} {endpoint} {interval} {randoms}",
            self.clock
        ));
    }

    /// A choice with too little table memory.
    fn keep_alive_without_room(&mut self) {
        let mut rooms = Rooms::default();
        rooms.table = self.random.pick(&[0, 100, rooms.table - 1]);
        self.set_rooms(rooms);
        self.keep_alive();
        self.restore_rooms();
    }

    fn pay(&mut self) {
        let randoms = self.randoms();
        let payment = craft::payment(&mut self.random);
        self.call(&format!(
            "pay {} {} {} {} {randoms}",
            self.clock, payment.household, payment.receipt, payment.amount
        ));
    }

    fn purge(&mut self) {
        let randoms = self.randoms();
        self.call(&format!("purge {} {randoms}", self.clock));
    }

    /// One of the calls that change nothing.
    fn look(&mut self) {
        let ahead = self
            .random
            .pick(&[0, 0, 0, 1, 50_000, AGE_LIMIT - 1, AGE_LIMIT]);
        let clock = (self.clock + ahead).min(CLOCK_MAX);
        match self.random.below(6) {
            0 => {
                let household = self.random.pick(&craft::HOUSEHOLDS);
                self.call(&format!("total {clock} {household}"));
            }
            1 => drop(self.call(&format!("sum {clock}"))),
            2 | 3 => drop(self.call(&format!("marks {clock}"))),
            4 if self.random.one_in(3) => drop(self.call(&format!("save {clock}"))),
            _ => {
                let node = self.some_node();
                self.call(&format!("show {node}"));
            }
        }
    }

    fn restore_rooms(&mut self) {
        if self.session.rooms != Rooms::default() {
            self.set_rooms(Rooms::default());
        }
    }

    fn set_rooms(&mut self, rooms: Rooms) {
        self.extra(&format!(
            "rooms {} {} {}",
            rooms.table, rooms.reply, rooms.snapshot
        ));
    }

    // Choices.

    /// A reading to begin at: also far ones, and near the last one.
    fn choose_first_clock(&mut self) {
        let early = self.random.below(100_000);
        self.clock = match self.random.below(10) {
            0 => 0,
            1 => (1 << 32) - early,
            2 => (1 << 40) + early,
            3 => (1 << 61) + early,
            4 => CLOCK_MAX - 40 * early,
            _ => early,
        };
    }

    fn advance(&mut self) {
        if self.random.one_in(25) {
            let endpoint = self.endpoint();
            return self.wait_for_keep_alive(endpoint);
        }
        if self.random.one_in(25) {
            return self.wait_for_some_silence();
        }
        let step = match self.random.below(40) {
            0..=9 => 0,
            10..=24 => self.random.below(150),
            25..=28 => self.random.pick(&[99, 100, 199, 200, 201, 400]),
            29..=34 => self.random.below(3_000),
            35..=36 => self.random.below(30_000),
            37..=38 => self.random.pick(&[41_999, 42_000, 42_001, 20_999, 21_000]),
            _ => self.leap(),
        };
        self.clock = (self.clock + step).min(CLOCK_MAX);
    }

    /// Waits until just before, at or just after the reading from which a keep-alive is due.
    fn wait_for_keep_alive(&mut self, endpoint: u32) {
        let due = self.session.node.keep_alives[endpoint as usize - 1].due();
        let late = self.random.pick(&[0, 1, 1, 1, 2]);
        self.clock = (due + late - 1).clamp(self.clock, CLOCK_MAX);
    }

    /// Waits for the silence of one of the peers, if there are any.
    fn wait_for_some_silence(&mut self) {
        let peers = self.session.node.peers.clone();
        if !peers.is_empty() {
            let peer = self.random.pick(&peers);
            self.wait_for_silence(&peer);
        }
    }

    /// Waits until just before or at the silence at which a peer goes by its interval, or would
    /// go by the default or another interval in its data.
    fn wait_for_silence(&mut self, peer: &Peer) {
        let node = &self.session.node;
        let right = node.peer_interval(peer);
        let mut intervals = vec![right, right, DEFAULT_KEEP_ALIVE];
        if let Some(entry) = node.entry(peer.node) {
            intervals.extend(published_intervals(entry.data()).iter().map(|pair| pair[1]));
        }
        let mut readings: Vec<u64> = intervals
            .iter()
            .map(|&interval| peer.contact + (21 * u64::from(interval)).div_ceil(10))
            .collect();
        readings.retain(|&reading| reading > self.clock);
        if !readings.is_empty() {
            let early = self.random.below(2);
            self.clock = (self.random.pick(&readings) - early).min(CLOCK_MAX);
        }
    }

    /// A leap of the clock, often to where an age limit is just reached.
    fn leap(&mut self) -> u64 {
        let near = self.random.below(3);
        match self.random.below(7) {
            0 => AGE_LIMIT - 1 + near,
            1 => REPUBLISH_AGE - 1 + near,
            2 => (1 << 32) - 1 + near,
            3 => self.random.below(1 << 34),
            4 => self.random.below(1 << 45),
            // Ten times this silence is just beyond 2^64.
            5 => u64::MAX / 10 + near,
            _ => self.random.below(1_000_000),
        }
    }

    fn endpoint(&mut self) -> u32 {
        // The first endpoint most often, so that things come together.
        self.random.pick(&[1, 1, 1, 2, 3, 4])
    }

    fn choose_own(&mut self) -> u32 {
        let any = self.random.word();
        self.random.pick(&[0, 1, 5, 7, u32::MAX, any])
    }

    /// The identifiers around us for an episode.
    fn choose_universe(&mut self, size: usize) {
        let own = self.session.node.own;
        let base = self.random.pick(&[0, 0, 1_000, u32::MAX - 60]);
        self.universe = (0..size as u32)
            .map(|i| base + i)
            .filter(|&node| node != own)
            .collect();
    }

    fn some_node(&mut self) -> u32 {
        let held: Vec<u32> = self
            .session
            .node
            .table
            .iter()
            .map(|entry| entry.node)
            .collect();
        match self.random.below(8) {
            0 => self.random.word(),
            1 => self.session.node.own,
            2 | 3 if !self.universe.is_empty() => self.random.pick(&self.universe),
            _ => self.random.pick(&held),
        }
    }

    // Made-up datagrams.

    /// The endpoints of a link between two made-up nodes are the same from both sides.
    fn link_endpoint(a: u32, b: u32) -> u32 {
        (a ^ b) % 3 + 1
    }

    /// Good data of a made-up node: Peer TLVs that mostly agree with the other side, and more.
    fn data_about(&mut self, node: u32) -> Vec<u8> {
        let own = self.session.node.own;
        let mut tlvs = Vec::new();
        for peer in self.session.node.peers.clone() {
            if peer.node != node {
                continue;
            }
            if !self.random.one_in(8) {
                tlvs.push(wire::peer_tlv(own, peer.ours, peer.theirs));
            }
            if self.random.one_in(3) {
                tlvs.extend(craft::keep_alives(&mut self.random, peer.theirs));
            }
        }
        for other in self.universe.clone() {
            if other != node && (other ^ node) % 5 < 2 && !self.random.one_in(8) {
                let endpoint = Generator::link_endpoint(node, other);
                let wrong = u32::from(self.random.one_in(20));
                tlvs.push(wire::peer_tlv(other, endpoint, endpoint + wrong));
            }
        }
        for _ in 0..self.random.below(4) {
            tlvs.push(craft::published_tlv(&mut self.random));
        }
        self.random.shuffle(&mut tlvs);
        tlvs.truncate(self.random.range(0, 12) as usize);
        craft::good_data(tlvs)
    }

    /// Sequence numbers that lie close together, wrap, or are half the circle apart.
    fn seq_near(&mut self, seq: u32) -> u32 {
        let step = self.random.pick(&[
            0,
            0,
            1,
            1,
            1,
            2,
            1_000,
            u32::MAX,
            1 << 31,
            (1 << 31) - 1,
            (1 << 31) + 1,
        ]);
        seq.wrapping_add(step)
    }

    fn age(&mut self) -> u32 {
        let limit = AGE_LIMIT as u32;
        let small = self.random.below(5_000) as u32;
        self.random.pick(&[
            0,
            0,
            small,
            small,
            small,
            limit - 1,
            limit,
            limit - 1 - small,
            u32::MAX,
        ])
    }

    /// A Node State about a made-up node or one that is held.
    fn statement(&mut self) -> Vec<u8> {
        let node = self.some_node();
        let age = self.age();
        let held = self.session.node.entry(node).cloned();
        let seq = match &held {
            Some(held) => held.seq,
            None => self.random.pick(&[0, 1, u32::MAX, (1 << 31) - 1, 1 << 31]),
        };
        let seq = self.seq_near(seq);
        let data = match held {
            Some(held) if self.random.one_in(2) => held.data().to_vec(),
            _ if self.random.one_in(6) => Vec::new(),
            _ => self.data_about(node),
        };
        let digest = crate::sha256::digest(&data);
        let carried = if self.random.one_in(3) {
            &[][..]
        } else {
            &data
        };
        wire::node_state_tlv(node, seq, age, &digest, carried)
    }

    fn node_endpoint(&mut self) -> Vec<u8> {
        let known = self.session.node.peers.clone();
        if !known.is_empty() && self.random.one_in(2) {
            let peer = self.random.pick(&known);
            return wire::node_endpoint_tlv(peer.node, peer.theirs);
        }
        let node = self.some_node();
        let endpoint = match self.random.below(12) {
            0 => self.random.pick(&[0, 5, u32::MAX]),
            1..=3 => self.endpoint(),
            _ => Generator::link_endpoint(node, self.session.node.own),
        };
        wire::node_endpoint_tlv(node, endpoint)
    }

    fn network_state(&mut self) -> Vec<u8> {
        let mut digest = self
            .session
            .node
            .network_digest(self.clock.max(self.session.node.last));
        if self.random.one_in(2) {
            digest[self.random.below(16) as usize] ^= 1 << self.random.below(8);
        }
        wire::network_state_tlv(&digest)
    }

    /// One TLV as it may come in a datagram.
    fn received_tlv(&mut self) -> Vec<u8> {
        let tlv = self.whole_tlv();
        if self.random.one_in(12) {
            return craft::resized(&mut self.random, &tlv);
        }
        tlv
    }

    /// One TLV of its right length.
    fn whole_tlv(&mut self) -> Vec<u8> {
        match self.random.below(16) {
            0 => wire::request_network_state_tlv(),
            1 | 2 => {
                let node = self.some_node();
                wire::request_node_state_tlv(node)
            }
            3..=5 => self.node_endpoint(),
            6..=8 => self.network_state(),
            9..=13 => self.statement(),
            14 => craft::published_tlv(&mut self.random),
            _ => craft::odd_tlv(&mut self.random),
        }
    }

    /// A datagram of made-up TLVs, sometimes damaged.
    fn datagram(&mut self, most: u64) -> Vec<u8> {
        let mut bytes = Vec::new();
        for _ in 0..self.random.range(0, most) {
            bytes.extend(self.received_tlv());
        }
        if self.random.one_in(10) {
            craft::damage_datagram(&mut self.random, &mut bytes);
        }
        bytes
    }

    /// Makes us known to some nodes of the universe, sometimes from an odd endpoint of theirs.
    fn gain_peers(&mut self, count: usize) {
        for _ in 0..count {
            let endpoint = self.endpoint();
            let node = self.random.pick(&self.universe);
            let theirs = if self.random.one_in(5) {
                self.random.pick(&[0, 0, 9])
            } else {
                Generator::link_endpoint(node, self.session.node.own)
            };
            let datagram = wire::node_endpoint_tlv(node, theirs);
            self.receive(endpoint, false, &datagram);
        }
    }

    /// Begins or resumes, with a universe of made-up nodes.
    fn start_among(&mut self, size: usize) {
        self.choose_first_clock();
        let own = self.choose_own();
        if self.random.one_in(2) {
            self.begin(own);
        } else {
            let snapshot = craft::snapshot(&mut self.random, own);
            self.resume(&snapshot);
        }
        self.choose_universe(size);
    }

    /// Power is lost and comes back; the snapshot may be an old one.
    fn restart(&mut self) {
        if self.random.one_in(2) {
            self.call(&format!("save {}", self.clock));
        }
        let own = self.session.node.own;
        if self.random.one_in(3) {
            self.begin(own);
        } else {
            let randoms = self.randoms();
            self.call(&format!("resume {} {randoms} last", self.clock));
        }
    }

    // Episodes. Each ends when no more than `end` calls are left.

    /// Made-up statements about a handful of nodes, with peers, requests and ticks between.
    fn statements_episode(&mut self, end: usize) {
        let size = self.random.range(3, 10) as usize;
        self.start_among(size);
        self.gain_peers(3);
        while self.left > end {
            self.advance();
            match self.random.below(13) {
                0..=6 => {
                    let datagram = self.datagram(6);
                    let endpoint = self.endpoint();
                    let multicast = self.random.one_in(3);
                    self.receive(endpoint, multicast, &datagram);
                }
                7 | 8 => {
                    let endpoint = self.endpoint();
                    self.tick(endpoint);
                }
                9 => self.pay(),
                10 if self.random.one_in(3) => self.purge(),
                12 => self.keep_alive(),
                _ => self.look(),
            }
        }
    }

    /// More nodes and more peers than there is room for.
    fn full_table_episode(&mut self, end: usize) {
        self.start_among(44);
        self.gain_peers(19);
        while self.left > end {
            self.advance();
            match self.random.below(9) {
                0..=3 => {
                    let datagram = self.crowd();
                    let endpoint = self.endpoint();
                    let multicast = self.random.one_in(4);
                    self.receive(endpoint, multicast, &datagram);
                }
                4 => self.gain_peers(1),
                5 if self.session.node.table.len() >= MAX_NODES && self.random.one_in(4) => {
                    self.purge()
                }
                6 => {
                    let endpoint = self.endpoint();
                    self.tick(endpoint);
                }
                8 if self.random.one_in(2) => self.keep_alive(),
                _ => self.look(),
            }
        }
    }

    /// Statements about many nodes in one datagram, good ones and others.
    fn crowd(&mut self) -> Vec<u8> {
        let mut bytes = Vec::new();
        for _ in 0..self.random.range(1, 12) {
            let node = self.random.pick(&self.universe);
            let data = self.data_about(node);
            let age = self.age();
            let mut digest = crate::sha256::digest(&data);
            if self.random.one_in(12) {
                digest[0] ^= 1;
            }
            let seq = self.random.below(3) as u32;
            bytes.extend(wire::node_state_tlv(node, seq, age, &digest, &data));
            if self.random.one_in(12) {
                bytes.extend(craft::bad_statement(&mut self.random, node.wrapping_add(1)));
            }
        }
        bytes
    }

    /// A tree of up to 32 nodes that all name each other rightly, then changes in it.
    fn tree_episode(&mut self, end: usize) {
        self.choose_first_clock();
        let own = self.choose_own();
        self.begin(own);
        let size = self.random.pick(&[3, 6, 12, 31, 31]);
        self.choose_universe(size + 1);
        self.universe.truncate(size);
        self.random.shuffle(&mut self.universe);
        let tree = Tree::new(&mut self.random, own, &self.universe);
        for (ours, node, theirs) in tree.edges_of(own) {
            self.receive(ours, false, &wire::node_endpoint_tlv(node, theirs));
        }
        for node in self.universe.clone() {
            let data = tree.data_of(&mut self.random, node, false);
            self.tell(node, 0, &data);
        }
        while self.left > end {
            self.advance();
            let node = self.random.pick(&self.universe);
            match self.random.below(12) {
                0..=3 => {
                    let seq = self.session.node.entry(node).map_or(0, |held| held.seq);
                    let seq = self.seq_near(seq);
                    let change = self.random.one_in(3);
                    let data = tree.data_of(&mut self.random, node, change);
                    self.tell(node, seq, &data);
                }
                4 => {
                    let datagram = self.datagram(4);
                    self.receive(1, false, &datagram);
                }
                5 => drop(self.receive(2, true, &wire::request_network_state_tlv())),
                // Time alone may have changed the digest by now.
                10 if self.random.one_in(3) => {
                    self.wait_for_age_limit();
                    self.receive(1, false, &[]);
                }
                6 => drop(self.receive(1, false, &wire::request_node_state_tlv(node))),
                7 => {
                    let endpoint = self.endpoint();
                    self.tick(endpoint);
                }
                8 if self.random.one_in(5) => self.purge(),
                11 if self.random.one_in(2) => self.keep_alive(),
                _ => self.look(),
            }
        }
    }

    /// Waits until some node's age is at the limit, unless that is long.
    fn wait_for_age_limit(&mut self) {
        let now = self.clock;
        let waits = self
            .session
            .node
            .table
            .iter()
            .map(|entry| AGE_LIMIT.saturating_sub(entry.age_at(now)));
        let wait = waits.filter(|&wait| wait > 0).min().unwrap_or(0);
        let wait = if wait < 10_000_000 || self.random.one_in(4) {
            wait
        } else {
            0
        };
        self.clock = (now + wait).min(CLOCK_MAX);
    }

    /// A datagram with one statement that carries its data.
    fn tell(&mut self, node: u32, seq: u32, data: &[u8]) {
        let age = if self.random.one_in(4) { self.age() } else { 0 };
        let datagram = wire::node_state_tlv(node, seq, age, &crate::sha256::digest(data), data);
        self.receive(1, true, &datagram);
    }

    /// Long quiet times: Trickle intervals grow, equal digests are heard, often very many.
    fn quiet_episode(&mut self, end: usize) {
        self.start_among(4);
        while self.left > end {
            let endpoint = self.endpoint();
            let trickle = self.session.node.trickle[endpoint as usize - 1];
            let due = trickle.start
                + if trickle.spent {
                    trickle.interval
                } else {
                    trickle.point
                };
            let early = self.random.pick(&[0, 0, 0, 1]);
            self.clock = (due - early).clamp(self.clock, CLOCK_MAX);
            if self.random.one_in(6) {
                self.wait_for_keep_alive(endpoint);
            }
            match self.random.below(21) {
                0..=14 => drop(self.tick(endpoint)),
                15..=17 => self.hear_equal(endpoint),
                18 => self.gain_peers(1),
                19 => self.keep_alive(),
                _ => self.look(),
            }
        }
    }

    /// An equal digest, often very many times: over multicast it silences Trickle.
    fn hear_equal(&mut self, endpoint: u32) {
        let copies = self.random.pick(&[1, 1, 2, 100, 204]);
        let digest = self.session.node.network_digest(self.clock);
        let datagram = wire::network_state_tlv(&digest).repeat(copies);
        let multicast = !self.random.one_in(4);
        self.receive(endpoint, multicast, &datagram);
    }

    /// Chosen intervals, silenced Trickle, and ticks just before, at and just after the
    /// readings from which keep-alives are due, up to four at one reading.
    fn keep_alives_episode(&mut self, end: usize) {
        self.start_among(4);
        while self.left > end {
            let endpoint = self.random.pick(&[1, 1, 1, 2]);
            match self.random.below(14) {
                0 | 1 => self.keep_alive(),
                2..=4 => self.hear_equal(endpoint),
                5 => self.gain_peers(1),
                6 if self.random.one_in(2) => self.pay(),
                6 => self.pass_intervals(endpoint),
                7 if self.random.one_in(2) => self.restart(),
                7 => self.look(),
                8 if self.random.one_in(3) => self.keep_alive_without_room(),
                8 => self.advance(),
                _ => {
                    self.wait_for_keep_alive(endpoint);
                    for _ in 0..self.random.range(1, 4) {
                        self.tick(endpoint);
                    }
                }
            }
        }
    }

    /// Leads Trickle of an endpoint through some intervals, each longer than the last.
    fn pass_intervals(&mut self, endpoint: u32) {
        for _ in 0..self.random.range(2, 8) {
            let trickle = self.session.node.trickle[endpoint as usize - 1];
            self.clock = (trickle.start + trickle.interval).clamp(self.clock, CLOCK_MAX);
            self.tick(endpoint);
            self.tick(endpoint);
        }
    }

    /// Peers with Keep-Alive TLVs, and ticks around the readings at which they go or would go.
    fn silence_episode(&mut self, end: usize) {
        self.start_among(6);
        while self.left > end {
            let peers = self.session.node.peers.clone();
            if peers.is_empty() || self.random.one_in(6) {
                self.gain_peers(1);
                continue;
            }
            let peer = self.random.pick(&peers);
            match self.random.below(10) {
                0..=2 => self.tell_intervals(&peer),
                3 => {
                    let digest = self.session.node.network_digest(self.clock);
                    let sender = wire::node_endpoint_tlv(peer.node, peer.theirs);
                    self.receive(
                        peer.ours,
                        true,
                        &[sender, wire::network_state_tlv(&digest)].concat(),
                    );
                }
                4 if self.random.one_in(4) => self.purge(),
                4 if self.random.one_in(4) => self.advance(),
                5 => self.look(),
                _ => {
                    self.wait_for_silence(&peer);
                    self.tick(peer.ours);
                }
            }
        }
    }

    /// A newer statement of a peer's node with Keep-Alive TLVs, often right after a contact.
    fn tell_intervals(&mut self, peer: &Peer) {
        let mut tlvs = craft::keep_alives(&mut self.random, peer.theirs);
        let node = &self.session.node;
        if self.random.one_in(2) {
            tlvs.push(wire::peer_tlv(node.own, peer.ours, peer.theirs));
        }
        let data = craft::good_data(tlvs);
        let held = node.entry(peer.node);
        let seq = held.map_or(0, |held| held.seq.wrapping_add(1));
        if self.random.one_in(2) {
            let sender = wire::node_endpoint_tlv(peer.node, peer.theirs);
            self.receive(peer.ours, false, &sender);
        }
        self.tell(peer.node, seq, &data);
    }

    /// Our own data at the edge of its 1,024 bytes, and statements of that size.
    fn full_data_episode(&mut self, end: usize) {
        self.choose_first_clock();
        let own = self.choose_own();
        let length = self
            .random
            .pick(&[984, 1_000, 1_004, 1_008, 1_012, 1_016, 1_020, 1_024]);
        let data = craft::data_of_length(&mut self.random, length);
        let snapshot = craft::snapshot_of(own, &[(own, self.random.word(), 0, data)]);
        self.resume(&snapshot);
        self.choose_universe(6);
        while self.left > end {
            self.advance();
            match self.random.below(11) {
                0..=2 => self.pay(),
                3 => self.gain_peers(1),
                4 | 5 => {
                    let length = self.random.pick(&[1_008, 1_016, 1_024, 1_028, 1_032]);
                    let data = craft::data_of_length(&mut self.random, length);
                    let node = self.random.pick(&self.universe);
                    let seq = self.random.below(3) as u32;
                    let digest = crate::sha256::digest(&data);
                    let mut datagram = wire::node_state_tlv(node, seq, 0, &digest, &data);
                    datagram.extend(wire::request_node_state_tlv(own));
                    self.receive(1, false, &datagram);
                }
                6 => {
                    let endpoint = self.endpoint();
                    self.tick(endpoint);
                }
                7..=9 => self.keep_alive(),
                _ => self.look(),
            }
        }
    }

    /// More requests in one datagram than replies fit in the room.
    fn full_reply_episode(&mut self, end: usize) {
        self.start_among(12);
        self.gain_peers(6);
        for _ in 0..4 {
            let datagram = self.crowd();
            self.receive(1, false, &datagram);
        }
        // Such lines are long, so a few are enough.
        let end = end.max(self.left.saturating_sub(16));
        while self.left > end {
            self.advance();
            let mut datagram = Vec::new();
            let kind = self.random.below(4);
            for _ in 0..self.random.pick(&[70, 80, 90, 130, 300]) {
                datagram.extend(match kind {
                    0 => wire::request_network_state_tlv(),
                    1 => wire::request_node_state_tlv(self.some_node()),
                    2 if self.random.one_in(2) => {
                        wire::request_node_state_tlv(self.session.node.own)
                    }
                    _ => self.short_tlv(),
                });
            }
            datagram.truncate(4_000);
            // What is requested last may find the room full to the last byte.
            if self.random.one_in(2) {
                datagram.extend(wire::network_state_tlv(&[9; 16]));
            }
            let endpoint = self.endpoint();
            let multicast = self.random.one_in(2);
            self.receive(endpoint, multicast, &datagram);
        }
    }

    /// A TLV of few bytes that may lead to a reply.
    fn short_tlv(&mut self) -> Vec<u8> {
        match self.random.below(5) {
            0 => wire::request_network_state_tlv(),
            1 => self.node_endpoint(),
            2 => self.network_state(),
            _ => wire::request_node_state_tlv(self.some_node()),
        }
    }

    /// Calls with several faults at once, so that the order of the refusals shows.
    fn refusals_episode(&mut self, end: usize) {
        self.start_among(6);
        self.gain_peers(2);
        while self.left > end {
            self.advance();
            let good_clock = self.clock;
            self.choose_faulty_rooms();
            if self.random.one_in(4) {
                self.clock = self.random.pick(&[CLOCK_MAX + 1, 1 << 63, u64::MAX]);
            } else if self.random.one_in(4) {
                self.clock = self
                    .session
                    .node
                    .last
                    .saturating_sub(self.random.range(1, 500));
            }
            self.faulty_call();
            // Beginning and resuming may have set the reading back.
            self.clock = good_clock.max(self.session.node.last);
            if self.random.one_in(10) {
                self.bad_line();
            }
        }
    }

    fn choose_faulty_rooms(&mut self) {
        let mut rooms = Rooms::default();
        if self.random.one_in(6) {
            rooms.table = self.random.pick(&[0, 100, rooms.table - 1]);
        }
        if self.random.one_in(6) {
            rooms.reply = self.random.pick(&[0, 32, rooms.reply - 1]);
        }
        if self.random.one_in(6) {
            rooms.snapshot = self.random.pick(&[0, 50, rooms.snapshot - 1]);
        }
        if self.random.one_in(6) {
            rooms = ROOMS_MAX;
        }
        if rooms != self.session.rooms {
            self.set_rooms(rooms);
        }
    }

    fn faulty_call(&mut self) {
        let endpoint = self.random.pick(&[0, 1, 2, 3, 4, 5, u32::MAX, 1, 1]);
        let randoms = self.randoms();
        let clock = self.clock;
        match self.random.below(16) {
            0 => {
                let own = self.choose_own();
                self.call(&format!("begin {own} {clock} {randoms}"));
            }
            1 => {
                let mut snapshot = craft::snapshot(&mut self.random, 5);
                if self.random.one_in(2) {
                    craft::damage_snapshot(&mut self.random, &mut snapshot);
                }
                self.resume(&snapshot);
            }
            2..=5 => {
                let mut datagram = self.datagram(3);
                match self.random.below(3) {
                    0 => craft::damage_datagram(&mut self.random, &mut datagram),
                    1 if self.random.one_in(3) => {
                        craft::lengthen(&mut self.random, &mut datagram);
                        if self.random.one_in(2) {
                            datagram.push(1);
                        }
                    }
                    _ => {}
                }
                let multicast = self.random.one_in(2);
                self.receive(endpoint, multicast, &datagram);
            }
            6 | 7 => drop(self.tick(endpoint)),
            8 | 9 => {
                let payment = craft::payment(&mut self.random);
                let household =
                    self.random
                        .pick(&[0, 1, 9_999, 10_000, u32::MAX, payment.household]);
                self.call(&format!(
                    "pay {clock} {household} {} {} {randoms}",
                    payment.receipt, payment.amount
                ));
            }
            10 => self.purge(),
            11 => {
                let household = self.random.pick(&[0, 1, 9_999, 10_000, u32::MAX]);
                self.call(&format!("total {clock} {household}"));
            }
            12 => {
                let name = self.random.pick(&["sum", "marks", "save"]);
                self.call(&format!("{name} {clock}"));
            }
            13 | 14 => {
                let interval = craft::interval(&mut self.random);
                self.call(&format!(
                    "keep-alive {clock} {endpoint} {interval} {randoms}"
                ));
            }
            _ => {
                let node = self.some_node();
                self.call(&format!("show {node}"));
            }
        }
    }

    /// A line that is not of the form.
    fn bad_line(&mut self) {
        let line = self.random.pick(&[
            "",
            "sum",
            "sum  5",
            "sum 5 ",
            "sum x",
            "sum 18446744073709551616",
            "show 4294967296",
            "show -1",
            "tick 5 1 0 0 0",
            "receive 5 1 x 0 0 0 0 -",
            "receive 5 1 u 0 0 0 0 abc",
            "receive 5 1 u 0 0 0 0 AB",
            "pay 5 1 1 2147483648 0 0 0 0",
            "pay 5 1 1 -2147483649 0 0 0 0",
            "rooms 40001 4096 33319",
            "State",
            "forget 5 0 0 0 0",
            "keep-alive 5 1 4294967296 0 0 0 0",
            "keep-alive 5 4294967296 7 0 0 0 0",
            "keep-alive 5 1 -1 0 0 0 0",
            "keep-alive 5 1 7 0 0 0",
            "keep_alive 5 1 7 0 0 0 0",
        ]);
        self.extra(line);
    }

    /// Saves, resumes, and snapshots that are damaged.
    fn snapshots_episode(&mut self, end: usize) {
        self.start_among(8);
        self.gain_peers(3);
        while self.left > end {
            self.advance();
            match self.random.below(11) {
                0 | 1 => {
                    let datagram = self.crowd();
                    self.receive(1, false, &datagram);
                }
                2 => {
                    let saved = self.call(&format!("save {}", self.clock));
                    if self.random.one_in(2) {
                        let mut damaged = saved;
                        craft::damage_snapshot(&mut self.random, &mut damaged);
                        self.resume(&damaged);
                    }
                }
                3 => {
                    if self.random.one_in(3) {
                        self.choose_first_clock();
                    }
                    let randoms = self.randoms();
                    self.call(&format!("resume {} {randoms} last", self.clock));
                }
                4 => {
                    let own = self.session.node.own;
                    let mut snapshot = craft::snapshot(&mut self.random, own);
                    if self.random.one_in(2) {
                        craft::damage_snapshot(&mut self.random, &mut snapshot);
                    }
                    self.resume(&snapshot);
                }
                5 => self.pay(),
                6 => self.gain_peers(1),
                7 | 8 => self.keep_alive(),
                _ => self.look(),
            }
            // A refused resume at an earlier reading leaves the later one standing.
            self.clock = self.clock.max(self.session.node.last);
        }
    }
}

/// A tree of nodes joined by links, our own node at the root.
struct Tree {
    /// A node and its endpoint, twice.
    edges: Vec<[(u32, u32); 2]>,
}

impl Tree {
    fn new(random: &mut Random, own: u32, others: &[u32]) -> Tree {
        let mut edges = Vec::new();
        let mut placed = vec![own];
        for &node in others {
            // Mostly near the last placed ones, so that the tree grows deep.
            let near = placed.len().saturating_sub(3);
            let from = if random.one_in(4) { 0 } else { near };
            let parent = placed[random.range(from as u64, placed.len() as u64 - 1) as usize];
            edges.push([
                (parent, random.range(1, 4) as u32),
                (node, random.range(1, 4) as u32),
            ]);
            placed.push(node);
        }
        Tree { edges }
    }

    /// For each link of a node: its endpoint, the other node, the other's endpoint.
    fn edges_of(&self, node: u32) -> Vec<(u32, u32, u32)> {
        let mut found = Vec::new();
        for &[a, b] in &self.edges {
            for (near, far) in [(a, b), (b, a)] {
                if near.0 == node {
                    found.push((near.1, far.0, far.1));
                }
            }
        }
        found
    }

    /// What a node of the tree publishes; with a change, one Peer TLV is missing or wrong.
    fn data_of(&self, random: &mut Random, node: u32, change: bool) -> Vec<u8> {
        let mut tlvs: Vec<Vec<u8>> = self
            .edges_of(node)
            .into_iter()
            .map(|(ours, other, theirs)| wire::peer_tlv(other, theirs, ours))
            .collect();
        if change {
            let at = random.below(tlvs.len() as u64) as usize;
            if random.one_in(2) {
                tlvs.remove(at);
            } else {
                let byte = random.range(4, 15) as usize;
                tlvs[at][byte] ^= 1;
            }
        }
        if random.one_in(4) {
            let at = random.below(tlvs.len() as u64 + 1) as usize;
            if let Some(tlv) = tlvs.get_mut(at) {
                *tlv = craft::resized(random, tlv);
            }
        }
        for _ in 0..random.below(3) {
            tlvs.push(craft::published_tlv(random));
        }
        craft::good_data(tlvs)
    }
}

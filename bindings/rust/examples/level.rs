//! Two nodes in one process: they meet and come level, one chooses how often it is to be heard,
//! takes a payment and saves it, loses power and goes on, and at last is gone. Prints what
//! host/level.c prints.

#![forbid(unsafe_code)]

use pingvratha::{
    Node, Randoms, Refusal, Room, SnapshotRoom, ENDPOINTS, MOST_BYTES, SNAPSHOT_BYTES,
};

/// A link between endpoint 1 of one node and endpoint 1 of the other.
struct Link {
    nodes: [Node; 2],
    /// What each node writes to.
    rooms: [Room; 2],
    reading: u64,
    seed: u32,
}

impl Link {
    /// Numbers that look random, and are the same in each run.
    fn draw(&mut self) -> Randoms {
        std::array::from_fn(|_| {
            self.seed = self.seed.wrapping_mul(1664525).wrapping_add(1013904223);
            self.seed
        })
    }

    /// A datagram to a node, its reply to the other, and so on until there is none.
    fn deliver(&mut self, mut to: usize, mut datagram: Vec<u8>) -> Result<(), Refusal> {
        let mut unicast = false;
        while !datagram.is_empty() {
            let randoms = self.draw();
            let (node, room) = (&mut self.nodes[to], &mut self.rooms[to]);
            let reply = node.receive(room, &datagram, self.reading, 1, unicast, &randoms)?;
            datagram = reply.bytes.to_vec();
            (to, unicast) = (1 - to, true);
        }
        Ok(())
    }

    /// What is due at a node; the other hears it unless it is gone.
    fn tick(&mut self, from: usize, alone: bool) -> Result<(), Refusal> {
        for endpoint in ENDPOINTS {
            let randoms = self.draw();
            let (node, room) = (&mut self.nodes[from], &mut self.rooms[from]);
            let sent = node.tick(room, self.reading, endpoint, &randoms)?.to_vec();
            if endpoint == 1 && !alone {
                self.deliver(1 - from, sent)?;
            }
        }
        Ok(())
    }

    /// Both reach both, and hold the same.
    fn is_level(&self) -> Result<bool, Refusal> {
        let [ours, theirs] = &self.nodes;
        let (ours, theirs) = (ours.marks(self.reading)?, theirs.marks(self.reading)?);
        let both = ours.nodes().len() == 2 && theirs.nodes().len() == 2;
        Ok(both && ours.digest() == theirs.digest())
    }

    fn come_level(&mut self) -> Result<(), Refusal> {
        let start = self.reading;
        while !self.is_level()? {
            self.reading += 50;
            self.tick(0, false)?;
            self.tick(1, false)?;
        }
        let levels = self.nodes[0].marks(self.reading)?.levels();
        let waited = self.reading - start;
        println!("level after {waited} ms, steps to the farthest node: {levels}");
        Ok(())
    }

    fn print_totals(&self, at: usize) -> Result<(), Refusal> {
        let node = &self.nodes[at];
        let total = node.total(self.reading, 17)?.value;
        let sum = node.sum(self.reading)?.value;
        let (own, data) = (node.state().own, node.show(7)?.len());
        println!(
            "box {own}: household 17 has {total} cents, all have {sum}; {data} bytes of box 7"
        );
        Ok(())
    }

    /// A minute without the other: it is out of reach, and its data stay until they are dropped.
    fn go_on_alone(&mut self, at: usize) -> Result<(), Refusal> {
        let end = self.reading + 60_000;
        while self.reading < end {
            self.tick(at, true)?;
            self.reading += 50;
        }
        self.print_totals(at)?;
        let randoms = self.draw();
        self.nodes[at].purge(self.reading, &randoms)?;
        if let Err(refusal) = self.nodes[at].show(7) {
            println!("purged: {refusal}");
        }
        Ok(())
    }
}

fn main() -> Result<(), Refusal> {
    let mut link = Link {
        nodes: [Node::new(), Node::new()],
        rooms: [[0; MOST_BYTES]; 2],
        reading: 1000,
        seed: 1,
    };
    let marks = link.nodes[0].marks(link.reading)?;
    println!("blank: {} node in reach", marks.nodes().len());
    for (at, own) in [(0, 7), (1, 8)] {
        let randoms = link.draw();
        link.nodes[at].begin(own, link.reading, &randoms)?;
    }
    link.come_level()?;

    let randoms = link.draw();
    link.nodes[0].keep_alive(link.reading, 1, 5000, &randoms)?;
    let randoms = link.draw();
    let never = link.nodes[0].keep_alive(link.reading, 1, 0, &randoms);
    if let Err(refusal) = never {
        println!("heard every 5000 ms; every 0 ms: {refusal}");
    }
    link.come_level()?;

    let randoms = link.draw();
    link.nodes[0].pay(link.reading, 17, 4711, 1250, &randoms)?;
    let mut book: SnapshotRoom = [0; SNAPSHOT_BYTES];
    let kept = link.nodes[0].save(&mut book, link.reading)?;
    println!("paid, and saved in {} bytes", kept.len());
    let randoms = link.draw();
    let again = link.nodes[0].pay(link.reading, 17, 4711, 1250, &randoms);
    if let Err(refusal) = again {
        println!("paid again: {refusal}");
    }
    link.come_level()?;
    link.print_totals(1)?;

    link.nodes[0] = Node::new();
    let randoms = link.draw();
    link.nodes[0].resume(kept, link.reading, &randoms)?;
    link.print_totals(0)?;
    link.come_level()?;
    link.print_totals(1)?;
    link.go_on_alone(1)
}

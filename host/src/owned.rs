//! The safe node of the crate as one that a session runs on. Its rooms have the right size by their
//! types, so the lengths that a session lends are passed over.

use crate::compare::Checked;
use crate::view::view_of;
use pingvratha::{Node, Refusal, MOST_BYTES, SNAPSHOT_BYTES};
use reference::calls::{Calls, Rooms, View};
use reference::node::{Marks, Randoms, Received, Summed, Written};
use reference::wire::Payment;

#[derive(Default)]
pub struct Owned(Box<Node>);

impl Checked for Owned {
    fn fault(&self) -> Option<&'static str> {
        None
    }
}

impl Calls for Owned {
    fn begin(&mut self, _: &Rooms, own: u32, clock: u64, randoms: &Randoms) -> u32 {
        number(self.0.begin(own, clock, randoms))
    }

    fn resume(&mut self, _: &Rooms, bytes: &[u8], clock: u64, randoms: &Randoms) -> u32 {
        number(self.0.resume(bytes, clock, randoms))
    }

    fn receive(
        &mut self,
        _: &Rooms,
        datagram: &[u8],
        clock: u64,
        endpoint: u32,
        multicast: bool,
        randoms: &Randoms,
    ) -> Received {
        let mut room = [0; MOST_BYTES];
        let node = &mut self.0;
        let received = node.receive(&mut room, datagram, clock, endpoint, !multicast, randoms);
        Received {
            refusal: number(received),
            bytes: received.map_or(vec![], |reply| reply.bytes.to_vec()),
            omitted: received.map_or(0, |reply| reply.omitted as usize),
            dropped: received.map_or(0, |reply| reply.dropped as usize),
        }
    }

    fn tick(&mut self, _: &Rooms, clock: u64, endpoint: u32, randoms: &Randoms) -> Written {
        let mut room = [0; MOST_BYTES];
        written(self.0.tick(&mut room, clock, endpoint, randoms))
    }

    fn keep_alive(
        &mut self,
        _: &Rooms,
        clock: u64,
        endpoint: u32,
        interval: u32,
        randoms: &Randoms,
    ) -> u32 {
        number(self.0.keep_alive(clock, endpoint, interval, randoms))
    }

    fn pay(&mut self, _: &Rooms, clock: u64, payment: &Payment, randoms: &Randoms) -> u32 {
        let Payment {
            household,
            receipt,
            amount,
        } = *payment;
        number(self.0.pay(clock, household, receipt, amount, randoms))
    }

    fn purge(&mut self, _: &Rooms, clock: u64, randoms: &Randoms) -> u32 {
        number(self.0.purge(clock, randoms))
    }

    fn total(&self, _: &Rooms, clock: u64, household: u32) -> Summed {
        summed(self.0.total(clock, household))
    }

    fn sum(&self, _: &Rooms, clock: u64) -> Summed {
        summed(self.0.sum(clock))
    }

    fn marks(&self, _: &Rooms, clock: u64) -> Marks {
        let marks = self.0.marks(clock);
        Marks {
            refusal: number(marks),
            digest: marks.map_or([0; 16], |marks| marks.digest()),
            nodes: marks.map_or(vec![], |marks| marks.nodes().to_vec()),
            last_level: marks.map_or(0, |marks| marks.levels()),
        }
    }

    fn save(&self, _: &Rooms, clock: u64) -> Written {
        let mut room = [0; SNAPSHOT_BYTES];
        written(self.0.save(&mut room, clock))
    }

    fn show(&self, _: &Rooms, node: u32) -> Written {
        written(self.0.show(node))
    }

    fn view(&self) -> View<'_> {
        view_of(self.0.state(), |entry| {
            self.0.show(entry.id).unwrap_or_default()
        })
    }
}

fn number<T>(result: Result<T, Refusal>) -> u32 {
    result.err().map_or(0, Refusal::number)
}

fn written(result: Result<&[u8], Refusal>) -> Written {
    Written {
        refusal: number(result),
        bytes: result.unwrap_or_default().to_vec(),
    }
}

fn summed(result: Result<pingvratha::Total, Refusal>) -> Summed {
    Summed {
        refusal: number(result),
        value: result.map_or(0, |total| total.value),
        unreadable: result.map_or(0, |total| total.unread as usize),
    }
}

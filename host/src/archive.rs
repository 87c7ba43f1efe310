//! The archive's plain calls as a node that a session runs on. After each call it is checked that
//! what has to stay has stayed: of every lent buffer, of the memory behind it, and of the state.
//!
//! Safety: state and memory are private to [`Archive`], start blank, and only the calls write to
//! them. So each call gets them as the last one left them.

use crate::compare::Checked;
use crate::stack;
use crate::view::view_of;
use pingvratha::plain::{self, Entry, State};
use reference::calls::{Calls, Rooms, View};
use reference::node::{Marks, Randoms, Received, Summed, Written, TABLE_ROOM};
use reference::script::ROOMS_MAX;
use reference::wire::{Payment, MAX_DATA};
use std::cell::{Cell, RefCell};
use std::collections::BTreeMap;
use std::hint::black_box;

/// Bytes behind a lent buffer that must stay too.
const BEHIND: usize = 64;

/// A node whose state is kept here and whose calls the archive answers.
pub struct Archive {
    state: State,
    /// Table memory, of which the front is lent.
    memory: Vec<u8>,
    depths: Depths,
    /// The first thing that was not as it has to be.
    fault: Cell<Option<&'static str>>,
    /// What the next room is filled with.
    fill: Cell<u8>,
}

impl Archive {
    pub fn blank() -> Archive {
        Archive::new(Depths(None))
    }

    /// One that measures the stack of each call.
    pub fn measuring() -> Archive {
        Archive::new(Depths(Some(RefCell::default())))
    }

    fn new(depths: Depths) -> Archive {
        Archive {
            state: depths.of("blank", plain::blank),
            memory: vec![0xa5; ROOMS_MAX.table + BEHIND],
            depths,
            fault: Cell::new(None),
            fill: Cell::new(0),
        }
    }

    /// For each call made, the most bytes of stack that it used.
    pub fn depths(&self) -> BTreeMap<&'static str, usize> {
        self.depths
            .0
            .as_ref()
            .map(RefCell::take)
            .unwrap_or_default()
    }

    fn expect(&self, holds: bool, fault: &'static str) {
        if !holds && self.fault.get().is_none() {
            self.fault.set(Some(fault));
        }
    }

    fn room(&self, length: usize) -> Room {
        self.fill.set(self.fill.get().wrapping_add(1));
        Room {
            bytes: vec![self.fill.get(); length + BEHIND],
            length,
            fill: self.fill.get(),
        }
    }

    /// The bytes that an answer says are written.
    fn written(&self, room: Room, length: usize) -> Vec<u8> {
        self.expect(length <= room.length, "more is written than was lent");
        self.expect(
            room.stays_from(length),
            "a room is changed beyond what is written",
        );
        room.front(length)
    }

    /// Table memory that the call may not write to is as it was before.
    fn expect_memory(&self, before: &[u8], from: usize) {
        let stays = black_box(&self.memory)[from..] == before[from..];
        self.expect(stays, "table memory is changed that has to stay");
    }

    /// Takes over the state of a call that may write to the table memory unless it is refused.
    fn settle(&mut self, number: u32, state: State, before: &[u8]) {
        self.expect_memory(before, if number == 0 { TABLE_ROOM } else { 0 });
        self.take(number, state);
    }

    fn take(&mut self, number: u32, state: State) {
        let kept = number == 0 || state == self.state;
        self.expect(kept, "a refused call hands back another state");
        self.expect(in_range(&state), "the state has figures out of range");
        self.state = state;
    }
}

/// Counts, slots and lengths are such that the state can be read.
fn in_range(state: &State) -> bool {
    let table = &state.table;
    let Some(entries) = table.entries.get(..table.count) else {
        return false;
    };
    let mut slots: Vec<u16> = entries.iter().map(|entry| entry.slot).collect();
    slots.sort_unstable();
    slots.dedup();
    let readable = |entry: &Entry| entry.slot < 32 && usize::from(entry.len) <= MAX_DATA;
    slots.len() == table.count
        && entries.iter().all(readable)
        && state.peers.count <= state.peers.list.len()
}

/// A room lent to one call: filled with one byte, and more of it behind.
struct Room {
    bytes: Vec<u8>,
    length: usize,
    fill: u8,
}

impl Room {
    fn lent(&mut self) -> &mut [u8] {
        &mut self.bytes[..self.length]
    }

    fn stays_from(&self, start: usize) -> bool {
        self.bytes.iter().skip(start).all(|&byte| byte == self.fill)
    }

    fn front(mut self, length: usize) -> Vec<u8> {
        self.bytes.truncate(length);
        self.bytes
    }
}

/// The most stack that each call used, where that is asked for.
struct Depths(Option<RefCell<BTreeMap<&'static str, usize>>>);

impl Depths {
    fn of<T: Send>(&self, name: &'static str, call: impl FnOnce() -> T + Send) -> T {
        let Some(depths) = &self.0 else {
            return call();
        };
        let (result, depth) = stack::measured(call);
        let mut depths = depths.borrow_mut();
        let most = depths.entry(name).or_default();
        *most = depth.max(*most);
        result
    }
}

impl Checked for Archive {
    fn fault(&self) -> Option<&'static str> {
        self.fault.get()
    }
}

impl Calls for Archive {
    fn begin(&mut self, rooms: &Rooms, own: u32, clock: u64, randoms: &Randoms) -> u32 {
        let before = self.memory.clone();
        let (state, memory) = (&self.state, &self.memory[..rooms.table]);
        let done = self.depths.of("begin", || unsafe {
            plain::begin(state, memory, own, clock, randoms)
        });
        self.expect_memory(&before, 0);
        self.take(done.number, done.state);
        done.number
    }

    fn resume(&mut self, rooms: &Rooms, bytes: &[u8], clock: u64, randoms: &Randoms) -> u32 {
        let before = self.memory.clone();
        let (state, memory) = (&self.state, &mut self.memory[..rooms.table]);
        let done = self.depths.of("resume", || unsafe {
            plain::resume(state, memory, bytes, clock, randoms)
        });
        self.settle(done.number, done.state, &before);
        done.number
    }

    fn receive(
        &mut self,
        rooms: &Rooms,
        datagram: &[u8],
        clock: u64,
        endpoint: u32,
        multicast: bool,
        randoms: &Randoms,
    ) -> Received {
        let before = self.memory.clone();
        let mut room = self.room(rooms.reply);
        let (state, memory) = (&self.state, &mut self.memory[..rooms.table]);
        let (lent, unicast) = (room.lent(), !multicast);
        let answer = self.depths.of("receive", || unsafe {
            plain::receive(
                state, memory, lent, datagram, clock, endpoint, unicast, randoms,
            )
        });
        self.settle(answer.number, answer.state, &before);
        Received {
            refusal: answer.number,
            bytes: self.written(room, answer.length),
            omitted: answer.omitted as usize,
            dropped: answer.dropped as usize,
        }
    }

    fn tick(&mut self, rooms: &Rooms, clock: u64, endpoint: u32, randoms: &Randoms) -> Written {
        let before = self.memory.clone();
        let mut room = self.room(rooms.reply);
        let (state, memory) = (&self.state, &mut self.memory[..rooms.table]);
        let lent = room.lent();
        let sent = self.depths.of("tick", || unsafe {
            plain::tick(state, memory, lent, clock, endpoint, randoms)
        });
        self.settle(sent.number, sent.state, &before);
        Written {
            refusal: sent.number,
            bytes: self.written(room, sent.length),
        }
    }

    fn keep_alive(
        &mut self,
        rooms: &Rooms,
        clock: u64,
        endpoint: u32,
        interval: u32,
        randoms: &Randoms,
    ) -> u32 {
        let before = self.memory.clone();
        let (state, memory) = (&self.state, &mut self.memory[..rooms.table]);
        let done = self.depths.of("keep_alive", || unsafe {
            plain::keep_alive(state, memory, clock, endpoint, interval, randoms)
        });
        self.settle(done.number, done.state, &before);
        done.number
    }

    fn pay(&mut self, rooms: &Rooms, clock: u64, payment: &Payment, randoms: &Randoms) -> u32 {
        let before = self.memory.clone();
        let Payment {
            household,
            receipt,
            amount,
        } = *payment;
        let (state, memory) = (&self.state, &mut self.memory[..rooms.table]);
        let done = self.depths.of("pay", || unsafe {
            plain::pay(state, memory, clock, household, receipt, amount, randoms)
        });
        self.settle(done.number, done.state, &before);
        done.number
    }

    fn purge(&mut self, rooms: &Rooms, clock: u64, randoms: &Randoms) -> u32 {
        let before = self.memory.clone();
        let (state, memory) = (&self.state, &self.memory[..rooms.table]);
        let done = self.depths.of("purge", || unsafe {
            plain::purge(state, memory, clock, randoms)
        });
        self.expect_memory(&before, 0);
        self.take(done.number, done.state);
        done.number
    }

    fn total(&self, rooms: &Rooms, clock: u64, household: u32) -> Summed {
        let before = self.memory.clone();
        let (state, memory) = (&self.state, &self.memory[..rooms.table]);
        let summed = self.depths.of("total", || unsafe {
            plain::total(state, memory, clock, household)
        });
        self.expect_memory(&before, 0);
        summed_of(&summed)
    }

    fn sum(&self, rooms: &Rooms, clock: u64) -> Summed {
        let before = self.memory.clone();
        let (state, memory) = (&self.state, &self.memory[..rooms.table]);
        let summed = self
            .depths
            .of("sum", || unsafe { plain::sum(state, memory, clock) });
        self.expect_memory(&before, 0);
        summed_of(&summed)
    }

    fn marks(&self, rooms: &Rooms, clock: u64) -> Marks {
        let before = self.memory.clone();
        let (state, memory) = (&self.state, &self.memory[..rooms.table]);
        let marked = self
            .depths
            .of("marks", || unsafe { plain::marks(state, memory, clock) });
        self.expect_memory(&before, 0);
        let counts = (marked.count, marked.levels);
        let empty = counts == (0, 0) && marked.nodes == [0; 32] && marked.digest == [0; 16];
        self.expect(
            marked.number == 0 || empty,
            "refused marks are not all zero",
        );
        let nodes = marked.nodes.get(..marked.count);
        self.expect(nodes.is_some(), "more than 32 marks");
        Marks {
            refusal: marked.number,
            digest: marked.digest,
            nodes: nodes.unwrap_or_default().to_vec(),
            last_level: marked.levels,
        }
    }

    fn save(&self, rooms: &Rooms, clock: u64) -> Written {
        let before = self.memory.clone();
        let mut room = self.room(rooms.snapshot);
        let (state, memory, lent) = (&self.state, &self.memory[..rooms.table], room.lent());
        let saved = self.depths.of("save", || unsafe {
            plain::save(state, memory, lent, clock)
        });
        self.expect_memory(&before, 0);
        Written {
            refusal: saved.number,
            bytes: self.written(room, saved.length),
        }
    }

    fn show(&self, rooms: &Rooms, node: u32) -> Written {
        let before = self.memory.clone();
        let (state, memory) = (&self.state, &self.memory[..rooms.table]);
        let extent = self
            .depths
            .of("show", || unsafe { plain::show(state, memory, node) });
        let refusal = self.depths.of("show_refusal", || unsafe {
            plain::show_refusal(state, memory, node)
        });
        self.expect_memory(&before, 0);
        let empty = extent.start == 0 && extent.length == 0;
        self.expect(refusal == 0 || empty, "a refused part is not empty");
        let part = memory
            .get(extent.start..)
            .and_then(|rest| rest.get(..extent.length));
        self.expect(part.is_some(), "a part beyond the table memory");
        Written {
            refusal,
            bytes: part.unwrap_or_default().to_vec(),
        }
    }

    fn view(&self) -> View<'_> {
        view_of(&self.state, |entry| {
            let at = usize::from(entry.slot) * MAX_DATA;
            &self.memory[at..][..usize::from(entry.len)]
        })
    }
}

fn summed_of(summed: &plain::Summed) -> Summed {
    Summed {
        refusal: summed.number,
        value: summed.value,
        unreadable: summed.unread as usize,
    }
}

//! Session scripts: one call a line, one answer a line.
//!
//! Words are separated by exactly one space, numbers are decimal,
//! bytes are lower-case hexadecimal, `-` for no bytes.

use crate::calls::{Calls, Rooms, View};
use crate::node::{Marks, Node, Randoms, Summed, Written};
use crate::totals;
use crate::wire::Payment;
use std::io::{self, BufRead, Write};
use std::str::FromStr;

/// What a script may set at most.
pub const ROOMS_MAX: Rooms = Rooms {
    table: 40_000,
    reply: 5_000,
    snapshot: 40_000,
};

/// A line of a script.
#[derive(Clone, Debug, PartialEq, Eq)]
pub enum Line {
    Rooms(Rooms),
    Begin {
        own: u32,
        clock: u64,
        randoms: Randoms,
    },
    /// No bytes given: those of the last accepted save.
    Resume {
        clock: u64,
        randoms: Randoms,
        bytes: Option<Vec<u8>>,
    },
    Receive {
        clock: u64,
        endpoint: u32,
        multicast: bool,
        randoms: Randoms,
        datagram: Vec<u8>,
    },
    Tick {
        clock: u64,
        endpoint: u32,
        randoms: Randoms,
    },
    KeepAlive {
        clock: u64,
        endpoint: u32,
        interval: u32,
        randoms: Randoms,
    },
    Pay {
        clock: u64,
        payment: Payment,
        randoms: Randoms,
    },
    Purge {
        clock: u64,
        randoms: Randoms,
    },
    Total {
        clock: u64,
        household: u32,
    },
    Sum {
        clock: u64,
    },
    Marks {
        clock: u64,
    },
    Save {
        clock: u64,
    },
    Show {
        node: u32,
    },
    State,
    /// The text of the program `totals` for these bytes. No call of the node.
    Totals {
        bytes: Vec<u8>,
    },
}

/// Reads a line; nothing if it is not of the form.
pub fn parse(line: &str) -> Option<Line> {
    let words: Vec<&str> = line.split(' ').collect();
    match *words.as_slice() {
        ["rooms", table, reply, snapshot] => parse_rooms(table, reply, snapshot),
        ["begin", own, clock, a, b, c, d] => Some(Line::Begin {
            own: number(own)?,
            clock: number(clock)?,
            randoms: parse_randoms([a, b, c, d])?,
        }),
        ["resume", clock, a, b, c, d, hex] => Some(Line::Resume {
            clock: number(clock)?,
            randoms: parse_randoms([a, b, c, d])?,
            bytes: if hex == "last" {
                None
            } else {
                Some(from_hex(hex)?)
            },
        }),
        ["receive", clock, endpoint, kind, a, b, c, d, hex] => Some(Line::Receive {
            clock: number(clock)?,
            endpoint: number(endpoint)?,
            multicast: parse_kind(kind)?,
            randoms: parse_randoms([a, b, c, d])?,
            datagram: from_hex(hex)?,
        }),
        ["tick", clock, endpoint, a, b, c, d] => Some(Line::Tick {
            clock: number(clock)?,
            endpoint: number(endpoint)?,
            randoms: parse_randoms([a, b, c, d])?,
        }),
        ["keep-alive", clock, endpoint, interval, a, b, c, d] => Some(Line::KeepAlive {
            clock: number(clock)?,
            endpoint: number(endpoint)?,
            interval: number(interval)?,
            randoms: parse_randoms([a, b, c, d])?,
        }),
        ["pay", clock, household, receipt, amount, a, b, c, d] => Some(Line::Pay {
            clock: number(clock)?,
            payment: Payment {
                household: number(household)?,
                receipt: number(receipt)?,
                amount: signed(amount)?,
            },
            randoms: parse_randoms([a, b, c, d])?,
        }),
        ["purge", clock, a, b, c, d] => Some(Line::Purge {
            clock: number(clock)?,
            randoms: parse_randoms([a, b, c, d])?,
        }),
        ["total", clock, household] => Some(Line::Total {
            clock: number(clock)?,
            household: number(household)?,
        }),
        ["sum", clock] => Some(Line::Sum {
            clock: number(clock)?,
        }),
        ["marks", clock] => Some(Line::Marks {
            clock: number(clock)?,
        }),
        ["save", clock] => Some(Line::Save {
            clock: number(clock)?,
        }),
        ["show", node] => Some(Line::Show {
            node: number(node)?,
        }),
        ["state"] => Some(Line::State),
        ["totals", hex] => Some(Line::Totals {
            bytes: from_hex(hex)?,
        }),
        _ => None,
    }
}

fn parse_rooms(table: &str, reply: &str, snapshot: &str) -> Option<Line> {
    let rooms = Rooms {
        table: number(table)?,
        reply: number(reply)?,
        snapshot: number(snapshot)?,
    };
    let allowed = rooms.table <= ROOMS_MAX.table
        && rooms.reply <= ROOMS_MAX.reply
        && rooms.snapshot <= ROOMS_MAX.snapshot;
    allowed.then_some(Line::Rooms(rooms))
}

fn parse_kind(word: &str) -> Option<bool> {
    match word {
        "u" => Some(false),
        "m" => Some(true),
        _ => None,
    }
}

fn parse_randoms(words: [&str; 4]) -> Option<Randoms> {
    let [a, b, c, d] = words.map(number);
    Some([a?, b?, c?, d?])
}

/// Decimal digits only, in the range of the type.
fn number<T: FromStr>(word: &str) -> Option<T> {
    let digits = !word.is_empty() && word.bytes().all(|byte| byte.is_ascii_digit());
    if digits {
        word.parse().ok()
    } else {
        None
    }
}

/// As a number, with a minus sign before it if it is negative.
fn signed(word: &str) -> Option<i32> {
    let digits = word.strip_prefix('-').unwrap_or(word);
    number::<u32>(digits)?;
    word.parse().ok()
}

/// The bytes of a lower-case hexadecimal word.
pub fn from_hex(word: &str) -> Option<Vec<u8>> {
    if word == "-" {
        return Some(Vec::new());
    }
    if word.is_empty() || !word.len().is_multiple_of(2) {
        return None;
    }
    word.as_bytes()
        .chunks(2)
        .map(|pair| Some(hex_digit(pair[0])? * 16 + hex_digit(pair[1])?))
        .collect()
}

fn hex_digit(byte: u8) -> Option<u8> {
    match byte {
        b'0'..=b'9' => Some(byte - b'0'),
        b'a'..=b'f' => Some(byte - b'a' + 10),
        _ => None,
    }
}

/// The bytes as a lower-case hexadecimal word.
pub fn hex(bytes: &[u8]) -> String {
    if bytes.is_empty() {
        return "-".to_string();
    }
    let digits = b"0123456789abcdef";
    let mut word = String::with_capacity(2 * bytes.len());
    for byte in bytes {
        word.push(char::from(digits[usize::from(byte / 16)]));
        word.push(char::from(digits[usize::from(byte % 16)]));
    }
    word
}

/// A run of a script: the node, the lent lengths, the last accepted save.
#[derive(Clone, Debug)]
pub struct Session<N = Node> {
    pub node: N,
    pub rooms: Rooms,
    pub saved: Vec<u8>,
}

impl Default for Session<Node> {
    fn default() -> Session<Node> {
        Session::new(Node::blank())
    }
}

impl<N: Calls> Session<N> {
    /// A run that starts with this node, whose state is that of `blank`.
    pub fn new(node: N) -> Session<N> {
        Session {
            node,
            rooms: Rooms::default(),
            saved: Vec::new(),
        }
    }

    /// Runs one line and gives what it prints, each line of it ended.
    pub fn run_line(&mut self, line: &str) -> String {
        match parse(line) {
            Some(line) => self.run(&line),
            None => "bad line\n".to_string(),
        }
    }

    /// Runs a whole script.
    pub fn run_script(&mut self, script: &str) -> String {
        script
            .split_terminator('\n')
            .map(|line| self.run_line(line))
            .collect()
    }

    /// Runs the lines of the input one by one.
    pub fn run_lines(&mut self, input: impl BufRead, mut out: impl Write) -> io::Result<()> {
        for line in input.split(b'\n') {
            let line = line?;
            // A line that isn't text is not of the form either.
            let text = std::str::from_utf8(&line).unwrap_or("");
            out.write_all(self.run_line(text).as_bytes())?;
        }
        out.flush()
    }

    /// Runs a line that was read and gives what it prints.
    pub fn run(&mut self, line: &Line) -> String {
        let rooms = &self.rooms;
        let node = &mut self.node;
        match line {
            Line::Rooms(rooms) => {
                self.rooms = *rooms;
                String::new()
            }
            Line::Begin {
                own,
                clock,
                randoms,
            } => format!("begin {}\n", node.begin(rooms, *own, *clock, randoms)),
            Line::Resume {
                clock,
                randoms,
                bytes,
            } => {
                let bytes = bytes.as_ref().unwrap_or(&self.saved);
                format!("resume {}\n", node.resume(rooms, bytes, *clock, randoms))
            }
            Line::Receive {
                clock,
                endpoint,
                multicast,
                randoms,
                datagram,
            } => {
                let answer = node.receive(rooms, datagram, *clock, *endpoint, *multicast, randoms);
                format!(
                    "receive {} {} {} {} {}\n",
                    answer.refusal,
                    answer.bytes.len(),
                    answer.omitted,
                    answer.dropped,
                    hex(&answer.bytes)
                )
            }
            Line::Tick {
                clock,
                endpoint,
                randoms,
            } => written_text("tick", &node.tick(rooms, *clock, *endpoint, randoms)),
            Line::KeepAlive {
                clock,
                endpoint,
                interval,
                randoms,
            } => {
                let refusal = node.keep_alive(rooms, *clock, *endpoint, *interval, randoms);
                format!("keep-alive {refusal}\n")
            }
            Line::Pay {
                clock,
                payment,
                randoms,
            } => format!("pay {}\n", node.pay(rooms, *clock, payment, randoms)),
            Line::Purge { clock, randoms } => {
                format!("purge {}\n", node.purge(rooms, *clock, randoms))
            }
            Line::Total { clock, household } => {
                summed_text("total", &node.total(rooms, *clock, *household))
            }
            Line::Sum { clock } => summed_text("sum", &node.sum(rooms, *clock)),
            Line::Marks { clock } => marks_text(&node.marks(rooms, *clock)),
            Line::Save { clock } => {
                let answer = node.save(rooms, *clock);
                let text = written_text("save", &answer);
                if answer.refusal == 0 {
                    self.saved = answer.bytes;
                }
                text
            }
            Line::Show { node: shown } => written_text("show", &node.show(rooms, *shown)),
            Line::State => state_text(&node.view()),
            Line::Totals { bytes } => totals::text(bytes),
        }
    }
}

fn written_text(call: &str, answer: &Written) -> String {
    let bytes = &answer.bytes;
    format!("{call} {} {} {}\n", answer.refusal, bytes.len(), hex(bytes))
}

fn summed_text(call: &str, answer: &Summed) -> String {
    format!(
        "{call} {} {} {}\n",
        answer.refusal, answer.value, answer.unreadable
    )
}

fn marks_text(answer: &Marks) -> String {
    if answer.refusal != 0 {
        return format!("marks {} 0 0 -\n", answer.refusal);
    }
    let mut text = format!(
        "marks 0 {} {} {}",
        answer.nodes.len(),
        answer.last_level,
        hex(&answer.digest)
    );
    for node in &answer.nodes {
        text += &format!(" {node}");
    }
    text.push('\n');
    text
}

/// The whole state: the node, its table, its peers, its endpoints.
pub fn state_text(view: &View) -> String {
    let mut text = format!(
        "state own={} last={} digest={}\n",
        view.own,
        view.last,
        hex(&view.digest)
    );
    for held in &view.nodes {
        text += &format!(
            "node id={} seq={} age={} since={} data={}\n",
            held.node,
            held.seq,
            held.age,
            held.since,
            hex(held.data)
        );
    }
    for peer in &view.peers {
        text += &format!(
            "peer node={} theirs={} ours={} contact={}\n",
            peer.node, peer.theirs, peer.ours, peer.contact
        );
    }
    for (index, endpoint) in view.endpoints.iter().enumerate() {
        text += &format!(
            "endpoint {} start={} point={} interval={} count={} spent={} next={} \
             keep={} quiet={}\n",
            index + 1,
            endpoint.start,
            endpoint.point,
            endpoint.interval,
            endpoint.count,
            u8::from(endpoint.spent),
            endpoint.next_request,
            endpoint.keep,
            endpoint.quiet
        );
    }
    text
}

//! Made-up sessions on the archive and on the reference, call by call.

use crate::archive::Archive;
use crate::owned::Owned;
use reference::calls::{Calls, View};
use reference::generate;
use reference::script::{parse, state_text, Line, Session};

/// Calls of one session. A session is short, so that a difference is found again soon.
const SESSION: usize = 2_000;

/// Runs sessions of this many calls in all, of this seed and the next ones. Shows the first
/// difference, if there is one.
pub fn compare(seed: u64, count: usize) -> Result<(), String> {
    let mut compared = 0;
    let mut seed = seed;
    while compared < count {
        let calls = SESSION.min(count - compared);
        compare_script(&generate::script(seed, calls), &mut compared).map_err(|difference| {
            format!("{compared} calls are equal\nreference generate {seed} {calls}, {difference}")
        })?;
        seed = seed.wrapping_add(1);
    }
    Ok(())
}

/// A node that tells what was not as it has to be, the first such thing.
pub trait Checked: Calls {
    fn fault(&self) -> Option<&'static str>;
}

/// Counts the calls that are equal: each on the plain calls and on the safe node.
fn compare_script(script: &str, compared: &mut usize) -> Result<(), String> {
    let (mut plain, mut owned) = (Pair::new(Archive::blank()), Pair::new(Owned::default()));
    for (index, text) in script.lines().enumerate() {
        let Some(line) = parse(text) else {
            continue;
        };
        let at_line = |difference| format!("line {}:\n{text}\n{difference}", index + 1);
        plain.compare(&line).map_err(at_line)?;
        if !matches!(line, Line::Rooms(_)) {
            let of_node = |difference| at_line(format!("on a node\n{difference}"));
            owned.compare(&line).map_err(of_node)?;
        }
        if !matches!(line, Line::Rooms(_) | Line::State) {
            *compared += 1;
        }
    }
    Ok(())
}

/// The same session on the archive and on the reference.
struct Pair<T> {
    ours: Session<T>,
    theirs: Session,
}

impl<T: Checked> Pair<T> {
    fn new(node: T) -> Pair<T> {
        Pair {
            ours: Session::new(node),
            theirs: Session::default(),
        }
    }

    fn compare(&mut self, line: &Line) -> Result<(), String> {
        let (got, expected) = (self.ours.run(line), self.theirs.run(line));
        let outputs = format!("archive:   {got}reference: {expected}");
        if let Some(fault) = self.ours.node.fault() {
            return Err(format!("{outputs}fault of the archive: {fault}"));
        }
        if got != expected {
            return Err(outputs);
        }
        let (ours, theirs) = (self.ours.node.view(), self.theirs.node.view());
        if ours != theirs {
            return Err(outputs + &difference(&ours, &theirs));
        }
        Ok(())
    }
}

/// Both states, without the lines that they have in common.
fn difference(ours: &View, theirs: &View) -> String {
    let (ours, theirs) = (state_text(ours), state_text(theirs));
    if ours == theirs {
        return "the states differ in the digests kept of nodes' data".to_string();
    }
    lines_apart("archive", &ours, &theirs) + &lines_apart("reference", &theirs, &ours)
}

/// The lines of a text that the other has not.
fn lines_apart(name: &str, text: &str, other: &str) -> String {
    let common: Vec<&str> = other.lines().collect();
    let mut apart = format!("state of the {name} after it:\n");
    for line in text.lines().filter(|line| !common.contains(line)) {
        apart += &format!("{line}\n");
    }
    apart
}

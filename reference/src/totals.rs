//! The text of the program `totals` for a snapshot on standard input.

use crate::node::{household_totals, reachable};
use crate::snapshot;
use std::fmt::Write;

/// The totals of the snapshot as it was saved: its own ages, its own Peer TLVs.
pub fn text(bytes: &[u8]) -> String {
    // No time has passed since saving, so any reading does.
    let Some(snapshot) = snapshot::load(bytes, 0) else {
        return "refused\n".to_string();
    };
    let (totals, _) = household_totals(&reachable(&snapshot.table, snapshot.own, 0));
    let mut text = "household total\n".to_string();
    for (household, total) in &totals {
        writeln!(text, "{household} {total}").expect("writing to a string");
    }
    writeln!(text, "all {}", totals.values().sum::<i64>()).expect("writing to a string");
    text
}

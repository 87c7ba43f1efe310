//! `host sessions`, `host compare SEED COUNT`, `host bench`: the archive and the reference, compared
//! and measured. `host quiet`: nodes on one link, simulated.

#![deny(unsafe_code)]

#[allow(unsafe_code)]
mod archive;
mod bench;
mod compare;
#[allow(unsafe_code)]
mod digest;
mod owned;
mod quiet;
#[allow(unsafe_code)]
mod stack;
mod view;

use archive::Archive;
use compare::Checked;
use quiet::Quiet;
use reference::script::Session;
use std::io::{self, BufWriter};
use std::process::ExitCode;
use std::time::Instant;

fn main() -> ExitCode {
    let words: Vec<String> = std::env::args().skip(1).collect();
    let words: Vec<&str> = words.iter().map(String::as_str).collect();
    let result = match words.as_slice() {
        ["sessions"] => run_sessions(),
        ["compare", seed, count] => match (seed.parse(), count.parse()) {
            (Ok(seed), Ok(count)) => run_compare(seed, count),
            _ => return usage(),
        },
        ["bench"] => bench::run(),
        ["quiet", asked @ ..] => match quiet_asked(asked) {
            Some(quiet) => quiet::run(&quiet),
            None => return usage(),
        },
        _ => return usage(),
    };
    match result {
        Ok(()) => ExitCode::SUCCESS,
        Err(error) => {
            eprintln!("host: {error}");
            ExitCode::FAILURE
        }
    }
}

/// The hours and the interval that are asked for.
fn quiet_asked(asked: &[&str]) -> Option<Quiet> {
    let mut quiet = quiet::USUAL;
    if let [hours, ..] = asked {
        quiet.hours = hours.parse().ok()?;
    }
    if let [_, interval] = asked {
        quiet.interval = interval.parse().ok()?;
    }
    let is_sound = asked.len() <= 2 && (0.0..f64::INFINITY).contains(&quiet.hours);
    is_sound.then_some(quiet)
}

fn usage() -> ExitCode {
    eprintln!("usage: host sessions < script > output");
    eprintln!("       host compare SEED COUNT");
    eprintln!("       host bench");
    eprintln!("       host quiet [HOURS [INTERVAL]]");
    ExitCode::from(2)
}

/// Runs the script on standard input on the archive.
fn run_sessions() -> Result<(), String> {
    let mut session = Session::new(Archive::blank());
    let out = BufWriter::new(io::stdout().lock());
    session
        .run_lines(io::stdin().lock(), out)
        .map_err(|error| error.to_string())?;
    match session.node.fault() {
        Some(fault) => Err(fault.to_string()),
        None => Ok(()),
    }
}

fn run_compare(seed: u64, count: usize) -> Result<(), String> {
    let start = Instant::now();
    compare::compare(seed, count)?;
    let seconds = start.elapsed().as_secs_f64();
    println!("{count} calls compared in {seconds:.1} s, none differs");
    Ok(())
}

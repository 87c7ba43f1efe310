//! `reference run`, `reference totals`, `reference generate SEED COUNT`.

use reference::script::Session;
use reference::{generate, totals};
use std::io::{self, BufWriter, Read, Write};
use std::process::ExitCode;

fn main() -> ExitCode {
    let words: Vec<String> = std::env::args().skip(1).collect();
    let words: Vec<&str> = words.iter().map(String::as_str).collect();
    let result = match words.as_slice() {
        ["run"] => run(),
        ["totals"] => print_totals(),
        ["generate", seed, count] => match (seed.parse(), count.parse()) {
            (Ok(seed), Ok(count)) => print_generated(seed, count),
            _ => return usage(),
        },
        _ => return usage(),
    };
    match result {
        Ok(()) => ExitCode::SUCCESS,
        Err(error) => {
            eprintln!("reference: {error}");
            ExitCode::FAILURE
        }
    }
}

fn usage() -> ExitCode {
    eprintln!("usage: reference run < script > output");
    eprintln!("       reference totals < snapshot > text");
    eprintln!("       reference generate SEED COUNT > script");
    ExitCode::from(2)
}

/// Runs the script on standard input.
fn run() -> io::Result<()> {
    let out = BufWriter::new(io::stdout().lock());
    Session::default().run_lines(io::stdin().lock(), out)
}

fn print_totals() -> io::Result<()> {
    let mut bytes = Vec::new();
    io::stdin().lock().read_to_end(&mut bytes)?;
    io::stdout()
        .lock()
        .write_all(totals::text(&bytes).as_bytes())
}

fn print_generated(seed: u64, count: usize) -> io::Result<()> {
    let script = generate::script(seed, count);
    io::stdout().lock().write_all(script.as_bytes())
}

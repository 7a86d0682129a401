//! The oracle's command: compare, replay, distribution, record, bench, mutants.

mod bench;
mod mutants;
mod record;

use checks::both_sides::BothSides;
use checks::compare::{self, Options, Outcome};
use checks::show;
use checks::trace::Kind;
use original::UnchangedRust;
use port::Proved;
use std::path::{Path, PathBuf};
use std::process::ExitCode;
use vocabulary::{Port, Words};

const USAGE: &str = "usage:
  oracle compare CALLS SEED        compare both sides on made-up calls
  oracle distribution CALLS SEED   how often each answer occurs
  oracle replay FILE               run a trace that compare printed
  oracle mutants [CALLS SEED]      the self-test on edited copies of the Rust
  oracle record [FOLDER]           write the lists of recorded answers
  oracle bench [PLOT.svg]          time both sides; draw how an admit's time grows";

/// Calls for each edited copy, and their seed.
const MUTANT_RUN: (u64, u64) = (200_000, 1);

fn main() -> ExitCode {
    let words: Vec<String> = std::env::args().skip(1).collect();
    let words: Vec<&str> = words.iter().map(String::as_str).collect();
    match words.as_slice() {
        ["compare", calls, seed] => with_numbers(calls, seed, compare),
        ["distribution", calls, seed] => with_numbers(calls, seed, distribution),
        ["replay", file] => replay(file),
        ["mutants"] => self_test(MUTANT_RUN.0, MUTANT_RUN.1),
        ["mutants", calls, seed] => with_numbers(calls, seed, self_test),
        ["record"] => record::run(&oracle_folder().join("..")),
        ["record", folder] => record::run(Path::new(folder)),
        ["bench"] => bench::run(&PORT, None),
        ["bench", picture] => bench::run(&PORT, Some(picture)),
        _ => usage(),
    }
}

/// The port under test.
const PORT: Proved = Proved;

/// The folder of this workspace.
fn oracle_folder() -> PathBuf {
    Path::new(env!("CARGO_MANIFEST_DIR")).join("..")
}

fn usage() -> ExitCode {
    eprintln!("{USAGE}");
    ExitCode::from(2)
}

fn with_numbers(calls: &str, seed: &str, run: fn(u64, u64) -> ExitCode) -> ExitCode {
    match (calls.parse(), seed.parse()) {
        (Ok(calls), Ok(seed)) => run(calls, seed),
        _ => usage(),
    }
}

fn run(options: Options) -> Outcome {
    let rust = if original::AS_PUBLISHED {
        "as published"
    } else {
        "EDITED"
    };
    eprintln!("the Rust {rust} against {}", PORT.name());
    if !PORT.has_gossip() {
        eprintln!("bans, limiter and gossip state are not compared: the library has no c_gossip");
    }
    compare::run(&mut UnchangedRust::default(), &PORT, &options)
}

fn self_test(calls: u64, seed: u64) -> ExitCode {
    mutants::run(&oracle_folder(), PORT.has_gossip(), calls, seed)
}

fn compare(calls: u64, seed: u64) -> ExitCode {
    let outcome = run(Options {
        calls,
        seed,
        watch: false,
        first_only: false,
    });
    for mismatch in &outcome.shown {
        println!("{mismatch}");
    }
    print!("{}", outcome.tally.table());
    let mismatches = outcome.tally.mismatches();
    println!("{} calls, {mismatches} mismatches", outcome.tally.calls());
    ExitCode::from((mismatches > 0) as u8)
}

fn distribution(calls: u64, seed: u64) -> ExitCode {
    let outcome = run(Options {
        calls,
        seed,
        watch: true,
        first_only: false,
    });
    print!("{}", outcome.tally.distribution());
    ExitCode::from((outcome.tally.mismatches() > 0) as u8)
}

fn replay(file: &str) -> ExitCode {
    let text = match std::fs::read_to_string(file) {
        Ok(text) => text,
        Err(error) => {
            eprintln!("{file}: {error}");
            return ExitCode::from(2);
        }
    };
    let trace = match show::parse(&text) {
        Ok(trace) => trace,
        Err(error) => {
            eprintln!("{file}: {error}");
            return ExitCode::from(2);
        }
    };
    let mut print = |both: &BothSides, call: &Words| match trace.kind {
        Kind::Peers => println!("{}", show::output_line(call, both.answer(), both.state())),
        Kind::Inputs => print!("{}", both.output()),
        _ => println!("{}", both.answer()),
    };
    let difference = compare::replay_and_watch(&mut UnchangedRust::default(), &PORT, &trace, &mut print);
    if let Some(difference) = &difference {
        println!("call {}: {}", difference.at + 1, difference.what);
    }
    let mismatches = difference.is_some() as u8;
    println!("{} calls, {mismatches} mismatches", trace.calls.len());
    ExitCode::from(mismatches)
}

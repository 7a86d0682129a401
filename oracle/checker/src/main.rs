//! checker PART CALLS SEED: the comparison of one part (gossip, rest) up to the first mismatch, as the self-test runs it on each edited
//! copy of the Rust.
//! A crate of its own, so that an edited copy is built in a second or two.

use checks::compare::{self, Options, Part};
use original::UnchangedRust;
use port::Proved;
use std::process::ExitCode;

fn main() -> ExitCode {
    let words: Vec<String> = std::env::args().skip(1).collect();
    let Some((part, calls, seed)) = read(&words) else {
        eprintln!("usage: checker gossip|rest CALLS SEED");
        return ExitCode::from(2);
    };
    let options = Options {
        calls,
        seed,
        watch: false,
        first_only: true,
    };
    let outcome = compare::run_part(part, &mut UnchangedRust::default(), &Proved, &options);
    for mismatch in &outcome.shown {
        println!("after {} calls: {mismatch}", outcome.tally.calls());
    }
    ExitCode::from((outcome.tally.mismatches() > 0) as u8)
}

fn read(words: &[String]) -> Option<(Part, u64, u64)> {
    let [part, calls, seed] = words else { return None };
    let part = match part.as_str() {
        "gossip" => Part::Gossip,
        "rest" => Part::Rest,
        _ => return None,
    };
    Some((part, calls.parse().ok()?, seed.parse().ok()?))
}

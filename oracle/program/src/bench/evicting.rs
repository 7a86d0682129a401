//! New peers over a full table: each admit drops a row to make its own.

use super::sides;
use super::trace::{Maker, Trace, EVERY_5_MILLISECONDS, FULL};
use vocabulary::Port;

const EVENTS: usize = 10_000;

pub fn run<P: Port>(port: &P) {
    println!("{EVENTS} admits, each of a new peer and with a full table, so that each evicts");
    let mut maker = Maker::new(EVERY_5_MILLISECONDS);
    let (known, new) = (maker.keys(FULL), maker.keys(EVENTS));
    let trace = Trace {
        opening: maker.of_each(&known),
        events: maker.of_each(&new),
        rows: FULL,
    };
    println!("{FULL:>5} rows: {}", sides::time(port, &trace));
}

//! How an admit's time grows with the rows.
//!
//! One event every 5 ms, however many peers there are: that is as fast as a single peer gets its messages back, so that all are Allows.

use super::sides::{self, Times};
use super::trace::{Trace, EVERY_5_MILLISECONDS, FULL};
use vocabulary::Port;

const ROWS: [usize; 6] = [1, 4, 16, 64, 256, FULL];
const EVENTS: usize = 20_000;

pub struct Point {
    pub rows: usize,
    pub times: Times,
}

/// Prints a line for each number of rows, and gives all of them.
pub fn run<P: Port>(port: &P) -> Vec<Point> {
    println!("{EVENTS} admits of known peers for each number of rows, one every 5 ms; ns an event");
    println!("{:>5} {:>9} {:>9} {:>7}", "rows", "Rust", "port", "ratio");
    let point = |rows| {
        let trace = Trace::of_known(rows, EVENTS, EVERY_5_MILLISECONDS);
        let times = sides::time(port, &trace);
        println!(
            "{rows:>5} {:>9.1} {:>9.1} {:>7.2}",
            times.rust,
            times.port,
            times.ratio()
        );
        Point { rows, times }
    };
    ROWS.map(point).into()
}

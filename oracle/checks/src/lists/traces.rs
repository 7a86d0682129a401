//! The list of traces: whole inputs of the trace program, answered by the unchanged Rust as docs/REFERENCE.md says.
//!
//! Input: for each trace its length as a little-endian word, then its bytes. Output: `trace K`, then the trace's output.

use super::List;
use crate::dice::Dice;
use crate::inputs::damage::{damaged, SORTS};
use crate::inputs::made::made;
use crate::inputs::traced::traced;
use crate::inputs::{lengthened, LONGEST};
use vocabulary::Original;

const SEED: u64 = 20_261_116;
const MADE: usize = 40;
const MADE_EVENTS: u64 = 60;
const DAMAGED_EVENTS: u64 = 6;
const OF_EACH_SORT: usize = 6;

/// The sample of docs/REFERENCE.md's trace program, then its corner cases.
const CORNERS: &[&str] = &[
    "10 2 0 0 2 100 2 4 1000\na 02 300 50\na 02 300 50\na 02 1 50\na 02 1 55\na 02 1 155\nr 300\n",
    "",
    "\n",
    "10 2 0 0 2 100 2 4 1000\n",
    "10 2 0 0 2 100 2 4 1000",
    "10 2 0 0 2 100 2 4 1000\na 02 300 50",
    "10 2 0 0 2 100 2 4 1000\na 02 300 50\nr 300",
    "10 2 0 0 2 100 2 4 1000\n\na 02 300 50\n",
    "10 2 0 0 2 100 2 4\n",
    "10 2 0 0 2 100 2 4 1000 1\n",
    "10 2 0 0 2 100 2 4 01000\n",
    "10 2 0 0 2 100 2 4 +1000\n",
    " 10 2 0 0 2 100 2 4 1000\n",
    "10 2 0 0 2 100 2 4 1000 \n",
    "10  2 0 0 2 100 2 4 1000\n",
    "10 2 0 0 2 100 2 4 1000\r\n",
    "10 4294967295 0 0 4294967295 100 2 4294967295 1000\na 02 1 1\n",
    "10 4294967296 0 0 2 100 2 4 1000\n",
    "10 2 0 0 4294967296 100 2 4 1000\n",
    "10 2 0 0 2 100 2 4294967296 1000\n",
    "18446744073709551615 2 0 0 2 100 2 4 1000\na 02 1 1\n",
    "18446744073709551616 2 0 0 2 100 2 4 1000\n",
    "10 2 0 0 2 100 0 4 1000\na 02 1 1\na 03 1 1\nb 02 1\nb 03 1\n",
    "10 2 0 0 2 100 256 4 1000\na 02 1 1\n",
    "10 2 0 0 2 100 257 4 1000\na 02 1 1\n",
    "10 2 0 0 2 100 1024 4 1000\nno event\n",
    "10 2 0 0 2 100 1025 4 1000\na 02 1 1\n",
    "10 2 0 0 2 100 18446744073709551615 4 1000\na 02 1 1\n",
    "10 2 0 0 2 100 2 4 1000\na 02 300 00\n",
    "10 2 0 0 2 100 2 4 1000\na 02 0 0\na 2 0 0\n",
    "10 2 0 0 2 100 2 4 1000\na 0g 0 0\n",
    "10 2 0 0 2 100 2 4 1000\na 0A 0 0\n",
    "10 2 0 0 2 100 2 4 1000\na 0a 0 0\na 0a0 0 0\n",
    "10 2 0 0 2 100 2 4 1000\na 0a0a 0 0\n",
    "10 2 0 0 2 100 2 4 1000\nx 02 0 0\n",
    "10 2 0 0 2 100 2 4 1000\nA 02 0 0\n",
    "10 2 0 0 2 100 2 4 1000\nad 02 0 0\n",
    "10 2 0 0 2 100 2 4 1000\na\t02 0 0\n",
    "10 2 0 0 2 100 2 4 1000\na 02 0 0 \n",
    "10 2 0 0 2 100 2 4 1000\na 02 0\n",
    "10 2 0 0 2 100 2 4 1000\ni 02 0 0\n",
    "10 2 0 0 2 100 2 4 1000\nr 02 0\n",
    "10 2 0 0 2 100 2 4 1000\nr\n",
    "10 2 0 0 2 100 2 4 1000\nr 0\nr 18446744073709551615\nr 18446744073709551616\n",
    "10 2 0 0 2 100 2 4 1000\na 02 18446744073709551615 18446744073709551615\n",
    "10 2 0 0 2 100 2 4 1000\na 02 18446744073709551616 0\n",
    "10 2 0 0 2 100 2 0 0\na 02 18446744073709551615 5\na 03 0 5\na 02 1 5\nr 1\n",
    "10 2 0 0 1 100 2 4 1000\ni 02 5\nb 02 104\ni 02 104\na 02 1 104\nd 02 104\nb 02 105\nb 02 105\n",
    "10 2 0 0 2 100 2 4 1000\ni 02 5\nd 02 50\nd 03 50\nd 02 105\ni 02 105\ni 02 106\n",
    "10 2 0 0 0 100 3 4 1000\na 02 1 5\na 03 1 4\na 04 1 4\na 05 1 6\nb 02 6\nb 03 6\na 03 1 7\n",
    "10 2 0 0 2 100 2 2 1000\na 02 1 50\na 02 1 50\na 03 1 50\na 02 1 40\nr 1\na 02 1 30\n",
    include_str!("../../../../traces/clock-steps-back.txt"),
    include_str!("../../../../traces/clock-held.txt"),
];

pub fn record(original: &mut dyn Original) -> List {
    let mut list = List::new();
    for corner in CORNERS {
        add(&mut list, original, corner.as_bytes());
    }
    let mut dice = Dice::new(SEED);
    for _ in 0..MADE {
        let input = made(original, &mut dice, MADE_EVENTS);
        add(&mut list, original, &input);
    }
    for sort in 1..SORTS.len() - 1 {
        for _ in 0..OF_EACH_SORT {
            let input = made(original, &mut dice, DAMAGED_EVENTS);
            let input = damaged(&mut dice, sort, input);
            add(&mut list, original, &input);
        }
    }
    for length in [LONGEST, LONGEST + 1] {
        let input = lengthened(CORNERS[0].as_bytes().to_vec(), length);
        add(&mut list, original, &input);
    }
    list
}

fn add(list: &mut List, original: &mut dyn Original, input: &[u8]) {
    list.input.extend_from_slice(&(input.len() as u64).to_le_bytes());
    list.input.extend_from_slice(input);
    list.records += 1;
    list.output += &format!("trace {}\n{}", list.records, traced(original, input));
}

//! Whole inputs of the trace program: a good one, then damaged. One call is one input; its operation is the sort of damage.

use crate::dice::Dice;
use crate::inputs::damage::{damaged, SORTS};
use crate::inputs::made::made;
use crate::trace::{Input, Kind, Trace};
use vocabulary::{Original, Words};

const MOST_EVENTS: u64 = 60;

/// The last sort, the one that makes an input long: one input in so many.
const TOO_LONG: usize = SORTS.len() - 1;
const ONE_LONG_IN: u64 = 100;

pub fn begin(dice: &mut Dice, original: &mut dyn Original) -> Trace {
    let sort = match dice.below(ONE_LONG_IN) {
        0 => TOO_LONG,
        _ => dice.below(TOO_LONG as u64) as usize,
    };
    let good = made(original, dice, MOST_EVENTS);
    let mut trace = Trace::of_calls(Kind::Inputs, Vec::new());
    trace.input = Input {
        sort: sort as u64,
        bytes: damaged(dice, sort, good),
    };
    trace
}

pub fn call(input: &Input) -> Words {
    [input.sort, 0, 0, 0, 0, 0, 0, 0]
}

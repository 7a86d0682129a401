//! Inputs of the trace program with one thing wrong.

use super::{lengthened, LONGEST};
use crate::dice::Dice;

/// What is done to a good input; the first leaves it as it is. Another sort is a name here and an arm in `damaged`.
pub const SORTS: [&str; 16] = [
    "whole",
    "last newline missing",
    "cut anywhere",
    "two blanks",
    "a tab for a blank",
    "a blank before the newline",
    "a blank before the letter",
    "a carriage return",
    "an extra zero",
    "upper case",
    "a field more",
    "a field fewer",
    "a number too wide",
    "an empty line",
    "any byte",
    "too long",
];

/// The input with this sort of damage, at a place that the dice choose. Some damage may leave a good input.
pub fn damaged(dice: &mut Dice, sort: usize, mut input: Vec<u8>) -> Vec<u8> {
    let blank = place(dice, &input, |byte| byte == b' ');
    let newline = place(dice, &input, |byte| byte == b'\n');
    match SORTS[sort] {
        "whole" => {}
        "last newline missing" => {
            input.pop();
        }
        "cut anywhere" => {
            let length = dice.below(input.len() as u64 + 1);
            input.truncate(length as usize);
        }
        "two blanks" => insert(&mut input, blank, b" "),
        "a tab for a blank" => replace(&mut input, blank, |_| b'\t'),
        "a blank before the newline" => insert(&mut input, newline, b" "),
        "a blank before the letter" => insert(&mut input, newline.map(|place| place + 1), b" "),
        "a carriage return" => insert(&mut input, newline, b"\r"),
        "an extra zero" => insert(&mut input, blank.map(|place| place + 1), b"0"),
        "upper case" => {
            let letter = place(dice, &input, |byte| byte.is_ascii_lowercase());
            replace(&mut input, letter, |byte| byte.to_ascii_uppercase());
        }
        "a field more" => insert(&mut input, newline, b" 1"),
        "a field fewer" => {
            let field = blank.map(|place| place..end_of_field(&input, place + 1));
            input.drain(field.unwrap_or(0..0));
        }
        "a number too wide" => {
            if let Some(end) = newline {
                let before = input[..end].iter().rposition(|byte| *byte == b' ' || *byte == b'\n');
                let field = before.map_or(0, |place| place + 1)..end;
                input.splice(field, dice.pick(&WIDE).bytes());
            }
        }
        "an empty line" => insert(&mut input, newline, b"\n"),
        "any byte" => {
            let any = place(dice, &input, |_| true);
            let byte = dice.roll() as u8;
            replace(&mut input, any, |_| byte);
        }
        _ => input = lengthened(input, LONGEST + dice.below(2) as usize),
    }
    input
}

/// At and beyond what a field holds.
const WIDE: [&str; 4] = [
    "4294967296",
    "18446744073709551615",
    "18446744073709551616",
    "99999999999999999999999",
];

fn place(dice: &mut Dice, input: &[u8], wanted: fn(u8) -> bool) -> Option<usize> {
    let places: Vec<usize> = (0..input.len()).filter(|place| wanted(input[*place])).collect();
    (!places.is_empty()).then(|| dice.pick(&places))
}

fn insert(input: &mut Vec<u8>, place: Option<usize>, bytes: &[u8]) {
    if let Some(place) = place {
        input.splice(place..place, bytes.iter().copied());
    }
}

fn replace(input: &mut [u8], place: Option<usize>, with: impl Fn(u8) -> u8) {
    if let Some(place) = place {
        input[place] = with(input[place]);
    }
}

fn end_of_field(input: &[u8], from: usize) -> usize {
    let length = input[from..].iter().position(|byte| matches!(byte, b' ' | b'\n'));
    length.map_or(input.len(), |length| from + length)
}

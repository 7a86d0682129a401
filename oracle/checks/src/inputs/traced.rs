//! The trace program as docs/REFERENCE.md describes it, over the unchanged Rust.

use super::{LONGEST, ROWS};
use crate::both_sides::meets_refusal_4;
use crate::show;
use vocabulary::peer::*;
use vocabulary::{answer, Answer, Original, Words};

/// The whole output for an input.
pub fn traced(original: &mut dyn Original, input: &[u8]) -> String {
    let mut output = String::new();
    if let Some(last) = answer_lines(original, input, &mut output) {
        output += &last;
        output += "\n";
    }
    output
}

/// How an output ends: done with every line, a refusal, or no at a bad line.
pub fn ending(output: &str) -> Answer {
    let last = output.lines().next_back().unwrap_or("");
    match last.split_once(' ') {
        Some(("bad", _)) => Answer::yes_or_no(false),
        Some(("refusal", number)) => Answer::plain(number.parse().expect("a refusal's number")),
        _ => Answer::done(),
    }
}

/// Writes a line for each event; answers the line at which the scan was left, if it was.
fn answer_lines(original: &mut dyn Original, input: &[u8], output: &mut String) -> Option<String> {
    let bad = |number: usize| Some(format!("bad line {number}"));
    let mut lines = input.split_inclusive(|byte| *byte == b'\n');
    if input.len() > LONGEST {
        return bad(1);
    }
    let Some(settings) = lines.next().and_then(fields).and_then(|fields| settings(&fields)) else {
        return bad(1);
    };
    if settings.max_tracked > 1_024 {
        return Some("refusal 2".into());
    }
    if settings.row_limit() > ROWS {
        return Some("refusal 1".into());
    }
    let mut state = PeerState::fresh(settings);
    original.set_peers(&state);
    for (number, line) in (2..).zip(lines) {
        let Some((call, words)) = fields(line).and_then(|fields| event(&fields)) else {
            return bad(number);
        };
        let answer = answered(original, &state, &call);
        if answer.is_refusal() {
            return Some(answer.text());
        }
        original.read_peers(&mut state);
        *output += &show::output_line(&words, &answer, &state);
        *output += "\n";
    }
    None
}

/// Refusal 4 stands where the Rust's sums wrap.
fn answered(original: &mut dyn Original, before: &PeerState, call: &PeerCall) -> Answer {
    let answer = original.peers(call);
    if answer.number == answer::ALLOW && meets_refusal_4(before, call.bytes) {
        return Answer::plain(4);
    }
    answer
}

/// What stands between single blanks, if the line has its newline.
fn fields(line: &[u8]) -> Option<Vec<&str>> {
    let text = std::str::from_utf8(line).ok()?.strip_suffix('\n')?;
    Some(text.split(' ').collect())
}

/// A decimal without extra zeros or a sign.
fn number(field: &str) -> Option<u64> {
    let number: u64 = field.parse().ok()?;
    (number.to_string() == field).then_some(number)
}

fn settings(fields: &[&str]) -> Option<Settings> {
    let numbers: Vec<u64> = fields.iter().map(|field| number(field)).collect::<Option<_>>()?;
    if numbers.len() != 9 {
        return None;
    }
    Settings::from_words(&numbers)
}

/// 66 lower-case hex digits, or 2 for 33 equal bytes.
fn key(field: &str) -> Option<Key> {
    let is_digit = |byte: u8| matches!(byte, b'0'..=b'9' | b'a'..=b'f');
    if !field.bytes().all(is_digit) {
        return None;
    }
    let spelled = match field.len() {
        2 => field.repeat(33),
        66 => field.to_string(),
        _ => return None,
    };
    let byte = |at: usize| u8::from_str_radix(&spelled[2 * at..2 * at + 2], 16).ok();
    let bytes: Vec<u8> = (0..33).map(byte).collect::<Option<_>>()?;
    bytes.try_into().ok()
}

fn event(fields: &[&str]) -> Option<(PeerCall, Words)> {
    let (letter, rest) = fields.split_first()?;
    let (place, operation) = PeerOperation::ALL[..5]
        .iter()
        .enumerate()
        .find(|(_, known)| known.letter().to_string() == *letter)?;
    let mut rest = rest.iter();
    let mut call = PeerCall {
        operation: *operation,
        key: [0; 33],
        bytes: 0,
        now: 0,
    };
    if operation.uses_key() {
        call.key = key(rest.next()?)?;
    }
    if operation.uses_bytes() {
        call.bytes = number(rest.next()?)?;
    }
    if operation.uses_key() {
        call.now = number(rest.next()?)?;
    }
    let words = [place as u64, 0, call.bytes, call.now, 0, 0, 0, 0];
    rest.next().is_none().then_some((call, words))
}

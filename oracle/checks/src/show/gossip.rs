//! A trace on the gossip policy as text and back. Behind the kind's name: `W` and the ten longs, `S` and the six shorts (the words as
//! they cross the C boundary, but for the counts of rows), `L SPARE SPARE FILLER` (the lent tables), `K KEY` for each key in 66 or 140
//! digits (or 2 where all bytes are equal), and `R TABLE PLACE` with a row's four numbers, the place being that of its key. Then each
//! call as its eight words: the operation's place, the key's place, the violation (or side), bytes, now, and numbers that choose what
//! a making call doesn't read.

use super::{exactly, numbers};
use crate::trace::Trace;
use vocabulary::{GossipRow, LongKey, Shape, Subject};

pub fn row(shape: &Shape, row: &GossipRow) -> String {
    format!(
        "{} {}",
        hex(&row.key[..shape.key]),
        numbers(&row.numbers[..shape.numbers])
    )
}

fn hex(key: &[u8]) -> String {
    if key.iter().all(|byte| *byte == key[0]) {
        return format!("{:02x}", key[0]);
    }
    key.iter().map(|byte| format!("{byte:02x}")).collect()
}

fn key_bytes(subject: Subject) -> usize {
    subject.shapes()[0].key
}

pub fn start(trace: &Trace, subject: Subject) -> String {
    let start = &trace.gossip;
    let mut text = format!("W {}\nS {}\n", numbers(&start.longs), numbers(&start.shorts));
    if start.spare != [0, 0] || start.filler != 0 {
        text += &format!("L {} {}\n", numbers(&start.spare), start.filler);
    }
    for key in &start.keys {
        text += &format!("K {}\n", hex(&key[..key_bytes(subject)]));
    }
    for (table, rows) in start.rows.iter().enumerate() {
        for (place, row) in rows {
            text += &format!("R {table} {place} {}\n", numbers(row));
        }
    }
    text
}

/// Reads a line of the above.
pub fn read_line(trace: &mut Trace, subject: Subject, words: &[&str]) -> Option<()> {
    let start = &mut trace.gossip;
    match words[0] {
        "W" => start.longs = exactly(&words[1..])?,
        "S" => start.shorts = exactly(&words[1..])?,
        "L" => [start.spare[0], start.spare[1], start.filler] = exactly(&words[1..])?,
        "K" => start.keys.push(read_key(words.get(1)?, key_bytes(subject))?),
        "R" => {
            let [table, place, numbers @ ..]: [u64; 6] = exactly(&words[1..])?;
            start.rows.get_mut(table as usize)?.push((place as usize, numbers));
        }
        _ => trace.calls.push(exactly(words.get(..8)?)?),
    }
    Some(())
}

fn read_key(digits: &str, bytes: usize) -> Option<LongKey> {
    let byte = |at: usize| u8::from_str_radix(digits.get(at..at + 2)?, 16).ok();
    let mut key = [0; 70];
    for (at, place) in key[..bytes].iter_mut().enumerate() {
        *place = byte(if digits.len() == 2 { 0 } else { 2 * at })?;
    }
    (digits.len() == 2 || digits.len() == 2 * bytes).then_some(key)
}

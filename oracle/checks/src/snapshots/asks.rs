//! A port's snapshots, tried one by one: what a function may write to holds anything before, and every bit of it is compared after.

use super::{form, left};
use crate::both_sides::{filled, same_answer};
use crate::dice::Dice;
use crate::show;
use vocabulary::peer::*;
use vocabulary::{answer, Answer, Snapshots};

/// A record that holds anything.
pub fn any_record(filler: u64) -> Record {
    let mut dice = Dice::new(filler);
    Record {
        longs: std::array::from_fn(|_| dice.roll()),
        shorts: std::array::from_fn(|_| dice.roll() as u32),
    }
}

fn any_numbers<const N: usize>(filler: u64) -> [u64; N] {
    let mut dice = Dice::new(filler);
    std::array::from_fn(|_| dice.roll())
}

fn same_number(expected: u32, found: u32) -> Result<(), String> {
    same_answer(Answer::plain(expected), Answer::plain(found))
}

fn same_bytes(what: &str, expected: &[u8], found: &[u8]) -> Result<(), String> {
    let mut bytes = expected.iter().zip(found);
    match bytes.position(|(a, b)| a != b) {
        None => Ok(()),
        Some(at) => Err(format!(
            "{what} byte {at}: {} expected, {} found",
            expected[at], found[at]
        )),
    }
}

fn same_numbers(what: &str, expected: &[u64], found: &[u64]) -> Result<(), String> {
    if expected == found {
        return Ok(());
    }
    let (expected, found) = (show::numbers(expected), show::numbers(found));
    Err(format!("{what}: {expected} expected, {found} found"))
}

/// Writes a policy to the output: the snapshot is expected, or a refusal.
pub fn write(
    port: &dyn Snapshots,
    (record, table): (&Record, &[u8]),
    mut output: Vec<u8>,
    expected: Result<&[u8], u32>,
) -> Result<(), String> {
    let mut length = output.len() as u64 + 7;
    let (mut output_found, mut length_found) = (output.clone(), length);
    let found = port.write(record, table, &mut output_found, &mut length_found);
    same_number(left::by_write(expected, &mut output, &mut length), found)?;
    same_numbers("length", &[length], &[length_found])?;
    same_bytes("output", &output, &output_found)
}

/// Reads bytes into a record and a table: a state is expected, or a refusal.
pub fn read(
    port: &dyn Snapshots,
    (record, table): (&mut Record, &mut [u8]),
    snapshot: &[u8],
    expected: &Result<PeerState, u32>,
) -> Result<(), String> {
    let (mut expected_record, mut expected_table) = (*record, table.to_vec());
    let found = port.read(record, snapshot, table);
    let number = left::by_read(expected, &mut expected_record, &mut expected_table);
    same_number(number, found)?;
    if *record != expected_record {
        return Err(format!("record: {expected_record:?} expected, {record:?} found"));
    }
    same_bytes("table", &expected_table, table)
}

/// Asks where the part of a kind stands.
pub fn place(port: &dyn Snapshots, snapshot: &[u8], kind: u32, filler: u64) -> Result<(), String> {
    let mut place = any_numbers(filler);
    let mut place_found = place;
    let found = port.place(snapshot, kind, &mut place_found);
    let number = left::by_place(form::place_of(snapshot, kind), &mut place);
    same_number(number, found).map_err(|what| format!("kind {kind}: {what}"))?;
    same_numbers(&format!("place of kind {kind}"), &place, &place_found)
}

/// Asks for the row at a place.
pub fn row(port: &dyn Snapshots, snapshot: &[u8], at: u64, filler: u64) -> Result<(), String> {
    let mut key: Key = filled(33, filler | 1).try_into().unwrap();
    let mut numbers = any_numbers(filler);
    let (mut key_found, mut numbers_found) = (key, numbers);
    let found = port.row(snapshot, at, &mut key_found, &mut numbers_found);
    let number = left::by_row(form::row_at(snapshot, at), &mut key, &mut numbers);
    same_number(number, found).map_err(|what| format!("row at {at}: {what}"))?;
    same_bytes(&format!("key at {at}"), &key, &key_found)?;
    same_numbers(&format!("row at {at}"), &numbers, &numbers_found)
}

/// Walks from where part 3 begins, each step from the place that the one before it left, to the end: these rows are expected.
pub fn walk(port: &dyn Snapshots, snapshot: &[u8], rows: &[Row]) -> Result<(), String> {
    let mut part = [0; 2];
    same_number(answer::DONE, port.place(snapshot, 3, &mut part))?;
    let (mut key, mut numbers) = ([0; 33], [part[0]; 12]);
    for row in rows {
        let found = port.row(snapshot, numbers[11], &mut key, &mut numbers);
        same_number(answer::DONE, found)?;
        same_bytes("key", &row.key, &key)?;
        same_numbers("row", &row.numbers, &numbers[..11])?;
    }
    let found = port.row(snapshot, numbers[11], &mut key, &mut numbers);
    same_number(answer::NO, found)
}

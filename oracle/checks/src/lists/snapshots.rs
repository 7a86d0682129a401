//! The list of snapshots: states of the unchanged Rust as snapshots, good and damaged, each given to all four C functions.
//!
//! A record is eight little-endian u64 (0, the snapshot's length, how many bytes of table and of output are lent, a kind, a place, a seed, 0)
//! and the snapshot's bytes. Before the calls the table and then the output are filled from the seed, as in the list of gossip; then every word
//! that a function may leave becomes the seed, every short and byte of them 9. The snapshot is read; what the words and the table then hold
//! is written to the output; the kind and the row at the place are asked for. The line is `READ WRITE PLACE ROW CHECKSUM`: the four answers,
//! and a checksum of all that is lent: longs, shorts, table, length, output, the kind's place, key, numbers.
//!
//! A seed is a limit above 1,024, so that words which reading leaves as they are can't be written: refusal 3.

use super::checksum::{made_up, with_bytes, with_shorts, with_words};
use super::List;
use crate::calls::peers::begin;
use crate::calls::snapshots::{next_damage, next_kind, next_place};
use crate::dice::Dice;
use crate::snapshots::damage::{harmed, READING};
use crate::snapshots::{form, left};
use vocabulary::layout::ROW;
use vocabulary::peer::*;
use vocabulary::{Original, PeerCall, PeerOperation};

const SEED: u64 = 20_261_117;
/// Rows of the largest table.
const MOST_ROWS: u64 = 5;
/// Calls before a state is written down.
const MOST_CALLS: u64 = 12;
/// Whole snapshots at first, then so many of each sort of damage, without and with a second one.
const WHOLE: usize = 100;
const OF_EACH_SORT: usize = 6;
const WITH_A_SECOND: usize = 3;

pub fn record(original: &mut dyn Original) -> List {
    let mut list = List::new();
    let mut dice = Dice::new(SEED);
    for _ in 0..WHOLE {
        let state = next_state(&mut dice, original);
        let table = ROW * state.settings.row_limit() as usize + dice.below(100) as usize;
        add(&mut list, &mut dice, &form::written(&state), table);
    }
    for sort in 0..READING {
        let mut added = 0;
        while added < OF_EACH_SORT + WITH_A_SECOND {
            let mut words = next_damage(&mut dice);
            words[0] = sort;
            words[4] = match added {
                0..OF_EACH_SORT => 0,
                _ => 1 + dice.below(READING),
            };
            let state = next_state(&mut dice, original);
            if let Some(harmed) = harmed(&words, &state) {
                add(&mut list, &mut dice, &harmed.snapshot, harmed.table);
                added += 1;
            }
        }
    }
    list
}

/// A small state that the Rust comes to by some calls.
fn next_state(dice: &mut Dice, original: &mut dyn Original) -> PeerState {
    let (trace, _, mut plan) = begin(dice);
    let Some(mut state) = trace
        .peer_state()
        .filter(|state| state.settings.max_tracked <= MOST_ROWS)
    else {
        return next_state(dice, original);
    };
    original.set_peers(&state);
    for _ in 0..dice.below(MOST_CALLS) {
        let words = plan.next(dice, &state, &trace.keys);
        original.peers(&PeerCall {
            operation: PeerOperation::ALL[words[0] as usize],
            key: trace.keys[words[1] as usize],
            bytes: words[2],
            now: words[3],
        });
        original.read_peers(&mut state);
    }
    state
}

/// What the replaying program holds, before and after its four calls.
struct Held {
    record: Record,
    table: Vec<u8>,
    length: u64,
    output: Vec<u8>,
    place: [u64; 2],
    key: Key,
    numbers: [u64; 12],
}

impl Held {
    fn before(table: usize, output: usize, seed: u64) -> Self {
        let mut next = seed;
        Self {
            record: Record {
                longs: [seed; 8],
                shorts: [9; 4],
            },
            table: made_up(table, &mut next),
            length: seed,
            output: made_up(output, &mut next),
            place: [seed; 2],
            key: [9; 33],
            numbers: [seed; 12],
        }
    }

    fn checksum(&self) -> u64 {
        let Record { longs, shorts } = &self.record;
        let sum = with_bytes(with_shorts(with_words(0, longs), shorts), &self.table);
        let sum = with_bytes(with_words(sum, &[self.length]), &self.output);
        let sum = with_bytes(with_words(sum, &self.place), &self.key);
        with_words(sum, &self.numbers)
    }
}

fn add(list: &mut List, dice: &mut Dice, snapshot: &[u8], table: usize) {
    let spare = dice.pick(&[0, 0, 1, 33]);
    let output = match dice.below(5) {
        0 => snapshot.len().saturating_sub(1),
        _ => snapshot.len() + spare,
    };
    let rows = snapshot.len().saturating_sub(form::ROWS_AT) / ROW;
    let (kind, at) = (next_kind(dice), next_place(dice, rows as u64));
    let seed = 1 << 40 | dice.below(1 << 40);
    let line = answered(snapshot, &mut Held::before(table, output, seed), kind as u32, at);
    let words = [0, snapshot.len() as u64, table as u64, output as u64, kind, at, seed, 0];
    list.add(&words, &line);
    list.input.extend_from_slice(snapshot);
}

/// The line of the four calls.
fn answered(snapshot: &[u8], held: &mut Held, kind: u32, at: u64) -> String {
    let described = form::read(snapshot, held.table.len());
    let read = left::by_read(&described, &mut held.record, &mut held.table);
    let written = match described {
        Ok(_) if held.output.len() < snapshot.len() => Err(form::TOO_SHORT),
        Ok(_) => Ok(snapshot),
        Err(_) => Err(form::UNSOUND),
    };
    let write = left::by_write(written, &mut held.output, &mut held.length);
    let place = left::by_place(form::place_of(snapshot, kind), &mut held.place);
    let row = left::by_row(form::row_at(snapshot, at), &mut held.key, &mut held.numbers);
    format!("{read} {write} {place} {row} {}", held.checksum())
}

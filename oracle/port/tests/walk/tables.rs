//! Tables to walk: sound ones that stand at the edge of every rule, and the same with one thing wrong.

use checks::damage::{damage_peers, Damage, PEER_DAMAGE};
use checks::dice::Dice;
use vocabulary::layout::{self, ROW};
use vocabulary::peer::{BAN_END, BAN_MARK, BYTES, INVALID_COUNT, LAST_USED, MESSAGES, RATE_COUNT};
use vocabulary::{Key, PeerState, Record, Row, Settings};

/// A table in which a walk can go wrong, and keys to look for in it.
pub struct Case {
    /// Sound, any number, or a damage's name.
    pub what: &'static str,
    pub record: Record,
    pub table: Vec<u8>,
    pub sought: Vec<Key>,
}

pub const SOUND: &str = "sound";
/// Which may leave it sound.
pub const ANY_NUMBER: &str = "any number";

/// The most rows of a table.
const FULL: u64 = 1_024;
/// The numbers of rows: small tables, and large ones with room and without.
const SMALL: std::ops::RangeInclusive<u64> = 0..=40;
const LARGE: [u64; 3] = [1_000, FULL - 1, FULL];

/// Every number of rows: sound, with each damage, and with any number anywhere.
pub fn cases() -> Vec<Case> {
    let mut dice = Dice::new(1);
    let mut cases = Vec::new();
    for rows in SMALL.chain(SMALL).chain(SMALL).chain(LARGE) {
        let state = sound(&mut dice, rows);
        cases.push(Case::of(&mut dice, &state, SOUND));
        cases.extend((0..PEER_DAMAGE.len()).filter_map(|way| damaged(&mut dice, &state, way)));
        cases.extend((0..4).filter_map(|_| with_any_number(&mut dice, &state)));
    }
    cases
}

/// Bursts of 0 and at the widest are sound too.
fn settings(dice: &mut Dice, rows: u64) -> Settings {
    Settings {
        interval: 5,
        burst: dice.pick(&[0, 1, 400, u32::MAX]),
        rate: 1_000,
        burst_bytes: dice.pick(&[0, 1, 4_194_304, u64::from(u32::MAX) + 1, u64::MAX]),
        threshold: 20,
        ban_duration: 600_000,
        max_tracked: FULL.min(rows + 1),
        max_messages: 0,
        max_bytes: 0,
    }
}

/// A last-used time is the row's place and 1, so that it tells which row was found.
fn sound(dice: &mut Dice, rows: u64) -> PeerState {
    let settings = settings(dice, rows);
    let keys = keys(dice, rows as usize);
    let row = |(key, last_used)| Row {
        key,
        numbers: numbers(dice, &settings, last_used),
    };
    PeerState {
        rows: keys.into_iter().zip(1..).map(row).collect(),
        ..PeerState::fresh(settings)
    }
}

/// Often just within the rules.
fn numbers(dice: &mut Dice, settings: &Settings, last_used: u64) -> [u64; 11] {
    let most_or_less = |dice: &mut Dice, most: u64| match dice.chance(40) {
        true => most,
        false => dice.between(0, most),
    };
    let mut numbers: [u64; 11] = std::array::from_fn(|_| dice.any_width());
    numbers[MESSAGES] = most_or_less(dice, settings.burst.into());
    numbers[BYTES] = most_or_less(dice, settings.burst_bytes);
    numbers[RATE_COUNT] = most_or_less(dice, u32::MAX.into());
    numbers[INVALID_COUNT] = most_or_less(dice, u32::MAX.into());
    numbers[BAN_MARK] = dice.below(2);
    numbers[BAN_END] *= numbers[BAN_MARK];
    numbers[LAST_USED] = last_used;
    numbers
}

/// Ascending; few fronts, and many that differ from another in the last byte alone.
fn keys(dice: &mut Dice, count: usize) -> Vec<Key> {
    let mut keys = std::collections::BTreeSet::new();
    while keys.len() < count {
        let mut key = [dice.pick(&[0, 1, 128, 255]); 33];
        key[dice.below(33) as usize] = dice.roll() as u8;
        key[32] = dice.roll() as u8;
        keys.insert(key);
    }
    keys.into_iter().collect()
}

impl Case {
    fn of(dice: &mut Dice, state: &PeerState, what: &'static str) -> Self {
        let mut table = vec![0; ROW * state.settings.max_tracked as usize];
        layout::lay(&mut table, 0, state);
        Self {
            what,
            record: Record::of(state),
            table,
            sought: sought(dice, &state.rows),
        }
    }
}

/// Nothing where the damage is not to the rows, or this state can't be damaged so.
fn damaged(dice: &mut Dice, state: &PeerState, way: usize) -> Option<Case> {
    let mut case = Case::of(dice, state, PEER_DAMAGE[way]);
    let length = case.table.len();
    let words = [way as u64, 0, 0, 0, 0, dice.roll(), 0, 0];
    let damage = damage_peers(&words, state, &mut case.record, &mut case.table)?;
    (matches!(damage, Damage::Table) && case.table.len() == length).then_some(case)
}

/// At or near the edge of some rule, but never in a last-used time, which tells rows apart.
fn with_any_number(dice: &mut Dice, state: &PeerState) -> Option<Case> {
    let mut case = Case::of(dice, state, ANY_NUMBER);
    let (burst, burst_bytes) = (state.settings.burst.into(), state.settings.burst_bytes);
    let edge = dice.pick(&[0, 1, 2, burst, burst_bytes, u32::MAX.into(), u64::MAX]);
    let mut row = *any(dice, &state.rows)?;
    let at = ROW * (row.numbers[LAST_USED] as usize - 1);
    row.numbers[dice.below(LAST_USED as u64) as usize] = dice.near(edge);
    layout::put_row(&mut case.table[at..], &row);
    Some(case)
}

/// Before all, after all, any; of some rows the key, its neighbours in the last byte, and others with its front.
fn sought(dice: &mut Dice, rows: &[Row]) -> Vec<Key> {
    let mut sought = vec![[0; 33], [255; 33], keys(dice, 1)[0]];
    let some = [rows.first(), rows.last(), any(dice, rows), any(dice, rows)];
    for Row { key, .. } in some.into_iter().flatten() {
        let filled = |from: usize, byte: u8| {
            let mut other = *key;
            other[from..].fill(byte);
            other
        };
        let [after, before] = [key[32].wrapping_add(1), key[32].wrapping_sub(1)];
        sought.extend([
            *key,
            filled(32, after),
            filled(32, before),
            filled(8, 0),
            filled(8, 255),
        ]);
    }
    sought
}

fn any<'a>(dice: &mut Dice, rows: &'a [Row]) -> Option<&'a Row> {
    rows.get(dice.below(rows.len() as u64) as usize)
}

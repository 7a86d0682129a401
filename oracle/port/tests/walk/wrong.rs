//! Wrong walks, each of which the comparison must notice: the right one over rows that are altered before it looks, for a key that is altered, or
//! with an answer that is.

use super::disagreement;
use checks::walk::{walk, Place};
use vocabulary::layout::{put_row, rows_of, ROW};
use vocabulary::peer::{BAN_END, BAN_MARK, BYTES, INVALID_COUNT, MESSAGES, RATE_COUNT};
use vocabulary::{Key, Record, Row};

type Alter = fn(&mut Vec<Row>, &Record);

/// Mends what breaks a rule, so that the rule is left out.
const LEFT_OUT: [(&str, Alter); 10] = [
    ("messages within the burst", |rows, record| {
        each(rows, MESSAGES, |number| number.min(record.shorts[0].into()))
    }),
    ("bytes within the burst", |rows, record| {
        each(rows, BYTES, |number| number.min(record.longs[2]))
    }),
    ("rate count within u32", |rows, _| {
        each(rows, RATE_COUNT, |number| number.min(MOST))
    }),
    ("invalid count within u32", |rows, _| {
        each(rows, INVALID_COUNT, |number| number.min(MOST))
    }),
    ("mark 0 or 1", |rows, _| each(rows, BAN_MARK, |number| number.min(1))),
    ("no end without a mark", |rows, _| {
        let unbanned = rows.iter_mut().filter(|row| row.numbers[BAN_MARK] == 0);
        unbanned.for_each(|row| row.numbers[BAN_END] = 0);
    }),
    ("no key twice", |rows, _| rows.dedup_by_key(|row| row.key)),
    ("keys in order", |rows, _| rows.sort_by_key(|row| row.key)),
    ("rules of the first row", |rows, _| {
        rows.iter_mut().take(1).for_each(without_fault)
    }),
    ("rules of the last row", |rows, _| {
        rows.iter_mut().rev().take(1).for_each(without_fault)
    }),
];

/// Moves what stands just within a rule beyond it, so that the rule is too strict.
const TOO_STRICT: [(&str, Alter); 6] = [
    ("messages below the burst", |rows, record| {
        each(rows, MESSAGES, |number| one_more_at(number, record.shorts[0].into()))
    }),
    ("bytes below the burst", |rows, record| {
        each(rows, BYTES, |number| one_more_at(number, record.longs[2]))
    }),
    ("rate count below the most", |rows, _| {
        each(rows, RATE_COUNT, |number| one_more_at(number, MOST))
    }),
    ("invalid count below the most", |rows, _| {
        each(rows, INVALID_COUNT, |number| one_more_at(number, MOST))
    }),
    ("no ban", |rows, _| {
        each(rows, BAN_MARK, |number| one_more_at(number, 1))
    }),
    ("fronts ascend", |rows, _| {
        for at in 1..rows.len() {
            if front_of(&rows[at - 1].key) == front_of(&rows[at].key) {
                rows[at].key = rows[at - 1].key;
            }
        }
    }),
];

const MOST: u64 = u32::MAX as u64;

fn each(rows: &mut [Row], number: usize, alter: impl Fn(u64) -> u64) {
    for row in rows {
        row.numbers[number] = alter(row.numbers[number]);
    }
}

fn one_more_at(number: u64, edge: u64) -> u64 {
    number.saturating_add(u64::from(number == edge))
}

fn without_fault(row: &mut Row) {
    row.numbers.fill(0);
}

/// The key with nothing behind its first eight bytes.
fn front_of(key: &Key) -> Key {
    let mut front = [0; 33];
    front[..8].copy_from_slice(&key[..8]);
    front
}

fn walk_altered(record: &Record, table: &[u8], sought: &Key, alter: Alter) -> Option<Place> {
    let mut rows = rows_of(table, record.longs[7] as usize);
    alter(&mut rows, record);
    let mut altered = vec![0; ROW * rows.len()];
    for (place, row) in altered.chunks_exact_mut(ROW).zip(&rows) {
        put_row(place, row);
    }
    let mut record = *record;
    record.longs[7] = rows.len() as u64;
    walk(&record, &altered, sought)
}

/// Each in the way that it is wrong.
fn are_noticed(alterations: &[(&str, Alter)], how: &str) {
    for (name, alter) in alterations {
        let noticed = disagreement(|record, table, sought| walk_altered(record, table, sought, *alter));
        assert!(noticed.is_some_and(|told| told.contains(how)), "{name}");
    }
}

#[test]
fn a_rule_left_out() {
    are_noticed(&LEFT_OUT, "the port Unsound");
}

#[test]
fn a_rule_too_strict() {
    are_noticed(&TOO_STRICT, "the walk None");
}

#[test]
fn rows_written_anew_are_not_noticed() {
    let noticed = disagreement(|record, table, sought| walk_altered(record, table, sought, |_, _| {}));
    assert_eq!(noticed, None);
}

#[test]
fn a_sought_key_of_which_the_front_alone_is_compared() {
    assert!(disagreement(|record, table, sought| walk(record, table, &front_of(sought))).is_some());
}

#[test]
fn a_sought_key_without_its_last_byte() {
    let cut = |sought: &Key| std::array::from_fn(|at| if at == 32 { 0 } else { sought[at] });
    assert!(disagreement(|record, table, sought| walk(record, table, &cut(sought))).is_some());
}

/// A walk that answers something else for some places.
fn answers_are_noticed(answer: fn(Place) -> Place) {
    assert!(disagreement(|record, table, sought| walk(record, table, sought).map(answer)).is_some());
}

#[test]
fn a_found_place_one_too_far() {
    answers_are_noticed(|place| match place {
        Place::Found(at) => Place::Found(at + 1),
        gap => gap,
    });
}

#[test]
fn a_gap_one_too_far() {
    answers_are_noticed(|place| match place {
        Place::Gap(at) => Place::Gap(at + 1),
        found => found,
    });
}

#[test]
fn a_gap_before_the_row_before_it() {
    answers_are_noticed(|place| match place {
        Place::Gap(at) => Place::Gap(at.saturating_sub(1)),
        found => found,
    });
}

#[test]
fn a_row_that_is_not_found() {
    answers_are_noticed(|place| match place {
        Place::Found(at) => Place::Gap(at),
        gap => gap,
    });
}

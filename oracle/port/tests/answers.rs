//! The Rust's two orders list its rows on every way that both sides go, and the recorded lists are what the proved library answers.

use checks::both_sides::BothSides;
use checks::calls;
use checks::dice::Dice;
use checks::lists::LISTS;
use checks::tally::Tally;
use original::UnchangedRust;
use port::Proved;
use vocabulary::{answer, Answer, BucketCall, Buckets, Port, Words};

#[test]
fn the_two_orders_list_the_rows() {
    for seed in 0..60 {
        let mut dice = Dice::new(seed);
        let (trace, length, mut plan) = calls::peers::begin(&mut dice);
        let mut original = UnchangedRust::default();
        let mut both = BothSides::begin(&trace, &mut original, &Proved).unwrap();
        for _ in 0..length {
            let call = plan.next(&mut dice, both.state(), &trace.keys);
            both.step(&call, &mut Tally::default()).unwrap();
        }
        assert!(original.orders_agree());
    }
}

/// Reads a record's eight words.
fn words(record: &[u8]) -> Words {
    std::array::from_fn(|at| u64::from_le_bytes(record[8 * at..8 * at + 8].try_into().unwrap()))
}

#[test]
fn the_proved_library_answers_the_recorded_lists() {
    let amounts = (LISTS[0].1)(&mut UnchangedRust::default());
    for (record, line) in amounts.input.chunks_exact(64).zip(amounts.output.lines()) {
        let call = words(record);
        let answer = Proved.amount(&call);
        assert_eq!(line, amount_line(&call, &answer), "{call:?}");
    }
    let buckets = (LISTS[1].1)(&mut UnchangedRust::default());
    let mut held = Buckets::default();
    for (record, line) in buckets.input.chunks_exact(64).zip(buckets.output.lines()) {
        let call = BucketCall::of(&words(record));
        let answer = Proved.bucket(&call, &mut held);
        assert!(!answer.is_refusal(), "{call:?}");
        let after = checks::show::bucket(call.operation, &held);
        assert!(line.ends_with(&format!(" {after}")), "{call:?}: {line}, {after}");
    }
}

fn amount_line(call: &Words, answer: &Answer) -> String {
    let [a, b, c] = answer.values;
    match (answer.number, call[0]) {
        (answer::YES, _) => "1".into(),
        (answer::NO, _) => "0".into(),
        (_, 8 | 12) => a.to_string(),
        _ => format!("{a} {b} {c}"),
    }
}

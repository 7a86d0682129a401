//! Wrong ports, each the stand-in with one fault: the comparison notices them, and what it prints is short, can be read back, and still
//! shows the difference.

use crate::run;
use crate::stand_in::StandIn;
use checks::compare::{self, Options, Part};
use checks::show;
use original::UnchangedRust;
use vocabulary::gossip::*;
use vocabulary::{
    answer, Answer, BucketCall, Buckets, GossipCall, GossipWords, PeerCall, Port, Reads, Record, Subject, Words,
};

type Fault = fn(&GossipCall, &mut GossipWords, [&mut [u8]; 2]) -> Answer;

struct Wrong(Fault);

impl Port for Wrong {
    fn name(&self) -> &'static str {
        "a wrong port"
    }
    fn has_gossip(&self) -> bool {
        true
    }
    fn gossip(&self, call: &GossipCall, words: &mut GossipWords, tables: [&mut [u8]; 2]) -> Answer {
        (self.0)(call, words, tables)
    }
    fn make_peers(&self, _: &mut Record, _: &mut [u8]) -> Answer {
        unreachable!()
    }
    fn peers(&self, _: &PeerCall, _: &mut Record, _: &mut [u8]) -> Answer {
        unreachable!()
    }
    fn bucket(&self, _: &BucketCall, _: &mut Buckets) -> Answer {
        unreachable!()
    }
    fn settings(&self, _: &Words) -> (Answer, [u64; 9]) {
        unreachable!()
    }
    fn amount(&self, _: &Words) -> Answer {
        unreachable!()
    }
    fn trace(&self, _: &[u8], _: &mut [u8]) -> Vec<u8> {
        unreachable!()
    }
}

/// Some mismatch, and each that is shown has at most so many lines and is one when read back.
fn is_noticed(fault: Fault, calls: u64, most_lines: usize) {
    let port = Wrong(fault);
    let outcome = run(&port, calls, 7);
    assert!(outcome.tally.mismatches() > 0);
    for shown in &outcome.shown {
        let lines: Vec<&str> = shown.trim_end().lines().collect();
        let text: String = lines[1..lines.len() - 1]
            .iter()
            .map(|line| format!("{line}\n"))
            .collect();
        assert!(lines.len() - 2 <= most_lines, "{shown}");
        let trace = show::parse(&text).unwrap_or_else(|error| panic!("{error}\n{shown}"));
        let mut original = UnchangedRust::default();
        assert!(compare::replay(&mut original, &port, &trace).is_some(), "{shown}");
        assert!(compare::replay(&mut original, &StandIn, &trace).is_none(), "{shown}");
    }
}

#[test]
fn a_tie_in_which_another_row_goes() {
    // Where two live rows are alike but for their keys, the row of the larger one goes.
    let fault: Fault = |call, words, [first, second]| {
        let rows = BAN_ROW.rows_of(first, 2);
        let is_full_of_two = words.longs[ROWS] == 2 && words.longs[LIMIT] == 2;
        let answer = StandIn.gossip(call, words, [first, second]);
        if call.subject == Subject::Bans && call.records_violation() && is_full_of_two && words.longs[ROWS] == 2 {
            let after = BAN_ROW.rows_of(first, 2);
            let stayed = after.iter().position(|row| row.key == rows[1].key);
            let gone = after.iter().all(|row| row.key != rows[0].key);
            if let (Some(at), true, true) = (stayed, gone, rows[0].numbers == rows[1].numbers) {
                // In its place, which keeps the order where the new key is the larger one.
                BAN_ROW.put(&mut first[BAN_ROW.width() * at..], &rows[0]);
            }
        }
        answer
    };
    is_noticed(fault, 30_000, 12);
}

#[test]
fn a_freed_place_that_is_not_zeroed() {
    let fault: Fault = |call, words, [first, second]| {
        let before = words.longs[ROWS] as usize;
        let answer = StandIn.gossip(call, words, [first, second]);
        if call.subject == Subject::Bans && call.reads() == Reads::Table(0) && (words.longs[ROWS] as usize) < before {
            first[BAN_ROW.width() * before - 1] = 1;
        }
        answer
    };
    is_noticed(fault, 10_000, 12);
}

#[test]
fn a_byte_beyond_the_limit() {
    let fault: Fault = |call, words, [first, second]| {
        let answer = StandIn.gossip(call, words, [first, second]);
        let limit = LIMITER_ROW.width() * words.longs[LIMIT].clamp(1, 1_024) as usize;
        if let (Some(byte), Subject::Limiter, answer::YES) = (first.get_mut(limit), call.subject, answer.number) {
            *byte = byte.wrapping_add(1);
        }
        answer
    };
    is_noticed(fault, 10_000, 12);
}

#[test]
fn a_refusal_that_forgets_to_refuse() {
    let fault: Fault = |call, words, tables| {
        let answer = StandIn.gossip(call, words, tables);
        match answer.number {
            3 => Answer::plain(answer::NO),
            _ => answer,
        }
    };
    is_noticed(fault, 10_000, 12);
}

#[test]
fn a_half_that_is_judged_on_the_other() {
    let fault: Fault = |call, words, [first, second]| {
        if call.subject == Subject::Gossip && call.reads() == Reads::Table(1) && words.longs[LIMIT] > 1_024 {
            return Answer::plain(3);
        }
        StandIn.gossip(call, words, [first, second])
    };
    is_noticed(fault, 30_000, 12);
}

#[test]
fn a_row_more_than_there_are_that_charges_the_global_bucket() {
    let fault: Fault = |call, words, [first, second]| {
        let answer = StandIn.gossip(call, words, [first, second]);
        if answer.number == 5 {
            words.longs[GLOBAL_REFILL] = call.now;
        }
        answer
    };
    // Making a table of 1,024 rows small takes long.
    let options = Options {
        calls: 60_000,
        seed: 7,
        watch: false,
        first_only: true,
    };
    let outcome = compare::run_part(Part::Gossip, &mut UnchangedRust::default(), &Wrong(fault), &options);
    assert_eq!(outcome.tally.mismatches(), 1);
}

#[test]
fn a_side_that_is_a_bit_alone() {
    let fault: Fault = |call, words, tables| {
        let mut call = *call;
        if call.side > 1 {
            call.key[69] = 0;
        }
        StandIn.gossip(&call, words, tables)
    };
    is_noticed(fault, 10_000, 12);
}

#[test]
fn a_limit_of_0_that_is_stored_as_1() {
    let fault: Fault = |call, words, tables| {
        let answer = StandIn.gossip(call, words, tables);
        if answer == Answer::done() && call.reads() == Reads::Making {
            words.longs[LIMIT] = words.longs[LIMIT].max(1);
        }
        answer
    };
    is_noticed(fault, 10_000, 5);
}

#[test]
fn a_delay_that_is_clamped() {
    let fault: Fault = |call, words, tables| {
        let mut answer = StandIn.gossip(call, words, tables);
        if call.subject == Subject::Gossip && matches!(call.operation, 7 | 9) {
            answer.values[0] = answer.values[0].min(u64::MAX / 2);
        }
        answer
    };
    is_noticed(fault, 10_000, 12);
}

#[test]
fn a_ban_that_is_live_at_its_end() {
    let fault: Fault = |call, words, tables| {
        let mut call = *call;
        if call.subject == Subject::Gossip && call.operation == 4 {
            call.now = call.now.saturating_sub(1);
        }
        StandIn.gossip(&call, words, tables)
    };
    is_noticed(fault, 10_000, 12);
}

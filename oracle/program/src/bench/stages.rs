//! Where the time of the port's admit goes, seen from outside: each stage is a difference of two calls over the same table.
//!
//! | stage | is | and so holds |
//! |---|---|---|
//! | judging | the held time of a peer without a row, whose key comes after all others | the walk over all rows, and the call itself |
//! | finding | the held time of a known peer, less judging | what a found place costs the walk, and reading one number there |
//! | deciding | an admit that is refused with 4, less `is_banned` of the same peer | windows, both buckets and the ceiling; reading the row, but for its ban |
//! | writing | an allowed admit, less the refused one | the row and the record, written |
//!
//! Refusal 4 comes last: without a ceiling, and with the most messages in flight that there can be, all is decided and nothing written. Every call is
//! made for the same random known peers at the same times. Each time has noise of its own, and a difference has the noise of both, so that a small
//! one can be off by as much as it is, and even come out below zero. The four stages come to the whole admit but for the difference between
//! `is_banned` and the held time of a known peer.

use super::clock::{medians, time_each};
use super::sides::Lent;
use super::trace::{Event, Trace, SMALL_AND_FULL, THREE_A_MILLISECOND};
use vocabulary::{answer, PeerCall, PeerOperation, Port};

const CALLS: usize = 10_000;
const OVERFLOW: u32 = 4;

pub fn run<P: Port>(port: &P) {
    println!("where the port's admit spends its time, {CALLS} calls of each sort; ns");
    println!(
        "{:>5} {:>9} {:>9} {:>9} {:>9} {:>12}",
        "rows", "judging", "finding", "deciding", "writing", "whole admit"
    );
    for rows in SMALL_AND_FULL {
        let trace = Trace::of_known(rows, CALLS, THREE_A_MILLISECOND);
        let [judging, finding, deciding, writing, whole] = medians(|| stages(port, &trace));
        println!("{rows:>5} {judging:>9.1} {finding:>9.1} {deciding:>9.1} {writing:>9.1} {whole:>12.1}");
    }
}

/// The four stages and the whole admit. Differences are taken within a turn, whose calls come close together, and not of medians.
fn stages<P: Port>(port: &P, trace: &Trace) -> [f64; 5] {
    let time = |call: fn(&Event) -> PeerCall, in_flight: u32, number: u32| {
        let mut lent = Lent::opened(port, trace);
        lent.record.shorts[3] = in_flight;
        time_each(&trace.events, |event| {
            let answer = lent.call(port, &call(event));
            assert_eq!(answer.number, number);
        })
    };
    let unknown = time(of_none, 0, answer::DONE);
    let known = time(|event| event.call(PeerOperation::HeldTime), 0, answer::DONE);
    let banned = time(|event| event.call(PeerOperation::IsBanned), 0, answer::NO);
    let refused = time(|event| event.call(PeerOperation::Admit), u32::MAX, OVERFLOW);
    let allowed = time(|event| event.call(PeerOperation::Admit), 0, answer::ALLOW);
    [unknown, known - unknown, refused - banned, allowed - refused, allowed]
}

/// For a peer that has no row.
fn of_none(event: &Event) -> PeerCall {
    PeerCall {
        key: [255; 33],
        ..event.call(PeerOperation::HeldTime)
    }
}

//! Wrong causes: the merged answer and every byte of the state are right, and the comparison notices all the same. And the plain admit, which has no
//! cause, beside the explained one, which the comparison drives.

use super::{compared, is_noticed, Wrong, FAITHFUL};
use port::Proved;
use uglezmir_sys::peers;
use vocabulary::cause::{BAN_BEGUN, BYTES, CEILING_BYTES, LIVE_BAN, MESSAGES, SLOT};
use vocabulary::{Answer, PeerCall, PeerOperation, Port, Record};

/// Each of two numbers for the other.
fn exchanged(number: u64, one: u64, other: u64) -> u64 {
    match number {
        _ if number == one => other,
        _ if number == other => one,
        _ => number,
    }
}

#[test]
fn messages_and_bytes_exchanged() {
    let cause = |[number, short]: [u64; 2]| [exchanged(number, MESSAGES, BYTES), short];
    is_noticed(&Wrong { cause, ..FAITHFUL }, 6);
}

#[test]
fn slot_and_bytes_of_the_ceiling_exchanged() {
    let cause = |[number, short]: [u64; 2]| [exchanged(number, SLOT, CEILING_BYTES), short];
    is_noticed(&Wrong { cause, ..FAITHFUL }, 6);
}

#[test]
fn live_ban_and_ban_begun_exchanged() {
    let cause = |[number, short]: [u64; 2]| [exchanged(number, LIVE_BAN, BAN_BEGUN), short];
    is_noticed(&Wrong { cause, ..FAITHFUL }, 6);
}

#[test]
fn bytes_that_are_one_off() {
    let cause = |[number, short]: [u64; 2]| [number, short - u64::from(number == BYTES)];
    is_noticed(&Wrong { cause, ..FAITHFUL }, 6);
}

#[test]
fn bytes_of_the_ceiling_that_are_one_off() {
    let cause = |[number, short]: [u64; 2]| [number, short - u64::from(number == CEILING_BYTES)];
    is_noticed(&Wrong { cause, ..FAITHFUL }, 6);
}

#[test]
fn a_refusal_that_leaves_a_cause() {
    let fault = |call: &PeerCall, record: &mut Record, table: &mut [u8]| {
        let answer = Proved.peers(call, record, table);
        match answer.number {
            4 => Answer::caused(4, [SLOT, 1]),
            _ => answer,
        }
    };
    is_noticed(&Wrong::in_peers(fault), 6);
}

/// The answer; but where one of the first causes decides, and one of the later would with limits lifted, with the later one's cause.
fn later_first(
    (call, record, table): (&PeerCall, &mut Record, &mut [u8]),
    lift: fn(&mut Record),
    first: &[u64],
    later: &[u64],
) -> Answer {
    let (mut other, mut copy) = (*record, table.to_vec());
    lift(&mut other);
    let (answer, other) = (
        Proved.peers(call, record, table),
        Proved.peers(call, &mut other, &mut copy),
    );
    let is_of = |answer: &Answer, causes: &[u64]| answer.is_admission() && causes.contains(&answer.cause()[0]);
    match is_of(&answer, first) && is_of(&other, later) {
        true => Answer::caused(answer.number, other.cause()),
        false => answer,
    }
}

#[test]
fn bytes_before_messages() {
    let fault = |call: &PeerCall, record: &mut Record, table: &mut [u8]| {
        let lift_messages = |record: &mut Record| record.longs[0] = 0;
        later_first((call, record, table), lift_messages, &[MESSAGES], &[BYTES])
    };
    is_noticed(&Wrong::in_peers(fault), 8);
}

#[test]
fn the_ceiling_before_the_buckets() {
    let fault = |call: &PeerCall, record: &mut Record, table: &mut [u8]| {
        let lift_both = |record: &mut Record| record.longs[..2].fill(0);
        let (buckets, ceiling) = ([MESSAGES, BYTES], [SLOT, CEILING_BYTES]);
        later_first((call, record, table), lift_both, &buckets, &ceiling)
    };
    is_noticed(&Wrong::in_peers(fault), 8);
}

#[test]
fn bytes_of_the_ceiling_before_its_slot() {
    let fault = |call: &PeerCall, record: &mut Record, table: &mut [u8]| {
        let lift_slots = |record: &mut Record| record.shorts[2] = u32::MAX;
        later_first((call, record, table), lift_slots, &[SLOT], &[CEILING_BYTES])
    };
    is_noticed(&Wrong::in_peers(fault), 8);
}

#[test]
fn a_ceiling_that_is_told_as_bytes() {
    let trace = |input: &[u8], table: &mut [u8]| {
        let written = String::from_utf8(Proved.trace(input, table)).unwrap();
        written.replace("Disconnect-ceiling", "Disconnect-bytes").into_bytes()
    };
    is_noticed(&Wrong { trace, ..FAITHFUL }, 2);
}

#[test]
fn the_plain_admit_is_the_explained_one_without_its_cause() {
    let both = |call: &PeerCall, record: &mut Record, table: &mut [u8]| {
        let (mut plain, mut copy) = (*record, table.to_vec());
        let answer = Proved.peers(call, record, table);
        if call.operation == PeerOperation::Admit {
            let (longs, shorts) = (&mut plain.longs, &mut plain.shorts);
            let number = peers::admit(longs, shorts, &mut copy, &call.key, call.bytes, call.now);
            assert!(number == answer.number && plain == *record && copy == table);
        }
        answer
    };
    let outcome = compared(&Wrong::in_peers(both), 9);
    assert_eq!(outcome.tally.mismatches(), 0, "{:?}", outcome.shown);
}

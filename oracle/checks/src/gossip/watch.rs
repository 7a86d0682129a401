//! What a call on gossip did besides its answer, seen from the states before and after.

use super::ties::is_expired;
use crate::tally::{Event, Tally};
use vocabulary::gossip::*;
use vocabulary::{Answer, GossipCall, GossipRow, GossipState, Reads, Subject};

pub fn watch(before: &GossipState, after: &GossipState, call: &GossipCall, answer: &Answer, tally: &mut Tally) {
    if answer.is_refusal() {
        return;
    }
    match (call.subject, call.reads()) {
        (Subject::Limiter, Reads::Table(0)) => watch_limiter(before, after, call, tally),
        (_, Reads::Table(0)) => watch_bans(before, after, call, tally),
        (_, Reads::Table(1)) => watch_outbound(before, after, call, tally),
        _ => {}
    }
}

fn watch_bans(before: &GossipState, after: &GossipState, call: &GossipCall, tally: &mut Tally) {
    let (duration, now) = (before.words.longs[PERIOD], call.now);
    let (old, new) = (before.row(0, &call.key), after.row(0, &call.key));
    if let Some(old) = old {
        if now == old.numbers[GossipRow::UPDATED].saturating_add(duration) {
            tally.event(Event::GossipRowAtItsExactEnd);
        }
        if old.numbers[GossipRow::MARK] == 1 && now == old.numbers[GossipRow::END] {
            tally.event(Event::GossipBanAtItsExactEnd);
        }
        if now < old.numbers[GossipRow::UPDATED] {
            tally.event(Event::TimeBeforeLastUpdate);
        }
    }
    let gone = || before.rows[0].iter().filter(|row| after.row(0, &row.key).is_none());
    if gone().any(|row| is_expired(row, duration, now)) {
        tally.event(Event::ExpiredRowsDropped);
    }
    if let Some(evicted) = gone().find(|row| !is_expired(row, duration, now)) {
        let banned = evicted.numbers[GossipRow::MARK] == 1 && now < evicted.numbers[GossipRow::END];
        tally.event(if banned {
            Event::GossipBannedEvicted
        } else {
            Event::GossipUnbannedEvicted
        });
    }
    let marked = |row: Option<&GossipRow>| row.is_some_and(|row| row.numbers[GossipRow::MARK] == 1);
    if marked(new) && !marked(old) {
        tally.event(Event::GossipBanBegun);
    }
}

fn watch_limiter(before: &GossipState, after: &GossipState, call: &GossipCall, tally: &mut Tally) {
    if before.row(0, &call.key).is_some() || (before.rows[0].len() as u64) < before.words.row_limit(0) {
        return;
    }
    let kept = after.row(0, &call.key).is_some();
    tally.event(if kept {
        Event::LimiterMadeRoom
    } else {
        Event::LimiterStayedFull
    });
}

fn watch_outbound(before: &GossipState, after: &GossipState, call: &GossipCall, tally: &mut Tally) {
    if before.row(1, &call.key).is_none() && after.row(1, &call.key).is_some() {
        tally.event(Event::OutboundRowMade);
    }
    let in_debt = |state: &GossipState| {
        state
            .row(1, &call.key)
            .is_some_and(|row| row.numbers[GossipRow::SIGN] == 1)
    };
    if in_debt(after) {
        tally.event(Event::OutboundDebt);
    }
}

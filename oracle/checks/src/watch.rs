//! What a call on peers did besides its answer, seen from the states before and after.

use crate::tally::{Event, Tally};
use vocabulary::peer::*;
use vocabulary::{answer, cause, Answer};

/// Looks at what a call did to the rows.
pub fn watch(before: &PeerState, after: &PeerState, call: &PeerCall, answer: &Answer, tally: &mut Tally) {
    if !call.operation.uses_key() {
        return;
    }
    let now = call.now;
    let spent = |row: &Row| row.numbers[BAN_MARK] == 1 && now >= row.numbers[BAN_END];
    let old = before.row(&call.key);
    let new = after.row(&call.key);
    if let Some(old) = old {
        if spent(old) && call.operation != PeerOperation::HeldTime {
            tally.event(Event::OwnSpentBanDropped);
        }
        if old.numbers[BAN_MARK] == 1 && now == old.numbers[BAN_END] {
            tally.event(Event::BanAtItsExactEnd);
        }
        if old.numbers[BAN_MARK] == 1 && !spent(old) {
            tally.event(Event::LiveBanAnswered);
        }
        if now < old.numbers[LAST_USED] {
            tally.event(Event::TimeBeforeLastUsed);
        }
    }
    let last_refill = old.map_or(0, |old| old.numbers[MESSAGES_REFILL]);
    let intervals = now.saturating_sub(last_refill).checked_div(before.settings.interval);
    if answer.number == answer::ALLOW && intervals.is_some_and(|q| q >= 1 << 32) {
        tally.event(Event::RefillPast32Bits);
    }
    if let (Some(old), Some(new)) = (old, new) {
        let expired = |count: usize| old.numbers[count] > 0 && new.numbers[count] == 0;
        if !spent(old) && (expired(RATE_COUNT) || expired(INVALID_COUNT)) {
            tally.event(Event::WindowExpired);
        }
    }
    let marked = |row: Option<&Row>| row.is_some_and(|row| row.numbers[BAN_MARK] == 1);
    if marked(new) && (!marked(old) || old.is_some_and(spent)) {
        tally.event(Event::BanBegun);
    }
    if answer.number == answer::DISCONNECT {
        tally.event(match answer.cause()[0] {
            cause::MESSAGES => Event::MessagesShort,
            cause::BYTES => Event::BytesShort,
            cause::SLOT => Event::SlotShort,
            _ => Event::CeilingBytesShort,
        });
    }
    if old.is_none() && new.is_some() {
        tally.event(Event::RowMade);
        watch_room(before, after, &spent, tally);
    }
}

/// A row was made: what went for it.
fn watch_room(before: &PeerState, after: &PeerState, spent: &dyn Fn(&Row) -> bool, tally: &mut Tally) {
    if (before.rows.len() as u64) < before.settings.row_limit() {
        return;
    }
    let Some(gone) = before.rows.iter().find(|row| after.row(&row.key).is_none()) else {
        return;
    };
    if spent(gone) {
        tally.event(Event::SpentBansDroppedForRoom);
    } else if gone.numbers[BAN_MARK] == 1 {
        tally.event(Event::BannedEvicted);
    } else {
        tally.event(Event::UnbannedEvicted);
        let ties = before
            .rows
            .iter()
            .filter(|row| row.numbers[BAN_MARK] == 0 && row.numbers[LAST_USED] == gone.numbers[LAST_USED]);
        if ties.count() > 1 {
            tally.event(Event::UnbannedEvictedInATie);
        }
    }
}

//! Inputs of the trace program made up from a seed: events that look at the state before them, as in `calls::peers`.

use super::LONGEST;
use crate::calls::peers;
use crate::dice::Dice;
use crate::show;
use crate::trace::PeerStart;
use vocabulary::peer::*;
use vocabulary::{Original, Words};

/// A good input of at most so many events. Lines for which the program has no letter are left out.
pub fn made(original: &mut dyn Original, dice: &mut Dice, most_events: u64) -> Vec<u8> {
    let (mut trace, _, mut plan) = peers::begin(dice);
    trace.start = PeerStart {
        settings: trace.start.settings,
        ..PeerStart::default()
    };
    let mut state = trace.peer_state().expect("a fresh start is sound");
    original.set_peers(&state);
    let mut text = format!("{}\n", show::numbers(&trace.start.settings));
    for _ in 0..dice.between(0, most_events) {
        let words = plan.next(dice, &state, &trace.keys);
        if words[0] > PeerOperation::ReleaseIngress as u64 {
            continue;
        }
        original.peers(&call(&trace.keys, &words));
        original.read_peers(&mut state);
        text += &event(dice, &trace.keys, &words);
        text += "\n";
    }
    text.truncate(LONGEST);
    text.into_bytes()
}

/// A key of equal bytes is spelled in either way.
fn event(dice: &mut Dice, keys: &[Key], words: &Words) -> String {
    let text = show::peer_event(keys, words);
    let mut fields: Vec<&str> = text.split(' ').collect();
    let long = fields.get(1).copied().unwrap_or("").repeat(33);
    if long.len() == 66 && words[0] != PeerOperation::ReleaseIngress as u64 && dice.chance(30) {
        fields[1] = &long;
    }
    fields.join(" ")
}

fn call(keys: &[Key], words: &Words) -> PeerCall {
    PeerCall {
        operation: PeerOperation::ALL[words[0] as usize],
        key: keys[words[1] as usize],
        bytes: words[2],
        now: words[3],
    }
}

//! States set into the Rust are read out the same, and laid out as bytes and back.

use checks::calls::gossip::begin;
use checks::dice::Dice;
use checks::trace::Kind;
use original::UnchangedRust;
use vocabulary::gossip::LIMIT;
use vocabulary::{GossipState, Original, Subject};

#[test]
fn a_state_set_is_the_state_read() {
    for seed in 0..600 {
        for (kind, subject) in [
            (Kind::Bans, Subject::Bans),
            (Kind::Limiter, Subject::Limiter),
            (Kind::Gossip, Subject::Gossip),
        ] {
            let (trace, _, _) = begin(&mut Dice::new(seed), kind, subject);
            assert!(trace.is_valid());
            let state = trace.gossip.state(subject).expect("a sound start");
            let mut original = UnchangedRust::default();
            original.set_gossip(subject, &state);
            let mut read = GossipState::default();
            original.read_gossip(subject, &mut read);
            assert_eq!(read.words.longs[LIMIT], state.words.row_limit(0));
            read.words.longs[LIMIT] = state.words.longs[LIMIT];
            assert_eq!(read, state);
            for (table, shape) in subject.shapes().iter().enumerate() {
                let mut bytes = vec![7; shape.width() * state.words.row_limit(table) as usize];
                shape.lay(&mut bytes, 0, &state.rows[table]);
                assert_eq!(shape.rows_of(&bytes, state.rows[table].len()), state.rows[table]);
            }
        }
    }
}

//! What the comparison relies on: states set into the Rust are read out the same, and the recorded lists are what the Rust answers.

use checks::calls;
use checks::dice::Dice;
use checks::lists::LISTS;
use original::UnchangedRust;
use std::path::Path;
use vocabulary::{layout, Original, PeerState};

#[test]
fn a_state_set_is_the_state_read() {
    for seed in 0..300 {
        let (trace, _, _) = calls::peers::begin(&mut Dice::new(seed));
        let state = trace.peer_state().expect("a sound start");
        let mut original = UnchangedRust::default();
        original.set_peers(&state);
        let mut read = PeerState::fresh(original.default_settings());
        original.read_peers(&mut read);
        assert_eq!(read, state);
        let mut table = vec![0; layout::ROW * state.settings.row_limit() as usize];
        layout::lay(&mut table, 0, &state);
        assert_eq!(layout::rows_of(&table, state.rows.len()), state.rows);
    }
}

#[test]
fn the_recorded_lists_are_what_the_rust_answers() {
    for (folder, record) in LISTS {
        let list = record(&mut UnchangedRust::default());
        let folder = Path::new(env!("CARGO_MANIFEST_DIR")).join("../..").join(folder);
        let input = std::fs::read(folder.join("stdin")).unwrap();
        let output = std::fs::read_to_string(folder.join("stdout")).unwrap();
        assert!(input == list.input && output == list.output, "run oracle/record");
        assert!(list.input.len() < 400_000);
    }
}

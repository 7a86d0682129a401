//! The ban tracker, the limiter and the gossip state (crate `c_gossip`).

use uglezmir_sys::gossip;
use vocabulary::{Answer, GossipCall, GossipWords, Subject};

pub fn call(call: &GossipCall, words: &mut GossipWords, tables: [&mut [u8]; 2]) -> Answer {
    let mut value = [0];
    let number = match call.subject {
        Subject::Bans => bans(call, words, tables[0], &mut value),
        Subject::Limiter => limiter(call, words, tables[0], &mut value),
        Subject::Gossip => state(call, words, tables, &mut value),
    };
    let values = [value[0], 0, 0];
    Answer { number, values }
}

fn bans(call: &GossipCall, words: &mut GossipWords, table: &mut [u8], value: &mut [u64; 1]) -> u32 {
    let GossipCall {
        operation,
        violation,
        now,
        ..
    } = *call;
    let (longs, shorts) = first_words(words);
    gossip::bans(operation, longs, shorts, table, &call.peer(), violation, now, value)
}

fn limiter(call: &GossipCall, words: &mut GossipWords, table: &mut [u8], value: &mut [u64; 1]) -> u32 {
    let GossipCall {
        operation, side, now, ..
    } = *call;
    let (longs, shorts) = first_words(words);
    let (peer, outpoint) = (call.peer(), call.outpoint());
    gossip::limiter(operation, longs, shorts, table, &peer, &outpoint, side, now, value)
}

fn state(call: &GossipCall, words: &mut GossipWords, tables: [&mut [u8]; 2], value: &mut [u64; 1]) -> u32 {
    let GossipCall {
        operation,
        violation,
        bytes,
        now,
        ..
    } = *call;
    let GossipWords { longs, shorts } = words;
    let [bans, outbound] = tables;
    let peer = call.peer();
    gossip::gossip(
        operation, longs, shorts, bans, outbound, &peer, violation, bytes, now, value,
    )
}

/// The words that the tracker and the limiter have.
fn first_words(words: &mut GossipWords) -> (&mut [u64; 3], &mut [u32; 1]) {
    let longs = words.longs.first_chunk_mut().expect("ten longs");
    let shorts = words.shorts.first_chunk_mut().expect("six shorts");
    (longs, shorts)
}

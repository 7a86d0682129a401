//! One test body for the unchanged Rust and for `uglezmir`: `suite!` is the same text on both, with each side's own types.
//!
//! `suite` has examples with known answers, a method or two each; `random` drives both sides with the same made-up calls and compares; `causes` holds
//! the explained form, which the Rust has not, beside the Rust.

use drop_in as _;

// The Rust's own text, not a byte changed.
#[allow(dead_code, clippy::all)]
mod fiber {
    include!(concat!(env!("OUT_DIR"), "/modules.rs"));
}

mod call;
mod causes;
mod dice;
mod random;
#[macro_use]
mod suite;

// Both sides differ in two things: a maker that takes a limit answers a `Result` in `uglezmir`, and its key type takes the node's two keys.
suite! {
    original, crate::fiber,
    made = |made| made,
    limiter_key = crate::fiber::gossip_policy::ChannelUpdateLimiterKey
}
suite! {
    port, uglezmir,
    made = |made: Result<_, uglezmir::Refusal>| made.expect("a limit of 1,024 at most"),
    limiter_key = uglezmir::gossip_policy::ChannelUpdateLimiterKey<fiber_types::Pubkey, ckb_types::packed::OutPoint>
}

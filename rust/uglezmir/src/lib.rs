//! nervosnetwork/fiber's `peer_message_policy.rs` and `gossip_policy.rs`, rewritten in a language in which every function is proved to meet its
//! contract, under the Rust's own module, type and method names.
//!
//! In the node, `mod peer_message_policy;` becomes `use uglezmir::peer_message_policy;`, and `mod gossip_policy;` likewise. Calls, settings and
//! answers stay as they are; what a caller has to know besides:
//!
//! - **Keys** are any type that gives its bytes: the node implements [`Key`] for its `Pubkey` and `OutPoint`, a line each.
//! - **Row limits** are 1,024 at most, where the Rust's default is 50,000. A maker that takes a limit answers a `Result`, and a larger limit is
//!   [`Refusal::LimitTooLarge`]. Makers that take none, and the defaults, are as in the Rust.
//! - **Refusals**: in two places the Rust goes wrong or grows without bound, and the library refuses instead, changing nothing. The Rust's signature has
//!   no room for that, so the plain call gives the answer that lets the least through, and a `try_` form hands the refusal out:
//!
//!   | call | refused where | the plain call then answers |
//!   |---|---|---|
//!   | [`admit`](peer_message_policy::PeerMessagePolicy::admit) | the ceiling is unlimited and the load in flight has no room in its numbers (4) | `Disconnect` |
//!   | [`allow_outbound_message`](gossip_policy::GossipPolicyState::allow_outbound_message) | 1,024 peers have an outbound row, and this one has none (5) | `false` |
//!   | [`reserve_outbound_message`](gossip_policy::GossipPolicyState::reserve_outbound_message) | likewise | `u64::MAX` |
//!   | [`refund_outbound_message`](gossip_policy::GossipPolicyState::refund_outbound_message) | likewise | nothing, and does nothing |
//!
//! - **Why**: [`try_admit_explained`](peer_message_policy::PeerMessagePolicy::try_admit_explained) answers a [`Cause`](peer_message_policy::Cause), which
//!   names the limit that ran short, and by how much; merged it is the Rust's answer.
//! - **Ties** in gossip eviction fall to the smallest key, where the Rust leaves them to its map's order.
//! - **Snapshots**, which the Rust has not: [`to_bytes`](peer_message_policy::PeerMessagePolicy::to_bytes) and
//!   [`from_bytes`](peer_message_policy::PeerMessagePolicy::from_bytes) of the peers' policies.
//! - **No serde, no logging.** All settings have public fields; serde's `remote` derive serves them.
//!
//! Every policy owns its memory, sized by its limit when it is made; only snapshots and clones allocate. All types are `Send` and `Sync`. No call
//! panics.
//!
//! The trouble that this library began with is a clock that steps back: one interval back fills a message bucket at once.
//! [`HeldPeerMessagePolicy`](peer_message_policy::HeldPeerMessagePolicy) is the peers' policy with the cure built in.
//!
//! ```
//! use uglezmir::peer_message_policy::{HeldPeerMessagePolicy, PeerMessageAdmission, PeerMessagePolicyConfig};
//!
//! let mut policy = HeldPeerMessagePolicy::new(PeerMessagePolicyConfig::default())?;
//! let peer = [2u8; 33];
//! assert_eq!(policy.admit(&peer, 300, 1_717_986_918_400), PeerMessageAdmission::Allow);
//! assert_eq!(policy.in_flight(), (1, 300));
//! policy.release_ingress(300);
//! # Ok::<(), uglezmir::Refusal>(())
//! ```

#![forbid(unsafe_code)]
#![warn(missing_docs)]

mod answer;
mod key;
mod refusal;

pub mod gossip_policy;
pub mod peer_message_policy;

pub use key::Key;
pub use refusal::Refusal;

/// How many rows a table has at most: peers, bans, limiter keys, outbound peers.
pub const MOST_ROWS: usize = uglezmir_sys::numbers::MOST_ROWS;

/// How many bytes a peer's key has.
pub const PEER_KEY: usize = uglezmir_sys::numbers::PEER_KEY;

/// How many bytes a channel's out point has.
pub const OUTPOINT_KEY: usize = uglezmir_sys::numbers::OUTPOINT_KEY;

/// Memory for a table of so many rows: at least one, and no more than any table has.
fn table(rows: usize, row: usize) -> Box<[u8]> {
    vec![0; rows.clamp(1, MOST_ROWS) * row].into_boxed_slice()
}

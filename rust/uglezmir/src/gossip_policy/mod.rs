//! How a node deals with gossip: `gossip_policy.rs`.
//!
//! [`GossipBanTracker`] scores violations and bans; [`ChannelUpdateLimiter`] limits the updates of each channel; [`GossipPolicyState`] joins the
//! bans with what may be sent to each peer and to all together; [`ByteTokenBucket`] and [`DiscreteTokenBucket`] are the buckets that all of it
//! counts with.

mod bans;
mod buckets;
mod limiter;
mod settings;
mod state;

pub use bans::{GossipBanTracker, GossipViolation};
pub use buckets::{ByteTokenBucket, DiscreteTokenBucket};
pub use limiter::{ChannelUpdateLimiter, ChannelUpdateLimiterKey};
pub use settings::*;
pub use state::GossipPolicyState;

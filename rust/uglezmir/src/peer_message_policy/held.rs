use super::{Cause, PeerMessageAdmission, PeerMessagePolicy, PeerMessagePolicyConfig};
use crate::{Key, Refusal, PEER_KEY};

/// The peers' policy, shielded from a clock that steps back: every [`admit`](Self::admit) and
/// [`record_invalid`](Self::record_invalid) of a peer is judged at the later of the given time and the time at which that peer was last judged.
///
/// A message bucket that sees today's time go back by one interval is full at once, in the Rust as in [`PeerMessagePolicy`]: both count the intervals
/// since the last refill in 32 bits. The extra burst fills the ceiling that all peers share, quiet neighbours are disconnected, their payments
/// expire. Here no peer's time ever goes back, and no caller can forget half of the cure:
///
/// ```
/// use uglezmir::peer_message_policy::{HeldPeerMessagePolicy, PeerMessageAdmission::*, PeerMessagePolicy, PeerMessagePolicyConfig};
///
/// let config = PeerMessagePolicyConfig { peer_message_interval_ms: 5, peer_message_burst: 1, ..Default::default() };
/// let (mut plain, mut held) = (PeerMessagePolicy::new(config)?, HeldPeerMessagePolicy::new(config)?);
/// let flooder = [2u8; 33];
/// assert_eq!((plain.admit(&flooder, 100, 1_717_986_918_400), held.admit(&flooder, 100, 1_717_986_918_400)), (Allow, Allow));
/// // the clock steps back by one interval
/// assert_eq!((plain.admit(&flooder, 100, 1_717_986_918_395), held.admit(&flooder, 100, 1_717_986_918_395)), (Allow, Disconnect));
/// # Ok::<(), uglezmir::Refusal>(())
/// ```
///
/// # What is proved of it
///
/// The theorem `shielded` (`crates/promises/proofs/Promises.antt`), of a policy that was made here, **under any clock**, for each peer by itself
/// and however the others behave:
///
/// - in one life, from held time s to t, it is let in with at most its burst and what the interval gives from s to t (rounded up) in messages, and
///   at most its burst and what the rate gives (rounded down) in bytes;
/// - a message within the smaller allowance (`Within` in `crates/promises/specs`), of a peer that is not banned, is refused only where the
///   ceiling has no room, or as [`Refusal::NoRoomInFlight`]; so the limit that [`try_admit_explained`](Self::try_admit_explained) names is then never
///   [`Messages`](super::Limit::Messages) or [`Bytes`](super::Limit::Bytes) (the theorem `named`).
///
/// A life begins where the peer gets an entry, and ends with a ban that is over, or with an eviction.
///
/// # What is not
///
/// - **It does not always let more in.** A peer's allowance is counted in its held time. After a clock that ran an hour ahead and came back, a
///   peer that was judged meanwhile stands at the later time until the clock catches up: its buckets fill no further, so it can be refused, and
///   banned until after that time, where raw times would have let it in.
/// - **A newcomer who arrives while the clock is back is evicted first.** It is judged at the raw time, which lies before the last use of every peer
///   that is held; where the table is full, the peer used longest ago goes, and that is the newcomer.
/// - Nothing is promised of the ceiling: peers that are each within their share can fill it.
/// - [`is_banned`](Self::is_banned) and [`on_disconnected`](Self::on_disconnected) are judged at the time that is given. A time far ahead there ends bans.
///
/// A later version of the library keeps one held time in the policy, for all of its calls; the methods here stay.
#[derive(Debug, Default)]
pub struct HeldPeerMessagePolicy {
    policy: PeerMessagePolicy,
}

impl HeldPeerMessagePolicy {
    /// As [`PeerMessagePolicy::new`].
    pub fn new(config: PeerMessagePolicyConfig) -> Result<Self, Refusal> {
        let policy = PeerMessagePolicy::new(config)?;
        Ok(Self { policy })
    }

    /// As [`PeerMessagePolicy::with_limits`].
    pub fn with_limits(
        max_entries: usize,
        max_in_flight_messages: u32,
        max_in_flight_bytes: u64,
    ) -> Result<Self, Refusal> {
        let policy = PeerMessagePolicy::with_limits(max_entries, max_in_flight_messages, max_in_flight_bytes)?;
        Ok(Self { policy })
    }

    /// As [`PeerMessagePolicy::admit`], at the peer's held time.
    pub fn admit<Owner>(&mut self, peer: &impl Key<PEER_KEY, Owner>, bytes: u64, now_ms: u64) -> PeerMessageAdmission {
        self.try_admit(peer, bytes, now_ms)
            .unwrap_or(PeerMessageAdmission::Disconnect)
    }

    /// As [`PeerMessagePolicy::try_admit`], at the peer's held time.
    pub fn try_admit<Owner>(
        &mut self,
        peer: &impl Key<PEER_KEY, Owner>,
        bytes: u64,
        now_ms: u64,
    ) -> Result<PeerMessageAdmission, Refusal> {
        self.try_admit_explained(peer, bytes, now_ms).map(Cause::merge)
    }

    /// As [`PeerMessagePolicy::try_admit_explained`], at the peer's held time.
    pub fn try_admit_explained<Owner>(
        &mut self,
        peer: &impl Key<PEER_KEY, Owner>,
        bytes: u64,
        now_ms: u64,
    ) -> Result<Cause, Refusal> {
        let peer = peer.key_bytes();
        let held_ms = self.policy.held_time(&peer, now_ms);
        self.policy.try_admit_explained(&peer, bytes, held_ms)
    }

    /// As [`PeerMessagePolicy::record_invalid`], at the peer's held time.
    pub fn record_invalid<Owner>(&mut self, peer: &impl Key<PEER_KEY, Owner>, now_ms: u64) -> bool {
        let peer = peer.key_bytes();
        let held_ms = self.policy.held_time(&peer, now_ms);
        self.policy.record_invalid(&peer, held_ms)
    }

    /// As [`PeerMessagePolicy::is_banned`].
    pub fn is_banned<Owner>(&mut self, peer: &impl Key<PEER_KEY, Owner>, now_ms: u64) -> bool {
        self.policy.is_banned(peer, now_ms)
    }

    /// As [`PeerMessagePolicy::on_disconnected`].
    pub fn on_disconnected<Owner>(&mut self, peer: &impl Key<PEER_KEY, Owner>, now_ms: u64) {
        self.policy.on_disconnected(peer, now_ms);
    }

    /// As [`PeerMessagePolicy::release_ingress`].
    pub fn release_ingress(&mut self, bytes: u64) {
        self.policy.release_ingress(bytes);
    }

    /// As [`PeerMessagePolicy::in_flight`].
    pub fn in_flight(&self) -> (u32, u64) {
        self.policy.in_flight()
    }

    /// As [`PeerMessagePolicy::to_bytes`]. The time at which each peer was last judged is part of it.
    pub fn to_bytes(&self) -> Vec<u8> {
        self.policy.to_bytes()
    }

    /// As [`PeerMessagePolicy::from_bytes`], of what either policy wrote. Nothing is proved of the share of a peer since before it was written.
    pub fn from_bytes(snapshot: &[u8]) -> Result<Self, Refusal> {
        let policy = PeerMessagePolicy::from_bytes(snapshot)?;
        Ok(Self { policy })
    }
}

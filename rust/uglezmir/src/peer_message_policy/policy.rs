use super::{Cause, PeerMessagePolicyConfig};
use crate::answer::{done, told};
use crate::{table, Key, Refusal, MOST_ROWS, PEER_KEY};
use std::fmt;
use uglezmir_sys::numbers::{
    CAUSE_WORDS, FIRST_ANSWER, PEER_ROW, POLICY_LONGS, POLICY_LONG_MAX_TRACKED_PEERS, POLICY_LONG_ROWS, POLICY_SHORTS,
    SETTINGS_LONGS, SETTINGS_SHORTS, SNAPSHOT_WITHOUT_ROWS,
};
use uglezmir_sys::peers::{self, PolicyLongs, PolicyShorts};
use uglezmir_sys::snapshots;

/// The verdict on a message. [`Cause`] says why.
#[derive(Clone, Copy, Debug, PartialEq, Eq)]
pub enum PeerMessageAdmission {
    /// It is let in, and in flight until it is released.
    Allow,
    /// A limit or the ceiling is reached: drop the connection.
    Disconnect,
    /// The peer is banned, by this message or already.
    Ban,
}

/// The peers' policy: the Rust's answers, call for call.
///
/// **A clock that steps back by one interval fills a message bucket at once**, here as in the Rust. [`HeldPeerMessagePolicy`](super::HeldPeerMessagePolicy) has the
/// same methods and is shielded from that.
///
/// ```
/// use uglezmir::peer_message_policy::{PeerMessageAdmission::*, PeerMessagePolicy, PeerMessagePolicyConfig};
///
/// let mut policy = PeerMessagePolicy::new(PeerMessagePolicyConfig {
///     peer_message_interval_ms: 10,
///     peer_message_burst: 2,
///     violation_ban_threshold: 2,
///     ban_duration_ms: 100,
///     ..Default::default()
/// })?;
/// let peer = [2u8; 33];
/// assert_eq!(policy.admit(&peer, 300, 50), Allow);
/// assert_eq!(policy.admit(&peer, 300, 50), Allow);
/// assert_eq!(policy.admit(&peer, 1, 50), Disconnect); // its burst of two is used up
/// assert_eq!(policy.admit(&peer, 1, 55), Ban); // the second violation within 100 ms
/// assert!(policy.is_banned(&peer, 154));
/// assert_eq!(policy.admit(&peer, 1, 155), Allow); // the ban is over
/// assert_eq!(policy.in_flight(), (3, 601));
/// policy.release_ingress(300);
/// assert_eq!(policy.in_flight(), (2, 301));
/// # Ok::<(), uglezmir::Refusal>(())
/// ```
pub struct PeerMessagePolicy {
    longs: PolicyLongs,
    shorts: PolicyShorts,
    table: Box<[u8]>,
}

impl PeerMessagePolicy {
    /// A policy without a peer, which owns 121 bytes for each that it may track. Refused with [`Refusal::LimitTooLarge`] where
    /// `max_tracked_peers` is above 1,024.
    pub fn new(config: PeerMessagePolicyConfig) -> Result<Self, Refusal> {
        let mut policy = Self::unmade(&config);
        done(peers::new(&mut policy.longs, &mut policy.shorts, &mut policy.table))?;
        Ok(policy)
    }

    /// The defaults, but for these three numbers. Refused as [`new`](Self::new).
    pub fn with_limits(
        max_entries: usize,
        max_in_flight_messages: u32,
        max_in_flight_bytes: u64,
    ) -> Result<Self, Refusal> {
        Self::new(PeerMessagePolicyConfig::with_limits(
            max_entries,
            max_in_flight_messages,
            max_in_flight_bytes,
        ))
    }

    /// May this message in? It is in flight then, until [`release_ingress`](Self::release_ingress).
    ///
    /// Where [`try_admit`](Self::try_admit) is refused, the answer is `Disconnect`, and nothing has changed.
    pub fn admit<Owner>(&mut self, peer: &impl Key<PEER_KEY, Owner>, bytes: u64, now_ms: u64) -> PeerMessageAdmission {
        self.try_admit(peer, bytes, now_ms)
            .unwrap_or(PeerMessageAdmission::Disconnect)
    }

    /// As [`admit`](Self::admit), with its refusal: [`Refusal::NoRoomInFlight`] where the message would be let in, the ceiling is unlimited, and
    /// 4,294,967,295 messages or more than 2^64 - 1 bytes would be in flight. The Rust's sums wrap there.
    ///
    /// ```
    /// use uglezmir::peer_message_policy::{PeerMessageAdmission::*, PeerMessagePolicy, PeerMessagePolicyConfig};
    /// use uglezmir::Refusal;
    ///
    /// let mut policy = PeerMessagePolicy::new(PeerMessagePolicyConfig {
    ///     peer_message_rate_bytes_per_sec: 0, // no limit on a peer's bytes
    ///     max_in_flight_bytes: 0,             // no ceiling
    ///     ..Default::default()
    /// })?;
    /// let peer = [2u8; 33];
    /// assert_eq!(policy.try_admit(&peer, u64::MAX, 50), Ok(Allow));
    /// assert_eq!(policy.try_admit(&peer, 1, 50), Err(Refusal::NoRoomInFlight));
    /// assert_eq!(policy.admit(&peer, 1, 50), Disconnect);
    /// assert_eq!(policy.in_flight(), (1, u64::MAX));
    /// # Ok::<(), Refusal>(())
    /// ```
    pub fn try_admit<Owner>(
        &mut self,
        peer: &impl Key<PEER_KEY, Owner>,
        bytes: u64,
        now_ms: u64,
    ) -> Result<PeerMessageAdmission, Refusal> {
        self.try_admit_explained(peer, bytes, now_ms).map(Cause::merge)
    }

    /// As [`try_admit`](Self::try_admit), and says why: which limit ran short and by how much, or whether a ban is live or begins.
    ///
    /// ```
    /// use uglezmir::peer_message_policy::{Cause, Limit, PeerMessagePolicy, PeerMessagePolicyConfig, Shortage};
    ///
    /// let mut policy = PeerMessagePolicy::new(PeerMessagePolicyConfig {
    ///     peer_message_interval_ms: 10,
    ///     peer_message_burst: 2,
    ///     violation_ban_threshold: 2,
    ///     max_in_flight_bytes: 1_000,
    ///     ..Default::default()
    /// })?;
    /// let (peer, neighbour) = ([2u8; 33], [3u8; 33]);
    /// assert_eq!(policy.try_admit_explained(&peer, 300, 50), Ok(Cause::Allowed));
    /// // more than is left under the ceiling: we are busy, and the peer has done no wrong
    /// assert_eq!(policy.try_admit_explained(&peer, 720, 50), Ok(Cause::Short(Shortage::CeilingBytes(20))));
    /// assert_eq!(policy.try_admit_explained(&peer, 300, 50), Ok(Cause::Allowed));
    /// // its burst of two is used up: the peer sent too much
    /// let cause = policy.try_admit_explained(&peer, 1, 50)?;
    /// assert_eq!(cause.limit(), Some(Limit::Messages));
    /// assert_eq!(policy.try_admit_explained(&peer, 1, 50), Ok(Cause::BanBegun));
    /// assert_eq!(policy.try_admit_explained(&peer, 1, 51), Ok(Cause::LiveBan));
    /// assert_eq!(policy.try_admit_explained(&neighbour, 1, 51), Ok(Cause::Allowed));
    /// # Ok::<(), uglezmir::Refusal>(())
    /// ```
    pub fn try_admit_explained<Owner>(
        &mut self,
        peer: &impl Key<PEER_KEY, Owner>,
        bytes: u64,
        now_ms: u64,
    ) -> Result<Cause, Refusal> {
        let (longs, shorts, table) = (&mut self.longs, &mut self.shorts, &mut self.table);
        let mut cause = [0; CAUSE_WORDS];
        let number = peers::admit_explained(longs, shorts, table, &peer.key_bytes(), bytes, now_ms, &mut cause);
        if number < FIRST_ANSWER {
            return Err(Refusal::of(number));
        }
        Cause::of(cause)
    }

    /// An invalid message came. Answers whether the peer is banned, by this message or already.
    pub fn record_invalid<Owner>(&mut self, peer: &impl Key<PEER_KEY, Owner>, now_ms: u64) -> bool {
        let (longs, shorts, table) = (&mut self.longs, &mut self.shorts, &mut self.table);
        told(peers::record_invalid(longs, shorts, table, &peer.key_bytes(), now_ms)).unwrap_or(true)
    }

    /// Whether the peer is banned. A ban that is over is forgotten.
    pub fn is_banned<Owner>(&mut self, peer: &impl Key<PEER_KEY, Owner>, now_ms: u64) -> bool {
        let (longs, shorts, table) = (&mut self.longs, &mut self.shorts, &mut self.table);
        told(peers::is_banned(longs, shorts, table, &peer.key_bytes(), now_ms)).unwrap_or(true)
    }

    /// The peer's connection closed. Its buckets are kept, so that a new connection gains it nothing.
    pub fn on_disconnected<Owner>(&mut self, peer: &impl Key<PEER_KEY, Owner>, now_ms: u64) {
        let (longs, shorts, table) = (&mut self.longs, &mut self.shorts, &mut self.table);
        peers::on_disconnected(longs, shorts, table, &peer.key_bytes(), now_ms);
    }

    /// A message of so many bytes that was let in is done with.
    pub fn release_ingress(&mut self, bytes: u64) {
        peers::release_ingress(&mut self.longs, &mut self.shorts, bytes);
    }

    /// The messages and the bytes in flight.
    pub fn in_flight(&self) -> (u32, u64) {
        let mut numbers = [0; 2];
        peers::in_flight(&self.longs, &self.shorts, &mut numbers);
        (numbers[0] as u32, numbers[1])
    }

    /// The whole policy as bytes: settings, load in flight and every peer, 120 bytes and 121 for each that is tracked. The layout is the library's
    /// own (docs/REFERENCE.md, "Snapshots"), the same on every machine.
    ///
    /// ```
    /// use uglezmir::peer_message_policy::{PeerMessageAdmission::*, PeerMessagePolicy, PeerMessagePolicyConfig};
    /// use uglezmir::Refusal;
    ///
    /// let config = PeerMessagePolicyConfig { peer_message_burst: 1, ..Default::default() };
    /// let mut policy = PeerMessagePolicy::new(config)?;
    /// assert_eq!(policy.admit(&[2u8; 33], 300, 50), Allow);
    /// let bytes = policy.to_bytes();
    /// assert_eq!(bytes.len(), 120 + 121);
    ///
    /// let mut again = PeerMessagePolicy::from_bytes(&bytes)?;
    /// assert_eq!(again.in_flight(), (1, 300));
    /// assert_eq!(again.admit(&[2u8; 33], 300, 50), Disconnect); // its bucket is as empty as it was
    /// assert_eq!(PeerMessagePolicy::from_bytes(&bytes[1..]).unwrap_err(), Refusal::WrongLayout);
    /// # Ok::<(), Refusal>(())
    /// ```
    pub fn to_bytes(&self) -> Vec<u8> {
        let rows = self.longs[POLICY_LONG_ROWS] as usize;
        let mut output = vec![0; SNAPSHOT_WITHOUT_ROWS + rows * PEER_ROW];
        let mut length = 0;
        // Never refused: a policy that was made is sound, and the output has just the length.
        snapshots::write(&self.longs, &self.shorts, &self.table, &mut output, &mut length);
        output.truncate(length as usize);
        output
    }

    /// The policy that [`to_bytes`](Self::to_bytes) wrote: from then on it answers as the one that was written. It is proved that what is written is
    /// read back, and that what is read would be written again, byte for byte.
    ///
    /// Refused with [`Refusal::WrongLayout`], [`Refusal::LimitTooLarge`] or [`Refusal::Unsound`], in this order, where the bytes are anything else.
    /// Bytes that were made up with care can describe any sound state, say a peer with a full bucket: read back what you wrote.
    pub fn from_bytes(snapshot: &[u8]) -> Result<Self, Refusal> {
        let mut policy = Self {
            longs: [0; POLICY_LONGS],
            shorts: [0; POLICY_SHORTS],
            table: table(MOST_ROWS, PEER_ROW),
        };
        done(snapshots::read(
            &mut policy.longs,
            &mut policy.shorts,
            snapshot,
            &mut policy.table,
        ))?;
        let limit = policy.longs[POLICY_LONG_MAX_TRACKED_PEERS] as usize;
        let rows = &policy.table[..limit.clamp(1, MOST_ROWS) * PEER_ROW];
        policy.table = rows.into();
        Ok(policy)
    }

    /// The words of a policy to be made, and memory for its limit.
    fn unmade(config: &PeerMessagePolicyConfig) -> Self {
        let (mut longs, mut shorts) = ([0; POLICY_LONGS], [0; POLICY_SHORTS]);
        let (first_longs, first_shorts) = config.words();
        longs[..SETTINGS_LONGS].copy_from_slice(&first_longs);
        shorts[..SETTINGS_SHORTS].copy_from_slice(&first_shorts);
        let table = table(config.max_tracked_peers, PEER_ROW);
        Self { longs, shorts, table }
    }

    fn config(&self) -> PeerMessagePolicyConfig {
        let longs = std::array::from_fn(|at| self.longs[at]);
        let shorts = std::array::from_fn(|at| self.shorts[at]);
        PeerMessagePolicyConfig::of_words(&longs, &shorts)
    }

    /// The later of the given time and the peer's last-used time, for the held policy.
    pub(super) fn held_time(&self, peer: &[u8; PEER_KEY], now_ms: u64) -> u64 {
        let mut held = now_ms;
        peers::held_time(&self.longs, &self.shorts, &self.table, peer, now_ms, &mut held);
        held
    }
}

impl Default for PeerMessagePolicy {
    fn default() -> Self {
        let mut policy = Self::unmade(&PeerMessagePolicyConfig::default());
        // Never refused: the default's limit is 1,024, and the table is sized by it.
        peers::new(&mut policy.longs, &mut policy.shorts, &mut policy.table);
        policy
    }
}

impl fmt::Debug for PeerMessagePolicy {
    fn fmt(&self, f: &mut fmt::Formatter<'_>) -> fmt::Result {
        f.debug_struct("PeerMessagePolicy")
            .field("config", &self.config())
            .field("in_flight", &self.in_flight())
            .field("tracked_peers", &self.longs[POLICY_LONG_ROWS])
            .finish_non_exhaustive()
    }
}

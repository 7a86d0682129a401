use uglezmir_sys::buckets::{settings, SettingsLongs, SettingsShorts};
use uglezmir_sys::numbers::{
    OP_SETTINGS_BAN_DISABLED, OP_SETTINGS_DEFAULT, OP_SETTINGS_MESSAGE_LIMIT_DISABLED, OP_SETTINGS_WITH_LIMITS,
    SETTINGS_LONGS, SETTINGS_SHORTS, YES,
};

/// The settings of a [`PeerMessagePolicy`](super::PeerMessagePolicy), with the Rust's names and defaults.
///
/// A field set to 0 turns its limit off:
/// - `peer_message_interval_ms` or `peer_message_burst`: no limit on a peer's messages;
/// - `peer_message_rate_bytes_per_sec` or `peer_message_burst_bytes`: none on its bytes;
/// - `violation_ban_threshold`: no bans;
/// - `max_in_flight_messages` or `max_in_flight_bytes`: no ceiling on the load in flight.
///
/// ```
/// use uglezmir::peer_message_policy::PeerMessagePolicyConfig;
///
/// let config = PeerMessagePolicyConfig { violation_ban_threshold: 0, ..Default::default() };
/// assert!(config.ban_disabled() && !config.message_limit_disabled());
/// assert_eq!((config.peer_message_interval_ms, config.peer_message_burst), (5, 400));
/// assert_eq!(config.max_tracked_peers, 1_024); // the one default that is not the Rust's, which is 50,000
/// ```
#[derive(Clone, Copy, Debug, PartialEq, Eq)]
pub struct PeerMessagePolicyConfig {
    /// Refill interval of a peer's message bucket, in milliseconds.
    pub peer_message_interval_ms: u64,
    /// Capacity of a peer's message bucket.
    pub peer_message_burst: u32,
    /// Sustained rate of a peer, in bytes a second.
    pub peer_message_rate_bytes_per_sec: u64,
    /// Capacity of a peer's byte bucket.
    pub peer_message_burst_bytes: u64,
    /// How many violations within a ban's duration ban a peer.
    pub violation_ban_threshold: u32,
    /// How long a ban lasts, in milliseconds.
    pub ban_duration_ms: u64,
    /// How many peers are tracked: 1,024 at most, and 0 counts as 1. Where there are more, the one that was used longest ago goes.
    pub max_tracked_peers: usize,
    /// How many messages may be in flight, of all peers together.
    pub max_in_flight_messages: u32,
    /// How many bytes may be in flight, of all peers together.
    pub max_in_flight_bytes: u64,
}

impl Default for PeerMessagePolicyConfig {
    fn default() -> Self {
        let (mut longs, mut shorts) = ([0; SETTINGS_LONGS], [0; SETTINGS_SHORTS]);
        settings(OP_SETTINGS_DEFAULT, &mut longs, &mut shorts);
        Self::of_words(&longs, &shorts)
    }
}

impl PeerMessagePolicyConfig {
    /// Whether a peer's messages are not limited.
    pub fn message_limit_disabled(&self) -> bool {
        self.asked(OP_SETTINGS_MESSAGE_LIMIT_DISABLED)
    }

    /// Whether no peer is ever banned.
    pub fn ban_disabled(&self) -> bool {
        self.asked(OP_SETTINGS_BAN_DISABLED)
    }

    /// The defaults, but for these three; a limit of 0 becomes 1.
    pub(super) fn with_limits(max_entries: usize, max_in_flight_messages: u32, max_in_flight_bytes: u64) -> Self {
        let given = Self {
            max_tracked_peers: max_entries,
            max_in_flight_messages,
            max_in_flight_bytes,
            ..Self::default()
        };
        let (mut longs, mut shorts) = given.words();
        settings(OP_SETTINGS_WITH_LIMITS, &mut longs, &mut shorts);
        Self::of_words(&longs, &shorts)
    }

    fn asked(&self, operation: u32) -> bool {
        let (mut longs, mut shorts) = self.words();
        settings(operation, &mut longs, &mut shorts) == YES
    }

    /// As the settings cross: the first words of a policy.
    pub(super) fn words(&self) -> (SettingsLongs, SettingsShorts) {
        let longs = [
            self.peer_message_interval_ms,
            self.peer_message_rate_bytes_per_sec,
            self.peer_message_burst_bytes,
            self.ban_duration_ms,
            self.max_tracked_peers as u64,
            self.max_in_flight_bytes,
        ];
        let shorts = [
            self.peer_message_burst,
            self.violation_ban_threshold,
            self.max_in_flight_messages,
        ];
        (longs, shorts)
    }

    pub(super) fn of_words(longs: &SettingsLongs, shorts: &SettingsShorts) -> Self {
        let [interval, rate, burst_bytes, duration, tracked, in_flight_bytes] = *longs;
        let [burst, threshold, in_flight_messages] = *shorts;
        Self {
            peer_message_interval_ms: interval,
            peer_message_burst: burst,
            peer_message_rate_bytes_per_sec: rate,
            peer_message_burst_bytes: burst_bytes,
            violation_ban_threshold: threshold,
            ban_duration_ms: duration,
            max_tracked_peers: tracked as usize,
            max_in_flight_messages: in_flight_messages,
            max_in_flight_bytes: in_flight_bytes,
        }
    }
}

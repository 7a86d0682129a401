// Appended by the oracle's build script; everything above is the Rust as published.

impl DiscreteTokenBucket {
    pub(crate) fn oracle_read(&self) -> vocabulary::DiscreteBucket {
        vocabulary::DiscreteBucket {
            interval: self.interval_ms,
            capacity: self.capacity,
            available: self.available,
            last_refill: self.last_refill_ms,
        }
    }

    pub(crate) fn oracle_make(bucket: &vocabulary::DiscreteBucket) -> Self {
        Self {
            interval_ms: bucket.interval,
            capacity: bucket.capacity,
            available: bucket.available,
            last_refill_ms: bucket.last_refill,
        }
    }

    pub(crate) fn oracle_refill(&mut self, now_ms: u64) {
        self.refill(now_ms);
    }

    pub(crate) fn oracle_is_full(&self) -> bool {
        self.is_full()
    }
}

impl ByteTokenBucket {
    pub(crate) fn oracle_read(&self) -> vocabulary::ByteBucket {
        vocabulary::ByteBucket {
            rate: self.config.rate_bytes_per_sec,
            burst: self.config.burst_bytes,
            available: vocabulary::Amount::of(self.available_bytes),
            last_refill: self.last_refill_ms,
        }
    }

    pub(crate) fn oracle_make(bucket: &vocabulary::ByteBucket) -> Self {
        Self {
            config: ByteRateLimitConfig {
                rate_bytes_per_sec: bucket.rate,
                burst_bytes: bucket.burst,
            },
            available_bytes: bucket.available.as_i128().expect("an i128"),
            last_refill_ms: bucket.last_refill,
        }
    }

    pub(crate) fn oracle_refill(&mut self, now_ms: u64) {
        self.refill(now_ms);
    }

    /// How many bytes are missing: the Rust does not say, so it is worked out from the bucket that a no leaves.
    pub(crate) fn oracle_bytes_short(&self, bytes: u64) -> u64 {
        let short = i128::from(bytes).saturating_sub(self.available_bytes);
        short.clamp(0, u64::MAX.into()) as u64
    }

    pub(crate) fn oracle_peek_delay_after_refill(&self, bytes: u64, now_ms: u64) -> u64 {
        self.peek_delay_after_refill(bytes, now_ms)
    }
}

impl ByteRateLimitConfig {
    pub(crate) fn oracle_default_global() -> Self {
        default_global_outbound_config()
    }

    pub(crate) fn oracle_default_peer() -> Self {
        default_peer_outbound_config()
    }

    /// Rate, burst.
    pub(crate) fn oracle_read(&self) -> [u64; 2] {
        [self.rate_bytes_per_sec, self.burst_bytes]
    }
}

/// What a row shows whose bucket has other settings than its table: no sound row has such a number.
const ORACLE_OTHER_SETTINGS: u64 = u64::MAX;

impl GossipBanConfig {
    pub(crate) fn oracle_make(words: &vocabulary::GossipWords) -> Self {
        use vocabulary::gossip::*;
        Self {
            threshold: words.shorts[MOST],
            duration_ms: words.longs[PERIOD],
        }
    }
}

impl GossipViolation {
    pub(crate) fn oracle_make(violation: u32) -> Self {
        match violation {
            0 => Self::InvalidSyncResponse,
            1 => Self::InvalidBroadcastMessage,
            2 => Self::PolicyRejectedMessage,
            other => panic!("no violation {other}"),
        }
    }
}

impl GossipBanTracker {
    /// A sound state: scores within u32, marks 0 or 1.
    pub(crate) fn oracle_make(state: &vocabulary::GossipState) -> Self {
        use vocabulary::gossip::*;
        let config = GossipBanConfig::oracle_make(&state.words);
        let mut tracker = config.build_tracker_with_max_entries(state.words.longs[LIMIT] as usize);
        for row in &state.rows[0] {
            let n = &row.numbers;
            let entry = GossipBanEntry {
                score: n[GossipRow::SCORE] as u32,
                banned_until_ms: (n[GossipRow::MARK] == 1).then_some(n[GossipRow::END]),
                last_updated_ms: n[GossipRow::UPDATED],
            };
            tracker.peers.insert(Pubkey(row.peer()), entry);
        }
        tracker
    }

    /// Into the first table and its words.
    pub(crate) fn oracle_read(&self, into: &mut vocabulary::GossipState) {
        use vocabulary::gossip::*;
        into.words.shorts[MOST] = self.config.threshold;
        into.words.longs[PERIOD] = self.config.duration_ms;
        into.words.longs[LIMIT] = self.max_entries as u64;
        into.rows[0].clear();
        into.rows[0].extend(self.peers.iter().map(|(key, entry)| {
            let mark = entry.banned_until_ms.is_some().into();
            let end = entry.banned_until_ms.unwrap_or(0);
            GossipRow::of_peer(&key.0, [entry.score.into(), mark, end, entry.last_updated_ms])
        }));
    }
}

impl ChannelUpdateRateLimitConfig {
    pub(crate) fn oracle_make(words: &vocabulary::GossipWords) -> Self {
        use vocabulary::gossip::*;
        Self {
            interval_ms: words.longs[PERIOD],
            burst: words.shorts[MOST],
        }
    }
}

impl ChannelUpdateLimiter {
    /// A sound state: available within the burst.
    pub(crate) fn oracle_make(state: &vocabulary::GossipState) -> Self {
        use vocabulary::gossip::*;
        let config = ChannelUpdateRateLimitConfig::oracle_make(&state.words);
        let (interval, capacity) = (config.interval_ms, config.burst);
        let mut limiter = Self::with_max_entries(config, state.words.longs[LIMIT] as usize);
        for row in &state.rows[0] {
            let n = &row.numbers;
            let bucket = DiscreteTokenBucket::oracle_make(&vocabulary::DiscreteBucket {
                interval,
                capacity,
                available: n[GossipRow::AVAILABLE] as u32,
                last_refill: n[GossipRow::REFILL],
            });
            let last_used_ms = n[GossipRow::USED];
            let key = ChannelUpdateLimiterKey::oracle_make(&row.key);
            limiter.buckets.insert(key, ChannelUpdateLimiterEntry { bucket, last_used_ms });
        }
        limiter
    }

    pub(crate) fn oracle_read(&self, into: &mut vocabulary::GossipState) {
        use vocabulary::gossip::*;
        into.words.longs[PERIOD] = self.config.interval_ms;
        into.words.shorts[MOST] = self.config.burst;
        into.words.longs[LIMIT] = self.max_entries as u64;
        into.rows[0].clear();
        into.rows[0].extend(self.buckets.iter().map(|(key, entry)| {
            let bucket = entry.bucket.oracle_read();
            let own = (bucket.interval, bucket.capacity) == (self.config.interval_ms, self.config.burst);
            let available = if own { bucket.available.into() } else { ORACLE_OTHER_SETTINGS };
            GossipRow {
                key: key.oracle_bytes(),
                numbers: [available, bucket.last_refill, entry.last_used_ms, 0],
            }
        }));
    }

    /// `tracked_keys` is built for the Rust's tests alone.
    pub(crate) fn oracle_tracked_keys(&self) -> usize {
        self.buckets.len()
    }
}

impl ChannelUpdateLimiterKey {
    pub(crate) fn oracle_make(key: &vocabulary::LongKey) -> Self {
        Self::new(
            Pubkey(key[..33].try_into().unwrap()),
            OutPoint(key[33..69].try_into().unwrap()),
            key[69] != 0,
        )
    }

    fn oracle_bytes(&self) -> vocabulary::LongKey {
        let mut bytes = [0; 70];
        bytes[..33].copy_from_slice(&self.peer.0);
        bytes[33..69].copy_from_slice(&self.channel_outpoint.0);
        bytes[69] = self.is_node1.into();
        bytes
    }
}

impl GossipPolicyConfig {
    pub(crate) fn oracle_make(words: &vocabulary::GossipWords) -> Self {
        use vocabulary::gossip::*;
        let limit = |rate: usize, burst: usize| ByteRateLimitConfig {
            rate_bytes_per_sec: words.longs[rate],
            burst_bytes: words.longs[burst],
        };
        Self {
            ban: GossipBanConfig::oracle_make(words),
            outbound_global: limit(GLOBAL_RATE, GLOBAL_BURST),
            outbound_peer: limit(PEER_RATE, PEER_BURST),
            outbound_delay_queue_capacity: words.longs[QUEUE_CAPACITY] as usize,
            inbound_channel_update: ChannelUpdateRateLimitConfig::default(),
        }
    }
}

impl GossipPolicyState {
    /// A sound state: amounts that are i128.
    pub(crate) fn oracle_make(state: &vocabulary::GossipState) -> Self {
        use vocabulary::gossip::*;
        let words = &state.words;
        let mut made = Self::new(GossipPolicyConfig::oracle_make(words));
        made.ban_tracker = GossipBanTracker::oracle_make(state);
        made.global_outbound = ByteTokenBucket::oracle_make(&words.global());
        for row in &state.rows[1] {
            let bucket = ByteTokenBucket::oracle_make(&vocabulary::ByteBucket {
                rate: words.longs[PEER_RATE],
                burst: words.longs[PEER_BURST],
                available: row.amount(),
                last_refill: row.numbers[GossipRow::OUTBOUND_REFILL],
            });
            made.peer_outbound.insert(Pubkey(row.peer()), bucket);
        }
        made
    }

    pub(crate) fn oracle_read(&self, into: &mut vocabulary::GossipState) {
        use vocabulary::gossip::*;
        self.ban_tracker.oracle_read(into);
        into.words.set_global(&self.global_outbound.oracle_read());
        let peer = self.peer_outbound_config.oracle_read();
        [into.words.longs[PEER_RATE], into.words.longs[PEER_BURST]] = peer;
        into.words.longs[QUEUE_CAPACITY] = self.outbound_delay_queue_capacity as u64;
        into.rows[1].clear();
        into.rows[1].extend(self.peer_outbound.iter().map(|(key, bucket)| {
            let bucket = bucket.oracle_read();
            let [sign, low, high] = bucket.available.words();
            let own = [bucket.rate, bucket.burst] == peer;
            let sign = if own { sign } else { ORACLE_OTHER_SETTINGS };
            GossipRow::of_peer(&key.0, [sign, low, high, bucket.last_refill])
        }));
    }
}

// Appended by the oracle's build script; everything above is the Rust as published.

impl PeerMessagePolicyConfig {
    pub(crate) fn oracle_make(settings: &vocabulary::Settings) -> Self {
        Self {
            peer_message_interval_ms: settings.interval,
            peer_message_burst: settings.burst,
            peer_message_rate_bytes_per_sec: settings.rate,
            peer_message_burst_bytes: settings.burst_bytes,
            violation_ban_threshold: settings.threshold,
            ban_duration_ms: settings.ban_duration,
            max_tracked_peers: settings.max_tracked as usize,
            max_in_flight_messages: settings.max_messages,
            max_in_flight_bytes: settings.max_bytes,
        }
    }

    pub(crate) fn oracle_read(&self) -> vocabulary::Settings {
        vocabulary::Settings {
            interval: self.peer_message_interval_ms,
            burst: self.peer_message_burst,
            rate: self.peer_message_rate_bytes_per_sec,
            burst_bytes: self.peer_message_burst_bytes,
            threshold: self.violation_ban_threshold,
            ban_duration: self.ban_duration_ms,
            max_tracked: self.max_tracked_peers as u64,
            max_messages: self.max_in_flight_messages,
            max_bytes: self.max_in_flight_bytes,
        }
    }

    pub(crate) fn oracle_is_unlimited(self) -> bool {
        PeerMessagePolicy::new(self).ingress.is_unlimited()
    }
}

impl PeerMessagePolicyEntry {
    /// A sound row: counts within u32, available within the capacities.
    fn oracle_make(row: &vocabulary::Row, settings: &vocabulary::Settings) -> Self {
        let n = &row.numbers;
        Self {
            messages: DiscreteTokenBucket::oracle_make(&vocabulary::DiscreteBucket {
                interval: settings.interval,
                capacity: settings.burst,
                available: n[0] as u32,
                last_refill: n[1],
            }),
            bytes: ByteTokenBucket::oracle_make(&vocabulary::ByteBucket {
                rate: settings.rate,
                burst: settings.burst_bytes,
                available: vocabulary::Amount::plus(n[2].into()),
                last_refill: n[3],
            }),
            rate_limit_violations: ViolationWindow {
                count: n[4] as u32,
                started_at_ms: n[5],
            },
            invalid_messages: ViolationWindow {
                count: n[6] as u32,
                started_at_ms: n[7],
            },
            banned_until_ms: (n[8] == 1).then_some(n[9]),
            last_used_ms: n[10],
        }
    }

    fn oracle_read(&self, key: &Pubkey) -> vocabulary::Row {
        let messages = self.messages.oracle_read();
        let bytes = self.bytes.oracle_read();
        // A number below zero or past u64 has no row. Such a state is shown as the largest number, which no
        // row of a sound policy holds where the burst is smaller.
        let available = bytes.available.as_i128().and_then(|n| u64::try_from(n).ok());
        vocabulary::Row {
            key: key.0,
            numbers: [
                messages.available.into(),
                messages.last_refill,
                available.unwrap_or(u64::MAX),
                bytes.last_refill,
                self.rate_limit_violations.count.into(),
                self.rate_limit_violations.started_at_ms,
                self.invalid_messages.count.into(),
                self.invalid_messages.started_at_ms,
                self.banned_until_ms.is_some().into(),
                self.banned_until_ms.unwrap_or(0),
                self.last_used_ms,
            ],
        }
    }
}

impl FiberIngressBudget {
    /// What the ceiling has no room for, the slot first.
    fn oracle_shortage(&self, bytes: u64) -> Option<vocabulary::Cause> {
        let left = self.max_bytes.saturating_sub(self.in_flight_bytes);
        if self.is_unlimited() {
            None
        } else if self.in_flight_messages >= self.max_messages {
            Some(vocabulary::Cause::Slot)
        } else if bytes > left {
            Some(vocabulary::Cause::CeilingBytes(bytes - left))
        } else {
            None
        }
    }
}

impl PeerMessagePolicy {
    /// What will decide on a message, seen in the state before the call: a live ban, the message bucket, the byte bucket, the ceiling. Whether
    /// a bucket that runs short begins a ban is seen in the answer.
    pub(crate) fn oracle_cause(&self, peer: &Pubkey, bytes: u64, now_ms: u64) -> vocabulary::Cause {
        let known = self.peers.get(peer);
        if known.is_some_and(|entry| entry.is_banned(now_ms)) {
            return vocabulary::Cause::LiveBan;
        }
        // A ban that is over takes its entry with it.
        let unbanned = known.filter(|entry| entry.banned_until_ms.is_none());
        let new = PeerMessagePolicyEntry::new(now_ms, &self.config);
        let entry = unbanned.unwrap_or(&new);
        let (mut messages, mut byte) = (entry.messages.clone(), entry.bytes.clone());
        if !self.config.message_limit_disabled() && !messages.try_consume(now_ms) {
            return vocabulary::Cause::Messages;
        }
        if !byte.try_consume(bytes, now_ms) {
            return vocabulary::Cause::Bytes(byte.oracle_bytes_short(bytes));
        }
        self.ingress.oracle_shortage(bytes).unwrap_or(vocabulary::Cause::Allowed)
    }

    pub(crate) fn oracle_make(state: &vocabulary::PeerState) -> Self {
        let mut policy = Self::new(PeerMessagePolicyConfig::oracle_make(&state.settings));
        policy.ingress.in_flight_messages = state.in_flight_messages;
        policy.ingress.in_flight_bytes = state.in_flight_bytes;
        for row in &state.rows {
            let entry = PeerMessagePolicyEntry::oracle_make(row, &state.settings);
            // Not through insert_entry: the state is set as it is given, whatever that function does.
            let key = Pubkey(row.key);
            match entry.banned_until_ms {
                Some(end) => policy.banned_expirations.insert((end, key)),
                None => policy.ordinary_lru.insert((entry.last_used_ms, key)),
            };
            policy.peers.insert(key, entry);
        }
        policy
    }

    pub(crate) fn oracle_read(&self, into: &mut vocabulary::PeerState) {
        into.settings = self.config.oracle_read();
        (into.in_flight_messages, into.in_flight_bytes) = self.oracle_in_flight();
        into.rows.clear();
        let rows = self.peers.iter().map(|(key, entry)| entry.oracle_read(key));
        into.rows.extend(rows);
        into.rows.sort_unstable_by_key(|row| row.key);
    }

    pub(crate) fn oracle_in_flight(&self) -> (u32, u64) {
        (self.ingress.in_flight_messages, self.ingress.in_flight_bytes)
    }

    pub(crate) fn oracle_last_used(&self, peer: &Pubkey) -> Option<u64> {
        self.peers.get(peer).map(|entry| entry.last_used_ms)
    }

    /// Each row stands in exactly one of the two orders, under its stored time.
    pub(crate) fn oracle_orders_agree(&self) -> bool {
        let listed = self.ordinary_lru.len() + self.banned_expirations.len();
        listed == self.peers.len()
            && self.peers.iter().all(|(key, entry)| match entry.banned_until_ms {
                Some(end) => self.banned_expirations.contains(&(end, *key)),
                None => self.ordinary_lru.contains(&(entry.last_used_ms, *key)),
            })
    }
}

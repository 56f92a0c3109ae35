//! A packet number space of the handshake: what came in it and is to be acknowledged, what was sent
//! in it, and its CRYPTO stream both ways (RFC 9000, sections 12.3 and 13; RFC 9002).
use crate::failure::Failure;
use crate::frame::{put_ack, put_prefixed};
use rustls::quic::Keys;
use std::collections::{BTreeMap, BTreeSet};
use std::ops::RangeInclusive;

/// How many numbers that came are kept, and how far ahead bytes of a CRYPTO stream may come.
const RECEIVED: usize = 64;
const CRYPTO_BUFFER: u64 = 65536;
/// How far below an acknowledged packet one counts as lost (RFC 9002, section 6.1.1).
const PACKET_THRESHOLD: u64 = 3;
/// Bytes of a CRYPTO frame that aren't data, at most.
const CRYPTO_HEAD: usize = 9;

/// A packet number space. Without keys nothing is sent or opened in it.
#[derive(Default)]
pub struct Space {
    pub keys: Option<Keys>,
    /// The number of the next packet, and one more than the greatest that came.
    pub next: u64,
    pub expected: u64,
    /// Whether an acknowledgement is due, and a PING, for want of anything else.
    ack_due: bool,
    probe: bool,
    received: BTreeSet<u64>,
    /// The CRYPTO stream that comes: how much of it was taken, and what is ahead, by offsets.
    taken: u64,
    ahead: BTreeMap<u64, Vec<u8>>,
    /// The CRYPTO stream that goes, and from where on it is to be sent.
    pub outgoing: Vec<u8>,
    from: usize,
    /// The ack-eliciting packets that aren't acknowledged: when each was sent, and where its CRYPTO
    /// bytes begin.
    sent: BTreeMap<u64, (u64, usize)>,
}

impl Space {
    /// Whether a packet of this number is new. Very late ones count as known.
    pub fn is_new(&self, number: u64) -> bool {
        let least = self.received.iter().next().filter(|_| self.received.len() == RECEIVED);
        !self.received.contains(&number) && least.map_or(true, |&least| least < number)
    }

    /// Notes a packet that opened, and that was taken.
    pub fn on_received(&mut self, number: u64, ack_eliciting: bool) {
        self.expected = self.expected.max(number + 1);
        self.ack_due |= ack_eliciting;
        self.received.insert(number);
        if self.received.len() > RECEIVED {
            self.received = self.received.iter().skip(1).copied().collect();
        }
    }

    /// Keeps bytes of the CRYPTO stream that came.
    pub fn insert_crypto(&mut self, offset: u64, data: &[u8]) -> Result<(), Failure> {
        let end = offset + data.len() as u64;
        if end > self.taken + CRYPTO_BUFFER {
            return Err(Failure::broken("too much of the handshake at once"));
        }
        let known = self.ahead.get(&offset).map_or(0, Vec::len);
        if end > self.taken && data.len() > known {
            self.ahead.insert(offset, data.to_vec());
        }
        Ok(())
    }

    /// The bytes of the CRYPTO stream that come next, as many as there are at once.
    pub fn take_crypto(&mut self) -> Option<Vec<u8>> {
        let offset = *self.ahead.range(..=self.taken).next()?.0;
        let mut data = self.ahead.remove(&offset)?;
        let known = (self.taken - offset).min(data.len() as u64);
        data.drain(..known as usize);
        self.taken += data.len() as u64;
        Some(data)
    }

    /// Whether there is something to be sent in it, and keys for that.
    pub fn has_to_send(&self) -> bool {
        self.keys.is_some() && (self.ack_due || self.probe || self.from < self.outgoing.len())
    }

    /// When the last ack-eliciting packet that is in flight was sent.
    pub fn last_in_flight(&self) -> Option<u64> {
        self.keys.as_ref().and_then(|_| self.sent.values().map(|(at, _)| *at).max())
    }

    /// Frames for the next packet, of at most so many bytes: an acknowledgement, and CRYPTO or a
    /// PING. They count as sent.
    pub fn write_frames(&mut self, now: u64, room: usize) -> Vec<u8> {
        let (mut frames, crypto) = (Vec::new(), self.from);
        if !self.received.is_empty() {
            put_ack(&mut frames, &ranges(&self.received));
        }
        let left = room.saturating_sub(frames.len() + CRYPTO_HEAD);
        self.from = self.outgoing.len().min(crypto + left);
        if crypto < self.from {
            let data = &self.outgoing[crypto..self.from];
            put_prefixed(&mut frames, &[0x06, crypto as u64], data);
        } else if self.probe {
            frames.push(0x01);
        }
        if crypto < self.from || self.probe {
            self.sent.insert(self.next, (now, crypto));
        }
        (self.ack_due, self.probe) = (false, false);
        frames
    }

    /// Takes an acknowledgement: when the greatest packet that it names was sent, if that is new.
    pub fn on_ack(&mut self, ranges: &[RangeInclusive<u64>]) -> Result<Option<u64>, Failure> {
        let greatest = *ranges[0].end();
        if greatest >= self.next {
            return Err(Failure::broken("an unsent packet is acknowledged"));
        }
        let sent_at = self.sent.get(&greatest).map(|(at, _)| *at);
        self.sent.retain(|number, _| !ranges.iter().any(|range| range.contains(number)));
        self.lose_below((greatest + 1).saturating_sub(PACKET_THRESHOLD));
        Ok(sent_at)
    }

    /// Counts packets as lost: the CRYPTO stream goes again from where the first of them began.
    fn lose_below(&mut self, number: u64) {
        let kept = self.sent.split_off(&number);
        let lost = std::mem::replace(&mut self.sent, kept);
        self.from = lost.values().map(|(_, crypto)| *crypto).fold(self.from, usize::min);
    }

    /// Sends again what isn't acknowledged, or else a PING.
    pub fn probe(&mut self) {
        self.lose_below(self.next);
        self.probe = true;
    }
}

/// Ranges of numbers, the greatest first.
fn ranges(numbers: &BTreeSet<u64>) -> Vec<RangeInclusive<u64>> {
    let mut ranges: Vec<RangeInclusive<u64>> = Vec::new();
    for &number in numbers.iter().rev() {
        match ranges.last_mut() {
            Some(last) if *last.start() == number + 1 => *last = number..=*last.end(),
            _ => ranges.push(number..=number),
        }
    }
    ranges
}

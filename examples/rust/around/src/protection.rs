//! Packet protection of 1-RTT packets, around an endpoint whose own keys hide nothing (RFC 9001,
//! sections 5 and 6).
//!
//! The endpoint's keys are stand-ins: the mask of a header is the sample itself, and the tag has
//! the packet number in eight bytes and the letter of the sender's side eight times. That is taken
//! off each datagram that the endpoint gives, and put on each that it gets; lengths stay. The
//! endpoint knows one key phase, 0: a key update of the peer is followed here.
use crate::failure::{Failure, Status};
use crate::handshake::{Id, OneRtt};
use crate::packet::{protect, unprotect, TAG};
use fennelhammer::Side;
use rustls::quic::{HeaderProtectionKey, PacketKey, PacketKeySet, Secrets};

const KEY_PHASE: u8 = 0x04;
/// Where the packet number stands behind an own ID.
const NUMBER_AT: usize = 1 + std::mem::size_of::<Id>();
/// What the stand-in tags of a client and a server end with.
const CLIENT: [u8; 8] = *b"cccccccc";
const SERVER: [u8; 8] = *b"ssssssss";

/// The keys of both sides, and what they were used for.
pub struct Protection {
    local_header: HeaderProtectionKey,
    remote_header: HeaderProtectionKey,
    pub current: PacketKeySet,
    /// What the peer's stand-in tags end with.
    mark: [u8; 8],
    /// The peer's key of the phase before, for packets that come late.
    previous: Option<PacketKey>,
    next: PacketKeySet,
    secrets: Secrets,
    /// The key phase bit now, and the first packet of the peer that had it.
    phase: u8,
    phase_began: u64,
    /// One more than the greatest number that came.
    expected: u64,
    /// How many packets didn't open, and how often the peer updated its keys.
    pub refused: u64,
    pub updates: u64,
}

impl Protection {
    /// Around an endpoint of this side.
    pub fn new(side: Side, (keys, mut secrets): OneRtt) -> Self {
        Protection {
            mark: if side == Side::Client { SERVER } else { CLIENT },
            local_header: keys.local.header,
            remote_header: keys.remote.header,
            current: PacketKeySet { local: keys.local.packet, remote: keys.remote.packet },
            previous: None,
            next: secrets.next_packet_keys(),
            secrets,
            phase: 0,
            phase_began: 0,
            expected: 0,
            refused: 0,
            updates: 0,
        }
    }

    /// Seals a datagram of the endpoint in place, to an ID of so many bytes.
    pub fn seal(&self, datagram: &mut [u8], id_len: usize) -> Result<(), Failure> {
        let wrong = |error| Failure::fault("seal", error);
        let (number_at, tag_at) = (1 + id_len, datagram.len() - TAG);
        datagram[0] ^= datagram[number_at + 4] & 0x1f;
        let width = usize::from(datagram[0] & 3) + 1;
        mask(datagram, number_at, width);
        let number = datagram[tag_at..].iter().take(8);
        let number = number.fold(0, |number, &byte| number << 8 | u64::from(byte));
        if !number.to_be_bytes().ends_with(&datagram[number_at..number_at + width]) {
            let why = "the peer's connection IDs have many lengths";
            return Err(Failure::new(Status::Refused, why));
        }
        datagram[0] |= self.phase;
        let (header, rest) = datagram.split_at_mut(number_at + width);
        let (payload, tag) = rest.split_at_mut(tag_at - number_at - width);
        let sealed = self.current.local.encrypt_in_place(number, header, payload);
        tag.copy_from_slice(sealed.map_err(wrong)?.as_ref());
        protect(&self.local_header, datagram, number_at).map_err(wrong)
    }

    /// Opens a packet of the peer in place, so that the endpoint takes it: whether it did. Where
    /// it doesn't open it counts as refused.
    pub fn open(&mut self, packet: &mut [u8]) -> Result<bool, Failure> {
        let header = unprotect(&self.remote_header, packet, NUMBER_AT, self.expected);
        let (number, frames_at) = match header {
            Some(found) => found,
            None => return Ok(false), // Too short to be a packet of anyone.
        };
        let is_other = packet[0] & KEY_PHASE != self.phase;
        let is_late = is_other && number < self.phase_began;
        let key = match &self.previous {
            Some(previous) if is_late => previous,
            _ if is_other => &self.next.remote,
            _ => &self.current.remote,
        };
        let (head, payload) = packet.split_at_mut(frames_at);
        if key.decrypt_in_place(number, head, payload).is_err() {
            self.refused += 1;
            let is_allowed = self.refused < key.integrity_limit(); // RFC 9001, section 6.6.
            let too_many = || Failure::broken("too many packets didn't open");
            return is_allowed.then(|| false).ok_or_else(too_many);
        }
        if is_other && !is_late {
            self.update(number);
        }
        self.expected = self.expected.max(number + 1);
        let tag_at = packet.len() - TAG;
        packet[tag_at..tag_at + 8].copy_from_slice(&number.to_be_bytes());
        packet[tag_at + 8..].copy_from_slice(&self.mark);
        mask(packet, NUMBER_AT, frames_at - NUMBER_AT);
        packet[0] = packet[0] & !KEY_PHASE ^ packet[NUMBER_AT + 4] & 0x1f;
        Ok(true)
    }

    /// The peer updated its keys, from this packet on: both sides' next ones are in use.
    fn update(&mut self, number: u64) {
        let next = std::mem::replace(&mut self.next, self.secrets.next_packet_keys());
        let current = std::mem::replace(&mut self.current, next);
        self.previous = Some(current.remote);
        (self.phase, self.phase_began) = (self.phase ^ KEY_PHASE, number);
        self.updates += 1;
    }
}

/// Puts the stand-in mask on a packet number, or takes it off.
fn mask(datagram: &mut [u8], number_at: usize, width: usize) {
    let (header, sample) = datagram.split_at_mut(number_at + 4);
    let number = header[number_at..].iter_mut().take(width);
    number.zip(&sample[1..]).for_each(|(byte, mask)| *byte ^= mask);
}

//! Packets: which ones a datagram has, and how their headers and payloads are protected (RFC 9000,
//! section 17; RFC 9001, section 5).
use crate::frame::{put_prefixed, Reader};
use ring::aead;
use rustls::quic::{DirectionalKeys, HeaderProtectionKey};
use rustls::Error;
use std::ops::Range;

/// The version of RFC 9000.
pub const VERSION: u32 = 1;
/// Bytes of an AEAD's tag, and of a sample for the mask of a header.
pub const TAG: usize = 16;
/// Bytes of the packet numbers that this program writes in long headers; and of a packet, what is
/// neither its header up to its length nor its frames.
const NUMBER: usize = 2;
pub const OVERHEAD: usize = 2 + NUMBER + TAG;

/// The packet number space of a long header.
#[derive(Clone, Copy, Debug, PartialEq, Eq)]
pub enum Level {
    Initial,
    Handshake,
}

/// What a packet is.
pub enum Kind {
    /// The versions that the server has.
    VersionNegotiation(Vec<u32>),
    /// The token.
    Retry(Vec<u8>),
    /// An Initial or Handshake packet, and how far into it its number stands.
    Long(Level, usize),
    /// A 1-RTT packet, whose IDs stay empty here.
    Short,
    /// A long header of another version than 1.
    OtherVersion,
    /// Of no use.
    Other,
}

/// A packet, and where in its datagram it stands.
pub struct Packet {
    pub kind: Kind,
    /// The connection IDs of a long header: to where it goes, and from where it comes.
    pub dcid: Vec<u8>,
    pub scid: Vec<u8>,
    /// Whether it is an Initial packet with a token.
    pub has_token: bool,
    pub at: Range<usize>,
}

/// Which packets a datagram has (RFC 9000, section 12.2). What can't be read, and all behind it, is
/// left out.
pub fn packets(datagram: &[u8]) -> Vec<Packet> {
    let mut at = 0;
    let next = || {
        let packet = read_packet(datagram, at)?;
        at = packet.at.end;
        Some(packet)
    };
    std::iter::from_fn(next).collect()
}

fn big_endian(bytes: &[u8]) -> u32 {
    bytes.iter().fold(0, |value, &byte| value << 8 | u32::from(byte))
}

/// The packet that begins there.
fn read_packet(datagram: &[u8], begin: usize) -> Option<Packet> {
    let mut from = Reader(&datagram[begin..]);
    let first = from.take(1)?[0];
    let (mut end, is_fixed) = (datagram.len(), first & 0x40 != 0);
    if first & 0x80 == 0 {
        let kind = if is_fixed { Kind::Short } else { Kind::Other };
        let (dcid, scid) = Default::default();
        return Some(Packet { kind, dcid, scid, has_token: false, at: begin..end });
    }
    let version = big_endian(from.take(4)?);
    let (dcid, scid) = (from.id()?.to_vec(), from.id()?.to_vec());
    let mut has_token = false;
    let kind = match first >> 4 & 3 {
        _ if version == 0 => {
            Kind::VersionNegotiation(from.0.chunks_exact(4).map(big_endian).collect())
        }
        _ if version != VERSION => Kind::OtherVersion,
        _ if !is_fixed => Kind::Other,
        3 => Kind::Retry(from.0[..from.0.len().checked_sub(TAG)?].to_vec()),
        kind => {
            has_token = kind == 0 && !from.prefixed()?.is_empty();
            let len = from.varint()?;
            let number_at = end - begin - from.0.len();
            from.take(len)?;
            end -= from.0.len();
            match kind {
                0 => Kind::Long(Level::Initial, number_at),
                2 => Kind::Long(Level::Handshake, number_at),
                _ => Kind::Other, // There is no 0-RTT here.
            }
        }
    };
    Some(Packet { kind, dcid, scid, has_token, at: begin..end })
}

/// A long header up to its length; the token is an Initial packet's.
pub fn long_header(level: Level, dcid: &[u8], scid: &[u8], token: &[u8]) -> Vec<u8> {
    let mut header = vec![0xc0 | (level as u8) << 5 | (NUMBER as u8 - 1)];
    header.extend(VERSION.to_be_bytes());
    put_prefixed(&mut header, &[], dcid); // An ID has less than 64 bytes, so its length has one.
    put_prefixed(&mut header, &[], scid);
    if level == Level::Initial {
        put_prefixed(&mut header, &[], token);
    }
    header
}

/// A Version Negotiation packet, from where the client's packet went to where that came from.
pub fn version_negotiation(asked: &Packet) -> Vec<u8> {
    let mut packet = vec![0xc0, 0, 0, 0, 0];
    put_prefixed(&mut packet, &[], &asked.scid);
    put_prefixed(&mut packet, &[], &asked.dcid);
    packet.extend(VERSION.to_be_bytes());
    packet
}

/// Seals a packet of this header and number; its frames fit a datagram, and have two bytes or more.
pub fn seal_long(
    keys: &DirectionalKeys,
    mut packet: Vec<u8>,
    number: u64,
    frames: &[u8],
) -> Result<Vec<u8>, Error> {
    packet.extend(((NUMBER + frames.len() + TAG) as u16 | 0x4000).to_be_bytes());
    let number_at = packet.len();
    packet.extend((number as u16).to_be_bytes());
    packet.extend(frames);
    let (header, payload) = packet.split_at_mut(number_at + NUMBER);
    let tag = keys.packet.encrypt_in_place(number, header, payload)?;
    packet.extend(tag.as_ref());
    protect(&keys.header, &mut packet, number_at)?;
    Ok(packet)
}

/// Opens an Initial or Handshake packet in place: its number, and where its frames are; `None`
/// where it doesn't open.
pub fn open_long(
    keys: &DirectionalKeys,
    packet: &mut [u8],
    number_at: usize,
    expected: u64,
) -> Option<(u64, Range<usize>)> {
    let (number, frames_at) = unprotect(&keys.header, packet, number_at, expected)?;
    let (header, payload) = packet.split_at_mut(frames_at);
    let len = keys.packet.decrypt_in_place(number, header, payload).ok()?.len();
    Some((number, frames_at..frames_at + len))
}

/// Puts the header protection on a packet that is sealed otherwise.
pub fn protect(
    key: &HeaderProtectionKey,
    packet: &mut [u8],
    number_at: usize,
) -> Result<(), Error> {
    let (header, sample) = packet.split_at_mut(number_at + 4);
    let (first, rest) = header.split_at_mut(1);
    key.encrypt_in_place(&sample[..TAG], &mut first[0], &mut rest[number_at - 1..])
}

/// Takes the header protection off: the packet number, next to the one that is expected (RFC 9000,
/// appendix A.3), and where the payload begins; `None` where the packet is too short for a sample.
pub fn unprotect(
    key: &HeaderProtectionKey,
    packet: &mut [u8],
    number_at: usize,
    expected: u64,
) -> Option<(u64, usize)> {
    if packet.len() < number_at + 4 + TAG {
        return None;
    }
    let (header, sample) = packet.split_at_mut(number_at + 4);
    let (first, rest) = header.split_at_mut(1);
    key.decrypt_in_place(&sample[..TAG], &mut first[0], &mut rest[number_at - 1..]).ok()?;
    let width = usize::from(packet[0] & 3) + 1;
    let bytes = &packet[number_at..number_at + width];
    let low = u64::from(big_endian(bytes));
    let window = 1 << (8 * width);
    let least = expected.saturating_sub(window / 2);
    Some((least + (low.wrapping_sub(least) & (window - 1)), number_at + width))
}

/// Whether a Retry, which ends with its tag, was made for this first ID (RFC 9001, section 5.8).
pub fn is_valid_retry(first_id: &[u8], retry: &[u8]) -> bool {
    const KEY: u128 = 0xbe0c690b9f66575a1d766b54e368c84e;
    const NONCE: [u8; 12] = [70, 21, 153, 211, 93, 99, 43, 242, 35, 152, 37, 187];
    let (head, tag) = retry.split_at(retry.len() - TAG);
    let pseudo = aead::Aad::from([&[first_id.len() as u8], first_id, head].concat());
    let nonce = aead::Nonce::assume_unique_for_key(NONCE);
    let key = aead::UnboundKey::new(&aead::AES_128_GCM, &KEY.to_be_bytes());
    let key = key.map(aead::LessSafeKey::new);
    key.map_or(false, |key| key.open_in_place(nonce, pseudo, &mut tag.to_vec()).is_ok())
}

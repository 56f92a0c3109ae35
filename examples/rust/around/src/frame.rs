//! Variable-length integers (RFC 9000, section 16), and the frames of Initial and Handshake packets
//! (sections 12.4 and 19).
use std::ops::RangeInclusive;

/// What is left to be read.
pub struct Reader<'a>(pub &'a [u8]);

impl<'a> Reader<'a> {
    /// So many bytes, if there are.
    pub fn take(&mut self, len: u64) -> Option<&'a [u8]> {
        let len = usize::try_from(len).ok()?;
        let taken = self.0.get(..len)?;
        self.0 = &self.0[len..];
        Some(taken)
    }

    /// An integer of one, two, four or eight bytes.
    pub fn varint(&mut self) -> Option<u64> {
        let first = *self.0.first()?;
        let bytes = self.take(1 << (first >> 6))?;
        let low = bytes[1..].iter();
        Some(low.fold(u64::from(first & 0x3f), |value, &byte| value << 8 | u64::from(byte)))
    }

    /// So many bytes as an integer before them says.
    pub fn prefixed(&mut self) -> Option<&'a [u8]> {
        let len = self.varint()?;
        self.take(len)
    }

    /// A connection ID, of at most 20 bytes.
    pub fn id(&mut self) -> Option<&'a [u8]> {
        let len = u64::from(self.take(1)?[0]);
        self.take(len).filter(|id| id.len() <= 20)
    }
}

/// Writes an integer, which is below 2^62.
pub fn put_varint(out: &mut Vec<u8>, value: u64) {
    match value {
        0..=0x3f => out.push(value as u8),
        0x40..=0x3fff => out.extend((value as u16 | 0x4000).to_be_bytes()),
        0x4000..=0x3fff_ffff => out.extend((value as u32 | 0x8000_0000).to_be_bytes()),
        _ => out.extend((value | 0xc000_0000_0000_0000).to_be_bytes()),
    }
}

/// Writes integers, and bytes behind their length: a CRYPTO or CONNECTION_CLOSE frame, or a
/// transport parameter.
pub fn put_prefixed(out: &mut Vec<u8>, values: &[u64], bytes: &[u8]) {
    values.iter().for_each(|&value| put_varint(out, value));
    put_varint(out, bytes.len() as u64);
    out.extend(bytes);
}

/// Writes an ACK frame of these ranges, of which there is at least one, the greatest first. The
/// delay is 0, as they are acknowledged at once.
pub fn put_ack(out: &mut Vec<u8>, ranges: &[RangeInclusive<u64>]) {
    let (first, count) = (&ranges[0], ranges.len() as u64 - 1);
    let head = [0x02, *first.end(), 0, count, first.end() - first.start()];
    head.into_iter().for_each(|value| put_varint(out, value));
    for (above, range) in ranges.iter().zip(&ranges[1..]) {
        put_varint(out, above.start() - range.end() - 2);
        put_varint(out, range.end() - range.start());
    }
}

/// A frame that a packet of the handshake may have.
pub enum Frame<'a> {
    Padding,
    Ping,
    /// The ranges of packet numbers, the greatest first.
    Ack(Vec<RangeInclusive<u64>>),
    /// The offset and the data.
    Crypto(u64, &'a [u8]),
    /// The error and its text.
    Close(u64, &'a [u8]),
}

/// The frames of a payload; `None` where one is malformed, or isn't for a handshake.
pub fn frames(payload: &[u8]) -> Option<Vec<Frame<'_>>> {
    let mut from = Reader(payload);
    std::iter::from_fn(|| (!from.0.is_empty()).then(|| read_frame(&mut from))).collect()
}

fn read_frame<'a>(from: &mut Reader<'a>) -> Option<Frame<'a>> {
    Some(match from.varint()? {
        0x00 => Frame::Padding,
        0x01 => Frame::Ping,
        kind @ 0x02..=0x03 => {
            let ranges = read_ranges(from)?;
            let counts = 3 * (kind - 2); // Of ECN codepoints, which nobody sends here.
            (0..counts).try_for_each(|_| from.varint().map(drop))?;
            Frame::Ack(ranges)
        }
        0x06 => Frame::Crypto(from.varint()?, from.prefixed()?),
        0x1c => {
            let (code, _at_fault) = (from.varint()?, from.varint()?);
            Frame::Close(code, from.prefixed()?)
        }
        _ => return None,
    })
}

fn read_ranges(from: &mut Reader<'_>) -> Option<Vec<RangeInclusive<u64>>> {
    let (mut top, _delay, count) = (from.varint()?, from.varint()?, from.varint()?);
    let mut bottom = top.checked_sub(from.varint()?)?;
    let mut ranges = vec![bottom..=top];
    for _ in 0..count {
        top = bottom.checked_sub(from.varint()?)?.checked_sub(2)?;
        bottom = top.checked_sub(from.varint()?)?;
        ranges.push(bottom..=top);
    }
    Some(ranges)
}

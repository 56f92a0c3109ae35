//! Field sections (RFC 9204) without a dynamic table: fields of the static one, and literals.
use super::huffman;
use std::borrow::Cow;

/// A field's name and value.
pub type Field<'a> = (Cow<'a, [u8]>, Cow<'a, [u8]>);

/// The static table (RFC 9204, appendix A), as far as files want it: an index, a name and a value.
/// Other fields are of no use here, so their names stay empty. The table's last index.
#[rustfmt::skip]
const STATIC: [(usize, &str, &str); 26] = [
    (0, ":authority", ""), (1, ":path", "/"), (4, "content-length", "0"),
    (15, ":method", "CONNECT"), (16, ":method", "DELETE"), (17, ":method", "GET"),
    (18, ":method", "HEAD"), (19, ":method", "OPTIONS"), (20, ":method", "POST"),
    (21, ":method", "PUT"), (22, ":scheme", "http"), (23, ":scheme", "https"),
    (24, ":status", "103"), (25, ":status", "200"), (26, ":status", "304"), (27, ":status", "404"),
    (28, ":status", "503"), (63, ":status", "100"), (64, ":status", "204"), (65, ":status", "206"),
    (66, ":status", "302"), (67, ":status", "400"), (68, ":status", "403"), (69, ":status", "421"),
    (70, ":status", "425"), (71, ":status", "500"),
];
const LAST: usize = 98;

/// Writes a field section.
pub fn encode(fields: &[(&str, &str)]) -> Vec<u8> {
    let mut out = vec![0, 0]; // No entry of a dynamic table is asked for.
    for (name, value) in fields {
        let mut named = STATIC.iter().filter(|(_, known, _)| known == name);
        if let Some((index, ..)) = named.clone().find(|(.., known)| known == value) {
            put_integer(&mut out, 0xc0, 6, *index);
            continue;
        }
        match named.next() {
            Some((index, ..)) => put_integer(&mut out, 0x50, 4, *index),
            None => put_text(&mut out, 0x20, 3, name),
        }
        put_text(&mut out, 0, 7, value);
    }
    out
}

/// Writes an integer behind so many bits that are given (RFC 7541, section 5.1).
fn put_integer(out: &mut Vec<u8>, first: u8, prefix: u8, value: usize) {
    let most = (1 << prefix) - 1;
    out.push(first | value.min(most) as u8);
    if let Some(mut rest) = value.checked_sub(most) {
        while rest >= 0x80 {
            out.push(rest as u8 | 0x80);
            rest >>= 7;
        }
        out.push(rest as u8);
    }
}

fn put_text(out: &mut Vec<u8>, first: u8, prefix: u8, text: &str) {
    put_integer(out, first, prefix, text.len());
    out.extend(text.as_bytes());
}

/// The fields of a section; `None` where it is malformed, or asks for a dynamic table.
pub fn decode(section: &[u8]) -> Option<Vec<Field<'_>>> {
    let mut from = section;
    let (count, _base) = (take_integer(&mut from, 8)?, take_integer(&mut from, 7)?);
    let next = || (!from.is_empty()).then(|| take_field(&mut from));
    std::iter::from_fn(next).collect::<Option<Vec<_>>>().filter(|_| count == 0)
}

fn take_field<'a>(from: &mut &'a [u8]) -> Option<Field<'a>> {
    let name = match from.first()? >> 4 {
        0x0c..=0x0f => return take_entry(from, 6),
        0x05 | 0x07 => take_entry(from, 4)?.0,
        0x02 | 0x03 => take_text(from, 3)?,
        _ => return None, // An entry of a dynamic table.
    };
    Some((name, take_text(from, 7)?))
}

/// Takes the index of an entry of the static table, which has so many bits at first.
fn take_entry(from: &mut &[u8], prefix: u8) -> Option<Field<'static>> {
    let index = take_integer(from, prefix).filter(|&index| index <= LAST)?;
    let found = STATIC.iter().find(|entry| entry.0 == index);
    let (_, name, value) = found.copied().unwrap_or_default();
    Some((name.as_bytes().into(), value.as_bytes().into()))
}

/// Takes a text, whose length has so many bits at first, with the Huffman code's switch above them.
fn take_text<'a>(from: &mut &'a [u8], prefix: u8) -> Option<Cow<'a, [u8]>> {
    let is_code = from.first()? >> prefix & 1 == 1;
    let len = take_integer(from, prefix)?;
    let text = from.get(..len)?;
    *from = &from[len..];
    Some(if is_code { huffman::decode(text)?.into() } else { text.into() })
}

/// Takes an integer, of less than 2^28 beyond its prefix.
fn take_integer(from: &mut &[u8], prefix: u8) -> Option<usize> {
    let (&first, rest) = from.split_first()?;
    *from = rest;
    let most = (1 << prefix) - 1;
    let mut value = usize::from(first) & most;
    if value < most {
        return Some(value);
    }
    for shift in [0, 7, 14, 21] {
        let (&byte, rest) = from.split_first()?;
        *from = rest;
        value += usize::from(byte & 0x7f) << shift;
        if byte < 0x80 {
            return Some(value);
        }
    }
    None
}

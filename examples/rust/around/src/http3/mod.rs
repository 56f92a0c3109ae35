//! HTTP/3 (RFC 9114) as far as files want it: control streams, SETTINGS, HEADERS and DATA. There is
//! no dynamic table, no push, and no priority.
mod huffman;
pub mod qpack;

use crate::failure::Failure;
use crate::frame::{put_prefixed, put_varint, Reader};
use fennelhammer::{Connection, Dir, Error};
use std::collections::BTreeMap;

/// Errors (RFC 9114, section 8.1; RFC 9204, section 6).
pub const NO_ERROR: u64 = 0x100;
pub const INTERNAL_ERROR: u64 = 0x102;
const STREAM_CREATION_ERROR: u64 = 0x103;
const CLOSED_CRITICAL_STREAM: u64 = 0x104;
pub const FRAME_UNEXPECTED: u64 = 0x105;
pub const FRAME_ERROR: u64 = 0x106;
const EXCESSIVE_LOAD: u64 = 0x107;
const MISSING_SETTINGS: u64 = 0x10a;
pub const REQUEST_INCOMPLETE: u64 = 0x10d;
pub const MESSAGE_ERROR: u64 = 0x10e;
const DECOMPRESSION_FAILED: u64 = 0x200;

/// Kinds of frames; those that are for control streams alone; and those that are for none, as they
/// are of HTTP/2, or push, which nobody asks for here.
const DATA: u64 = 0x00;
const HEADERS: u64 = 0x01;
const SETTINGS: u64 = 0x04;
const FOR_CONTROL: [u64; 4] = [0x03, SETTINGS, 0x07, 0x0d];
const FOR_NONE: [u64; 5] = [0x02, 0x05, 0x06, 0x08, 0x09];
const LONGEST_HEADERS: u64 = 16384;

/// Kinds of unidirectional streams: control, push, and those that stay, as both of QPACK.
const CONTROL: u64 = 0x00;
const PUSH: u64 = 0x01;
const CRITICAL: [u64; 3] = [CONTROL, 0x02, 0x03];
/// What a control stream begins with: its kind, and SETTINGS that change no default.
const GREETING: [u8; 3] = [CONTROL as u8, SETTINGS as u8, 0];

/// A HEADERS frame of these fields.
pub fn headers(fields: &[(&str, &str)]) -> Vec<u8> {
    let mut frame = Vec::new();
    put_prefixed(&mut frame, &[HEADERS], &qpack::encode(fields));
    frame
}

/// What stands before so many bytes in a DATA frame.
pub fn data_head(len: u64) -> Vec<u8> {
    let mut head = Vec::new();
    [DATA, len].iter().for_each(|&value| put_varint(&mut head, value));
    head
}

/// The fields of a section that came.
pub fn fields(section: &[u8]) -> Result<Vec<qpack::Field<'_>>, Failure> {
    let malformed = || Failure::http3(DECOMPRESSION_FAILED, "a field section is malformed");
    qpack::decode(section).ok_or_else(malformed)
}

/// The first value of a field of this name, as a text.
pub fn value<'a>(fields: &'a [qpack::Field<'_>], name: &str) -> Option<&'a str> {
    let found = fields.iter().find(|field| *field.0 == *name.as_bytes());
    found.and_then(|field| std::str::from_utf8(&field.1).ok())
}

/// A part of a stream: a field section, or bytes of DATA.
pub enum Piece {
    Headers(Vec<u8>),
    Data(Vec<u8>),
}

/// The frames of a stream, as its bytes come; of a request's by default.
#[derive(Default)]
pub struct Frames {
    is_control: bool,
    is_begun: bool,
    /// What came, but for pieces that were given.
    bytes: Vec<u8>,
    /// How many bytes are left of a frame that needn't be whole, and whether that is DATA.
    left: u64,
    is_data: bool,
}

impl Frames {
    /// Takes bytes that came, for [`Frames::next_piece`].
    pub fn take(&mut self, bytes: &[u8]) {
        self.bytes.extend(bytes);
    }

    /// Whether the stream may end here.
    pub fn is_whole(&self) -> bool {
        self.bytes.is_empty() && self.left == 0
    }

    /// The next piece, if enough came. Frames of other kinds are skipped.
    pub fn next_piece(&mut self) -> Result<Option<Piece>, Failure> {
        loop {
            let len = self.left.min(self.bytes.len() as u64);
            let part: Vec<u8> = self.bytes.drain(..len as usize).collect();
            self.left -= len;
            if len > 0 && self.is_data {
                return Ok(Some(Piece::Data(part)));
            }
            let mut from = Reader(&self.bytes);
            let (kind, len) = match (from.varint(), from.varint()) {
                (Some(kind), Some(len)) if self.left == 0 => (kind, len),
                _ => return Ok(None),
            };
            let (came, is_headers) = (from.0.len(), kind == HEADERS);
            self.check(kind, len)?;
            if is_headers && (came as u64) < len {
                return Ok(None);
            }
            self.bytes.drain(..self.bytes.len() - came);
            if is_headers {
                let section = self.bytes.drain(..len as usize).collect();
                return Ok(Some(Piece::Headers(section)));
            }
            (self.left, self.is_data) = (len, kind == DATA);
        }
    }

    /// Whether such a frame may come now.
    fn check(&mut self, kind: u64, len: u64) -> Result<(), Failure> {
        let is_first = !std::mem::replace(&mut self.is_begun, true);
        if self.is_control && is_first && kind != SETTINGS {
            return Err(Failure::http3(MISSING_SETTINGS, "no SETTINGS come first"));
        }
        let is_misplaced = match self.is_control {
            true => !is_first && [DATA, HEADERS, SETTINGS].contains(&kind),
            false => FOR_CONTROL.contains(&kind),
        };
        if is_misplaced || FOR_NONE.contains(&kind) {
            return Err(Failure::http3(FRAME_UNEXPECTED, "a frame is where it may not be"));
        }
        if len > LONGEST_HEADERS && kind == HEADERS {
            return Err(Failure::http3(EXCESSIVE_LOAD, "a header is too long"));
        }
        Ok(())
    }
}

/// A unidirectional stream of the peer's: its kind, once that came, and its frames, which only a
/// control stream has. Those of a dynamic table say nothing without one.
struct Incoming(Option<u64>, Frames);

impl Incoming {
    /// Takes bytes that came.
    fn take(&mut self, bytes: &[u8]) -> Result<(), Failure> {
        let Incoming(kind, frames) = self;
        frames.take(bytes);
        if kind.is_none() {
            let mut from = Reader(&frames.bytes);
            *kind = from.varint();
            if kind.is_some() {
                frames.bytes = from.0.to_vec();
            }
        }
        match kind {
            Some(CONTROL) => drop(frames.next_piece()?), // It has no pieces, but may break a rule.
            Some(PUSH) => return Err(Failure::http3(STREAM_CREATION_ERROR, "a push is unasked")),
            Some(_) => frames.bytes.clear(),
            None => {}
        }
        Ok(())
    }
}

/// The unidirectional streams of a connection, both ways.
#[derive(Default)]
pub struct Streams {
    incoming: BTreeMap<u64, Incoming>,
    /// The own control stream, and how much of its greeting is written.
    control: Option<u64>,
    greeted: usize,
}

impl Streams {
    /// Opens the own control stream, and greets on it, as far as there is room.
    pub fn greet(&mut self, connection: &mut Connection) -> Result<(), Failure> {
        while self.greeted < GREETING.len() {
            let stream = self.control.map_or_else(|| connection.open(Dir::Uni), Ok);
            self.control = stream.ok(); // Else it may not be opened yet.
            let write = |stream| connection.write(stream, &GREETING[self.greeted..]);
            match stream.and_then(write) {
                Err(Error::Blocked) => break,
                written => self.greeted += written?,
            }
        }
        Ok(())
    }

    /// Whether the peer opened this stream as one of these.
    pub fn has(&self, stream: u64) -> bool {
        self.incoming.contains_key(&stream)
    }

    /// Takes the streams that the peer opened.
    pub fn accept(&mut self, connection: &mut Connection) -> Result<(), Failure> {
        while let Some(stream) = connection.accept(Dir::Uni) {
            let frames = Frames { is_control: true, ..Frames::default() };
            self.incoming.insert(stream, Incoming(None, frames));
            self.read(connection, stream)?;
        }
        Ok(())
    }

    /// Reads what came on one of these streams.
    pub fn read(&mut self, connection: &mut Connection, stream: u64) -> Result<(), Failure> {
        let mut room = [0; 1024];
        while let Some(incoming) = self.incoming.get_mut(&stream) {
            let (len, is_over) = match connection.read(stream, &mut room) {
                Err(Error::Blocked) => return Ok(()),
                Err(Error::Reset(_) | Error::ClosedStream) => (0, true),
                read => read.map(|read| (read.len, read.fin))?,
            };
            incoming.take(&room[..len])?;
            if is_over && incoming.0.map_or(false, |kind| CRITICAL.contains(&kind)) {
                let why = "a stream is closed that has to stay";
                return Err(Failure::http3(CLOSED_CRITICAL_STREAM, why));
            }
            if is_over {
                self.incoming.remove(&stream);
            }
            if self.incoming.values().filter(|it| it.0 == Some(CONTROL)).count() > 1 {
                return Err(Failure::http3(STREAM_CREATION_ERROR, "a second control stream"));
            }
        }
        Ok(())
    }
}

//! Endpoints of QUIC connections, by the library of Fennelhammer (`./quic-lib` builds it).
//!
//! An endpoint has no socket, no clock and no thread: [`Connection::receive`] takes a datagram,
//! [`Connection::poll`] gives one, and times are nanoseconds from any beginning. `fennelhammer.h`
//! says all that holds of each call; this crate makes them safe: an endpoint is freed as it is
//! dropped, each call borrows it, and a negative answer is an [`Error`]. Its keys hide nothing, so
//! datagrams want packet protection around it.
mod ffi;
mod settings;

pub use settings::{Settings, Stats};

use std::ffi::CStr;
use std::fmt;
use std::ptr::NonNull;

/// Which endpoint of a connection.
#[derive(Clone, Copy, Debug, PartialEq, Eq)]
pub enum Side {
    Client = 0,
    Server = 1,
}

/// Which kind of streams.
#[derive(Clone, Copy, Debug, PartialEq, Eq)]
pub enum Dir {
    Bi = 0,
    Uni = 1,
}

/// Why a call didn't do what it was asked for. Nothing has changed then, unless it is said.
#[derive(Clone, Copy, Debug, PartialEq, Eq)]
pub enum Error {
    /// A number or a length that the call doesn't take.
    Invalid,
    /// The room given is too small for the answer.
    Room,
    /// An allocation failed; call again when there is memory.
    Memory,
    /// An allocation failed in `receive`, `poll` or `timeout`: the endpoint is of no more use.
    Failed,
    /// A setting is out of its range.
    Setting,
    /// An own connection ID of other than 8 bytes, or a peer's of none or of more than 20.
    IdLength,
    /// The peer's transport parameters are malformed, or one is out of its range.
    Parameters,
    /// A size of datagrams is above 65527, or above the peer's limit.
    DatagramSize,
    /// The first congestion window doesn't hold two datagrams.
    Window,
    /// A key may seal fewer than 16 packets, or refuse fewer.
    KeyLimit,
    /// A limit leaves no room now, nothing waits to be read, or the endpoint isn't open.
    Blocked,
    /// There is no such stream, or nothing is left to do on it.
    ClosedStream,
    /// The peer asked by this code that no more be sent on the stream.
    Stopped(u64),
    /// The peer reset the stream with this code.
    Reset(u64),
    /// The stream was read out of order before.
    Order,
    /// The message is longer than the peer, or a packet, takes.
    TooLarge,
    /// This endpoint takes no messages, so it sends none either.
    Disabled,
    /// The peer takes no messages.
    Unsupported,
    /// The datagram broke a rule of QUIC: the endpoint is closing, and [`Event::Lost`] says why.
    Closed,
    /// The endpoint is a client, and only a server says that the handshake is done.
    Client,
    /// It was said before that the handshake is done.
    Again,
    /// The endpoint isn't open.
    NotOpen,
    /// There is none.
    Absent,
    /// The library gave a code that this crate doesn't know.
    Unknown(i64),
}

/// The errors that carry nothing, and their codes (`fh_error`).
const CODES: [(i64, Error); 21] = [
    (-1, Error::Invalid),
    (-2, Error::Room),
    (-3, Error::Memory),
    (-4, Error::Failed),
    (-6, Error::Setting),
    (-8, Error::IdLength),
    (-9, Error::Parameters),
    (-10, Error::DatagramSize),
    (-11, Error::Window),
    (-12, Error::KeyLimit),
    (-13, Error::Absent),
    (-14, Error::Blocked),
    (-15, Error::ClosedStream),
    (-18, Error::Order),
    (-19, Error::TooLarge),
    (-20, Error::Disabled),
    (-21, Error::Unsupported),
    (-22, Error::Closed),
    (-23, Error::Client),
    (-24, Error::Again),
    (-25, Error::NotOpen),
];
const STOPPED: i64 = -16;
const RESET: i64 = -17;

impl Error {
    /// The error of an answer below 0, with the peer's code where it has one.
    fn of(answer: i64, code: u64) -> Self {
        match answer {
            STOPPED => Error::Stopped(code),
            RESET => Error::Reset(code),
            _ => {
                let known = CODES.iter().find(|(number, _)| *number == answer);
                known.map_or(Error::Unknown(answer), |(_, error)| *error)
            }
        }
    }

    /// The library's number of it.
    fn code(&self) -> i64 {
        match self {
            Error::Stopped(_) => STOPPED,
            Error::Reset(_) => RESET,
            Error::Unknown(answer) => *answer,
            other => CODES
                .iter()
                .find(|(_, error)| error == other)
                .map_or(0, |(code, _)| *code),
        }
    }
}

impl fmt::Display for Error {
    fn fmt(&self, f: &mut fmt::Formatter<'_>) -> fmt::Result {
        // SAFETY: of each number, a text that ends with a zero byte and stays for ever.
        let text = unsafe { CStr::from_ptr(ffi::fh_error_text(self.code())) };
        f.write_str(&text.to_string_lossy())?;
        match self {
            Error::Stopped(code) | Error::Reset(code) => write!(f, " (code {})", code),
            _ => Ok(()),
        }
    }
}

impl std::error::Error for Error {}

/// An answer that is no error.
fn check(answer: i64) -> Result<u64, Error> {
    check_with(answer, 0)
}

fn check_with(answer: i64, code: u64) -> Result<u64, Error> {
    if answer < 0 {
        Err(Error::of(answer, code))
    } else {
        Ok(answer as u64)
    }
}

/// What became of a datagram that came.
#[derive(Clone, Copy, Debug, PartialEq, Eq)]
pub enum Received {
    /// All its frames were taken.
    Taken,
    /// It was dropped: no error, and nothing to be done.
    Dropped(Dropped),
}

/// Why a datagram was dropped.
#[derive(Clone, Copy, Debug, PartialEq, Eq)]
pub enum Dropped {
    TooShort,
    /// A long header (RFC 9000, section 17.2).
    NotShort,
    FixedBit,
    /// The connection ID isn't one of this endpoint's in use.
    UnknownId,
    /// The key refused it.
    NotOpened,
    KeyPhase,
    /// Its packet number came before, or is too old to tell.
    Duplicate,
    Closing,
    Drained,
    /// It came to a client from another address than that of [`Connection::new`].
    Address,
    Unknown,
}

impl Dropped {
    fn of(answer: u64) -> Self {
        match answer {
            1 => Dropped::TooShort,
            2 => Dropped::NotShort,
            3 => Dropped::FixedBit,
            4 => Dropped::UnknownId,
            5 => Dropped::NotOpened,
            6 => Dropped::KeyPhase,
            7 => Dropped::Duplicate,
            8 => Dropped::Closing,
            9 => Dropped::Drained,
            10 => Dropped::Address,
            _ => Dropped::Unknown,
        }
    }
}

/// A datagram that is to be sent.
#[derive(Clone, Copy, Debug, PartialEq, Eq)]
pub struct Transmit {
    /// How many bytes it has.
    pub len: usize,
    /// To which address, by the caller's number.
    pub peer_address: u64,
    /// The ECN codepoint to send it with (RFC 3168).
    pub ecn: u32,
}

/// An own connection ID: a datagram with these bytes behind its first byte is for its endpoint.
#[derive(Clone, Copy, Debug, PartialEq, Eq)]
pub struct OwnId {
    /// The number under which it was issued; 0 of the first.
    pub sequence: u64,
    /// Its bytes.
    pub id: [u8; 8],
    /// The token by which a stateless reset is known (RFC 9000, section 10.3), but of the first.
    pub reset_token: Option<[u8; 16]>,
}

/// The most own connection IDs that live at once.
const OWN_IDS_MAX: usize = 8;

/// What a read gave.
#[derive(Clone, Copy, Debug, PartialEq, Eq)]
pub struct Read {
    /// How many bytes.
    pub len: usize,
    /// Where in the stream they begin.
    pub offset: u64,
    /// Whether the stream ends behind them. `false` says nothing where the room was filled: read
    /// again.
    pub fin: bool,
}

/// What happened.
#[derive(Clone, Debug, PartialEq, Eq)]
pub enum Event {
    /// The peer opened streams: [`Connection::accept`] takes them.
    Opened(Dir),
    /// Bytes, the FIN or a reset came on this stream.
    Readable(u64),
    /// This stream, on which a write was blocked, takes bytes again.
    Writable(u64),
    /// This stream was finished, and the peer has all its bytes and its FIN.
    Finished(u64),
    /// The peer asks by a code that no more be sent on a stream.
    Stopped { stream: u64, code: u64 },
    /// More streams of the kind may be opened.
    Available(Dir),
    /// A message came while none was unread. One that was kept for [`Error::Room`] doesn't count,
    /// so this may come though it is there.
    Message,
    /// At a client: the server says that the handshake is done (RFC 9001, section 4.1.2).
    HandshakeConfirmed,
    /// The connection is lost.
    Lost(Lost),
}

/// Why a connection is lost.
#[derive(Clone, Debug, PartialEq, Eq)]
pub enum Lost {
    /// This program closed it.
    Application,
    /// The peer's application closed it.
    PeerApplication { code: u64, text: String },
    /// The peer closed it by this error of QUIC.
    PeerTransport { code: u64, text: String },
    /// Nothing came for the idle timeout.
    Idle,
    /// Too many ranges of a stream were unread: more than 2048, and than one for each 1,024 bytes
    /// of [`Settings::stream_receive_window`].
    Pieces,
    /// A key sealed, or refused, as many packets as it may.
    KeyLimit,
    /// The packet numbers are used up.
    NumberLimit,
    /// The peer broke a rule of QUIC: `code` is its error.
    Transport { code: u64, text: String },
}

impl Lost {
    fn of(event: &ffi::fh_event, text: String) -> Self {
        let code = event.code;
        match event.reason {
            1 => Lost::Application,
            2 => Lost::PeerApplication { code, text },
            3 => Lost::PeerTransport { code, text },
            4 => Lost::Idle,
            5 => Lost::Pieces,
            6 => Lost::KeyLimit,
            7 => Lost::NumberLimit,
            _ => Lost::Transport { code, text },
        }
    }
}

/// Whether an endpoint is open (RFC 9000, section 10).
#[derive(Clone, Copy, Debug, PartialEq, Eq)]
pub enum State {
    Open,
    /// It only repeats its close.
    Closing,
    /// It sends nothing more, and drops what comes.
    Drained,
    /// An allocation failed.
    Failed,
}

/// What this library is: whether it was proved, and from which sources it was built.
pub fn build() -> &'static str {
    // SAFETY: a text that ends with a zero byte and stays for ever.
    unsafe { CStr::from_ptr(ffi::fh_build()) }
        .to_str()
        .unwrap_or("")
}

/// What a peer tells of itself before an endpoint is made.
#[derive(Clone, Copy, Debug)]
pub struct Peer<'a> {
    /// Its first connection ID, of 1 to 20 bytes.
    pub id: &'a [u8],
    /// Its transport parameters.
    pub parameters: &'a [u8],
    /// A number of the caller's for its address.
    pub address: u64,
}

/// One endpoint of a connection.
#[derive(Debug)]
pub struct Connection {
    raw: NonNull<ffi::fh_conn>,
}

// SAFETY: an endpoint has nothing in common with another, nor with a thread.
unsafe impl Send for Connection {}

impl Drop for Connection {
    fn drop(&mut self) {
        // SAFETY: `fh_new` made it, and nothing else frees it.
        unsafe { ffi::fh_free(self.raw.as_ptr()) }
    }
}

// SAFETY, of each call below: `raw` is what `fh_new` made, `&mut self` makes this the only call at
// it, and pointers are to what is borrowed for the call, with its lengths.
impl Connection {
    /// Makes an endpoint at the time `now`. The seed is 32 bytes of the operating system that
    /// nobody can guess, used once.
    pub fn new(
        settings: &Settings,
        side: Side,
        own_id: [u8; 8],
        peer: Peer<'_>,
        seed: [u8; 32],
        now: u64,
    ) -> Result<Self, Error> {
        let mut raw = std::ptr::null_mut();
        check(i64::from(unsafe {
            ffi::fh_new(
                settings,
                side as u32,
                own_id.as_ptr(),
                own_id.len(),
                peer.id.as_ptr(),
                peer.id.len(),
                peer.parameters.as_ptr(),
                peer.parameters.len(),
                peer.address,
                seed.as_ptr(),
                seed.len(),
                now,
                &mut raw,
            )
        }))?;
        let raw = NonNull::new(raw).ok_or(Error::Memory)?;
        Ok(Connection { raw })
    }

    /// Hands in a datagram that came, which is opened in place.
    pub fn receive(
        &mut self,
        now: u64,
        peer_address: u64,
        ecn: u32,
        datagram: &mut [u8],
    ) -> Result<Received, Error> {
        let (at, len) = (datagram.as_mut_ptr(), datagram.len());
        let answer = unsafe { ffi::fh_receive(self.raw.as_ptr(), now, peer_address, ecn, at, len) };
        Ok(match check(i64::from(answer))? {
            0 => Received::Taken,
            other => Received::Dropped(Dropped::of(other)),
        })
    }

    /// Gives the next datagram that is to be sent. [`Error::Room`], where `room` has less than
    /// [`Connection::max_datagram_size`].
    pub fn poll(&mut self, now: u64, room: &mut [u8]) -> Result<Option<Transmit>, Error> {
        let (at, len) = (room.as_mut_ptr(), room.len());
        let (mut peer_address, mut ecn) = (0, 0);
        let answer =
            unsafe { ffi::fh_poll(self.raw.as_ptr(), now, at, len, &mut peer_address, &mut ecn) };
        Ok(match check(answer)? as usize {
            0 => None,
            len => Some(Transmit {
                len,
                peer_address,
                ecn,
            }),
        })
    }

    /// The room that [`Connection::poll`] asks for, in bytes.
    pub fn max_datagram_size(&self) -> usize {
        unsafe { ffi::fh_max_datagram_size(self.raw.as_ptr()) }
    }

    /// Lets the timers expire whose deadline has come.
    pub fn timeout(&mut self, now: u64) -> Result<(), Error> {
        check(i64::from(unsafe {
            ffi::fh_timeout(self.raw.as_ptr(), now)
        }))
        .map(drop)
    }

    /// The earliest deadline, if one is set.
    pub fn next_timeout(&self) -> Option<u64> {
        let deadline = unsafe { ffi::fh_next_timeout(self.raw.as_ptr()) };
        Some(deadline).filter(|&it| it != u64::MAX)
    }

    /// Whether a datagram from this address would open here. Its bytes are changed.
    pub fn would_open(&self, peer_address: u64, scratch: &mut [u8]) -> bool {
        let (at, len) = (scratch.as_mut_ptr(), scratch.len());
        unsafe { ffi::fh_would_open(self.raw.as_ptr(), peer_address, at, len) == 1 }
    }

    /// Whether own connection IDs were issued or retired since this was asked last, or since the
    /// endpoint was made.
    pub fn ids_changed(&mut self) -> bool {
        unsafe { ffi::fh_ids_changed(self.raw.as_ptr()) == 1 }
    }

    /// The own connection IDs that live. Of an endpoint that has failed they say nothing, and one
    /// that is drained drops all that comes: a program with many endpoints takes the IDs of both
    /// out.
    pub fn own_ids(&self) -> Result<Vec<OwnId>, Error> {
        let mut room = [ffi::fh_own_id::default(); OWN_IDS_MAX];
        let count = unsafe { ffi::fh_own_ids(self.raw.as_ptr(), room.as_mut_ptr(), room.len()) };
        let own = room.iter().take(check(count)? as usize);
        Ok(own
            .map(|own| OwnId {
                sequence: own.sequence,
                id: own.id,
                reset_token: Some(own.reset_token).filter(|_| own.has_reset_token == 1),
            })
            .collect())
    }

    /// Takes the next event.
    pub fn next_event(&mut self) -> Option<Event> {
        let mut event = ffi::fh_event::default();
        if unsafe { ffi::fh_next_event(self.raw.as_ptr(), &mut event) } != 1 {
            return None;
        }
        let dir = if event.dir == 0 { Dir::Bi } else { Dir::Uni };
        Some(match event.kind {
            1 => Event::Opened(dir),
            2 => Event::Readable(event.stream),
            3 => Event::Writable(event.stream),
            4 => Event::Finished(event.stream),
            5 => Event::Stopped {
                stream: event.stream,
                code: event.code,
            },
            6 => Event::Available(dir),
            7 => Event::Message,
            9 => Event::HandshakeConfirmed,
            _ => Event::Lost(Lost::of(&event, self.lost_text(event.text_len as usize))),
        })
    }

    fn lost_text(&self, len: usize) -> String {
        let mut room = vec![0; len];
        let answer = unsafe { ffi::fh_lost_text(self.raw.as_ptr(), room.as_mut_ptr(), len) };
        room.truncate(check(answer).unwrap_or(0) as usize);
        String::from_utf8_lossy(&room).into_owned()
    }

    /// Opens a stream: its ID.
    pub fn open(&mut self, dir: Dir) -> Result<u64, Error> {
        check(unsafe { ffi::fh_open(self.raw.as_ptr(), dir as u32) })
    }

    /// Accepts the first stream of a kind that the peer opened and that wasn't accepted: its ID.
    /// Read from it at once.
    pub fn accept(&mut self, dir: Dir) -> Option<u64> {
        check(unsafe { ffi::fh_accept(self.raw.as_ptr(), dir as u32) }).ok()
    }

    /// Writes as many bytes as fit: how many these are. [`Event::Writable`] comes only behind
    /// [`Error::Blocked`], so write the rest at once.
    pub fn write(&mut self, stream: u64, data: &[u8]) -> Result<usize, Error> {
        let (at, len) = (data.as_ptr(), data.len());
        let mut code = 0;
        let answer = unsafe { ffi::fh_write(self.raw.as_ptr(), stream, at, len, &mut code) };
        check_with(answer, code).map(|taken| taken as usize)
    }

    /// Writes several buffers one behind the other, until one doesn't fit whole: how many bytes.
    pub fn write_vectored(&mut self, stream: u64, data: &[&[u8]]) -> Result<usize, Error> {
        let pieces: Vec<ffi::fh_iovec> = data
            .iter()
            .map(|piece| ffi::fh_iovec {
                base: piece.as_ptr(),
                len: piece.len(),
            })
            .collect();
        let (at, count) = (pieces.as_ptr(), pieces.len());
        let mut code = 0;
        let answer = unsafe { ffi::fh_writev(self.raw.as_ptr(), stream, at, count, &mut code) };
        check_with(answer, code).map(|taken| taken as usize)
    }

    /// Puts the FIN behind what was written.
    pub fn finish(&mut self, stream: u64) -> Result<(), Error> {
        let mut code = 0;
        let answer = unsafe { ffi::fh_finish(self.raw.as_ptr(), stream, &mut code) };
        check_with(i64::from(answer), code).map(drop)
    }

    /// Resets a stream.
    pub fn reset(&mut self, stream: u64, code: u64) -> Result<(), Error> {
        check(i64::from(unsafe {
            ffi::fh_reset(self.raw.as_ptr(), stream, code)
        }))
        .map(drop)
    }

    /// Asks the peer to send no more on a stream.
    pub fn stop(&mut self, stream: u64, code: u64) -> Result<(), Error> {
        check(i64::from(unsafe {
            ffi::fh_stop(self.raw.as_ptr(), stream, code)
        }))
        .map(drop)
    }

    /// Sets the priority of a stream.
    pub fn set_priority(&mut self, stream: u64, priority: i32) -> Result<(), Error> {
        let answer = unsafe { ffi::fh_set_priority(self.raw.as_ptr(), stream, priority) };
        check(i64::from(answer)).map(drop)
    }

    /// Reads bytes of a stream in order.
    pub fn read(&mut self, stream: u64, room: &mut [u8]) -> Result<Read, Error> {
        let (at, len) = (room.as_mut_ptr(), room.len());
        let (mut offset, mut fin, mut code) = (0, 0, 0);
        let raw = self.raw.as_ptr();
        let answer =
            unsafe { ffi::fh_read(raw, stream, at, len, &mut offset, &mut fin, &mut code) };
        let len = check_with(answer, code)? as usize;
        Ok(Read {
            len,
            offset,
            fin: fin == 1,
        })
    }

    /// Reads bytes of a stream that came, in whatever order: `fin` only where all were read. From
    /// then on the stream can't be read in order.
    pub fn read_unordered(&mut self, stream: u64, room: &mut [u8]) -> Result<Read, Error> {
        let (at, len) = (room.as_mut_ptr(), room.len());
        let (mut offset, mut fin, mut code) = (0, 0, 0);
        let raw = self.raw.as_ptr();
        let answer = unsafe {
            ffi::fh_read_unordered(raw, stream, at, len, &mut offset, &mut fin, &mut code)
        };
        let len = check_with(answer, code)? as usize;
        let fin = fin == 1;
        Ok(Read { len, offset, fin })
    }

    /// Queues a message to be sent once, for which older ones may go.
    pub fn send_message(&mut self, message: &[u8], drop_older: bool) -> Result<(), Error> {
        let (at, len) = (message.as_ptr(), message.len());
        let older = u32::from(drop_older);
        check(i64::from(unsafe {
            ffi::fh_send_message(self.raw.as_ptr(), at, len, older)
        }))
        .map(drop)
    }

    /// Reads the oldest message that wasn't read, if there is one: how many bytes it has.
    pub fn receive_message(&mut self, room: &mut [u8]) -> Result<Option<usize>, Error> {
        let (at, len) = (room.as_mut_ptr(), room.len());
        match unsafe { ffi::fh_receive_message(self.raw.as_ptr(), at, len) } {
            -13 => Ok(None),
            answer => check(answer).map(|len| Some(len as usize)),
        }
    }

    /// The longest message that may be sent now, in bytes.
    pub fn max_message(&self) -> Result<usize, Error> {
        check(unsafe { ffi::fh_max_message(self.raw.as_ptr()) }).map(|len| len as usize)
    }

    /// Queues a PING.
    pub fn ping(&mut self) {
        unsafe { ffi::fh_ping(self.raw.as_ptr()) }
    }

    /// Says at a server that the handshake is done, and not before TLS is complete: the client
    /// gets [`Event::HandshakeConfirmed`].
    pub fn handshake_done(&mut self) -> Result<(), Error> {
        check(i64::from(unsafe {
            ffi::fh_handshake_done(self.raw.as_ptr())
        }))
        .map(drop)
    }

    /// Sends to the next connection ID that the peer gave, and retires those before it.
    /// [`Error::Absent`], where it gave none, and [`Error::Blocked`], where too many retirements
    /// would wait.
    pub fn use_next_id(&mut self) -> Result<(), Error> {
        check(i64::from(unsafe {
            ffi::fh_use_next_id(self.raw.as_ptr())
        }))
        .map(drop)
    }

    /// Closes the connection. Go on until [`State::Drained`].
    pub fn close(&mut self, now: u64, code: u64, text: &[u8]) -> Result<(), Error> {
        let (at, len) = (text.as_ptr(), text.len());
        check(i64::from(unsafe {
            ffi::fh_close(self.raw.as_ptr(), now, code, at, len)
        }))
        .map(drop)
    }

    /// Whether the endpoint is open.
    pub fn state(&self) -> State {
        match unsafe { ffi::fh_get_state(self.raw.as_ptr()) } {
            0 => State::Open,
            1 => State::Closing,
            2 => State::Drained,
            _ => State::Failed,
        }
    }

    /// Whether the peer's address is validated (RFC 9000, section 8).
    pub fn is_validated(&self) -> bool {
        unsafe { ffi::fh_is_validated(self.raw.as_ptr()) == 1 }
    }

    /// What was counted of the endpoint.
    pub fn stats(&self) -> Stats {
        let mut stats = Stats::default();
        let size = std::mem::size_of::<Stats>();
        // A library that knows fewer figures writes none, and all are 0.
        let _ = unsafe { ffi::fh_get_stats(self.raw.as_ptr(), &mut stats, size) };
        stats
    }
}

//! Packet protection around an endpoint, and hellos: `fh_seal.h` and `fh_hello.h`, made safe.
use std::fmt;
use std::os::raw::c_int;
use std::ptr::NonNull;

/// Bytes of a secret, of a connection ID, and of the random bytes of a hello.
pub const SECRET: usize = 32;
pub const ID: usize = 8;
pub const RANDOM: usize = ID + 16;

const HEAD: usize = 1 + RANDOM;
const TAG: usize = 32;
const MAX: usize = HEAD + 256 + TAG;
const LIMIT: c_int = -3;
const ARGUMENT: c_int = -4;
const FAILED: c_int = -5;

/// `fh_seal`, which only these functions look behind.
#[repr(C)]
struct Raw {
    hidden: [u8; 0],
}

/// What a host tells before endpoints are made: its connection ID and transport parameters, with a
/// tag by the secret.
#[repr(C)]
#[derive(Clone)]
pub struct Hello {
    bytes: [u8; MAX],
    len: usize,
}

extern "C" {
    fn fh_seal_free(keys: *mut Raw);
    fn fh_seal_datagram(keys: *mut Raw, datagram: *mut u8, len: usize) -> c_int;
    fn fh_seal_open_datagram(keys: *mut Raw, datagram: *mut u8, len: usize) -> c_int;
    fn fh_seal_refused(keys: *const Raw) -> u64;
    fn fh_hello_write(
        hello: *mut Hello,
        client: bool,
        secret: *const u8,
        random: *const u8,
        parameters: *const u8,
        len: usize,
    ) -> c_int;
    fn fh_hello_is(client: bool, datagram: *const u8, len: usize) -> bool;
    fn fh_hello_read(
        hello: *mut Hello,
        client: bool,
        secret: *const u8,
        datagram: *const u8,
        len: usize,
    ) -> c_int;
    fn fh_hello_keys(
        secret: *const u8,
        from: *const Hello,
        to: *const Hello,
        sealing: bool,
    ) -> *mut Raw;
}

/// Why a datagram isn't sealed or opened.
#[derive(Clone, Copy, Debug, PartialEq, Eq)]
pub enum Refused {
    /// It doesn't open, or is too short to.
    NotOpened,
    /// The keys are used up: close the connection.
    Limit,
    /// They are of the other direction, or it is longer than any datagram.
    Argument,
    /// An allocation failed.
    Memory,
}

impl fmt::Display for Refused {
    fn fmt(&self, f: &mut fmt::Formatter<'_>) -> fmt::Result {
        f.write_str(match self {
            Refused::NotOpened => "a datagram doesn't open",
            Refused::Limit => "the keys are used up",
            Refused::Argument => "the keys don't take a datagram",
            Refused::Memory => "out of memory",
        })
    }
}

/// What a call of packet protection answered.
fn check(answer: c_int) -> Result<(), Refused> {
    match answer {
        0 => Ok(()),
        LIMIT => Err(Refused::Limit),
        ARGUMENT => Err(Refused::Argument),
        FAILED => Err(Refused::Memory),
        _ => Err(Refused::NotOpened),
    }
}

// SAFETY, of each call below: pointers are to what is borrowed for the call, as long as it says.
impl Hello {
    fn empty() -> Self {
        Hello {
            bytes: [0; MAX],
            len: 0,
        }
    }

    /// The hello of the client, or of the server, if the parameters are no longer than 256 bytes.
    pub fn write(
        client: bool,
        secret: &[u8; SECRET],
        random: &[u8; RANDOM],
        parameters: &[u8],
    ) -> Option<Self> {
        let mut hello = Hello::empty();
        let (secret, random, at) = (secret.as_ptr(), random.as_ptr(), parameters.as_ptr());
        let len = parameters.len();
        let answer = unsafe { fh_hello_write(&mut hello, client, secret, random, at, len) };
        Some(hello).filter(|_| answer == 0)
    }

    /// Whether a datagram has the kind and the size of a hello, of the client or of the server.
    pub fn is_one(client: bool, datagram: &[u8]) -> bool {
        unsafe { fh_hello_is(client, datagram.as_ptr(), datagram.len()) }
    }

    /// The hello of the client, or of the server, if a datagram is one by this secret.
    pub fn read(client: bool, secret: &[u8; SECRET], datagram: &[u8]) -> Option<Self> {
        let mut hello = Hello::empty();
        let (secret, at, len) = (secret.as_ptr(), datagram.as_ptr(), datagram.len());
        let answer = unsafe { fh_hello_read(&mut hello, client, secret, at, len) };
        Some(hello).filter(|_| answer == 0)
    }

    pub fn bytes(&self) -> &[u8] {
        &self.bytes[..self.len]
    }

    pub fn id(&self) -> [u8; ID] {
        let mut id = [0; ID];
        id.copy_from_slice(&self.bytes[1..1 + ID]);
        id
    }

    pub fn parameters(&self) -> &[u8] {
        &self.bytes[HEAD..self.len - TAG]
    }
}

/// The keys of one direction.
pub struct Seal {
    raw: NonNull<Raw>,
}

impl Drop for Seal {
    fn drop(&mut self) {
        unsafe { fh_seal_free(self.raw.as_ptr()) }
    }
}

impl Seal {
    /// The keys with which the host that wrote the first hello seals, for sealing or for opening;
    /// `None` where memory lacks.
    pub fn new(secret: &[u8; SECRET], from: &Hello, to: &Hello, sealing: bool) -> Option<Self> {
        let raw = unsafe { fh_hello_keys(secret.as_ptr(), from, to, sealing) };
        NonNull::new(raw).map(|raw| Seal { raw })
    }

    /// Seals a datagram that an endpoint gave, in place.
    pub fn seal(&mut self, datagram: &mut [u8]) -> Result<(), Refused> {
        let (at, len) = (datagram.as_mut_ptr(), datagram.len());
        check(unsafe { fh_seal_datagram(self.raw.as_ptr(), at, len) })
    }

    /// Opens a datagram that came, in place.
    pub fn open(&mut self, datagram: &mut [u8]) -> Result<(), Refused> {
        let (at, len) = (datagram.as_mut_ptr(), datagram.len());
        check(unsafe { fh_seal_open_datagram(self.raw.as_ptr(), at, len) })
    }

    /// How many datagrams didn't open.
    pub fn refused(&self) -> u64 {
        unsafe { fh_seal_refused(self.raw.as_ptr()) }
    }
}

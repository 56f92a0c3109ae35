//! What a program with one UDP socket needs around an endpoint: its arguments, a clock, waiting,
//! and the round of hellos.
use crate::seal::{Hello, RANDOM, SECRET};
use std::convert::TryInto;
use std::fmt;
use std::fs::File;
use std::io::{self, Read};
use std::net::{Ipv4Addr, SocketAddr, SocketAddrV4, UdpSocket};
use std::os::raw::{c_int, c_short, c_uint, c_ulong, c_void};
use std::os::unix::io::AsRawFd;
use std::sync::atomic::{AtomicBool, Ordering};
use std::time::Instant;

/// Nanoseconds: a second, how long a receiver waits for a sender, how long either waits for a hello
/// that is right once the other is there, and after which time a sender repeats its own.
const SECOND: u64 = 1_000_000_000;
const LONGEST_WAIT: u64 = 60 * SECOND;
const HELLO_WAIT: u64 = 5 * SECOND;
const HELLO_AGAIN: u64 = SECOND / 4;

// Numbers of Linux.
const SIGINT: c_int = 2;
const POLLIN: c_short = 1;
const IPPROTO_IP: c_int = 0;
const IP_MTU_DISCOVER: c_int = 10;
const IP_PMTUDISC_PROBE: c_int = 3;

static INTERRUPTED: AtomicBool = AtomicBool::new(false);

#[repr(C)]
struct PollFd {
    fd: c_int,
    events: c_short,
    revents: c_short,
}

#[repr(C)]
struct Timespec {
    seconds: i64,
    nanoseconds: i64,
}

extern "C" {
    fn signal(signal: c_int, handler: extern "C" fn(c_int)) -> usize;
    fn setsockopt(
        socket: c_int,
        level: c_int,
        name: c_int,
        value: *const c_int,
        size: c_uint,
    ) -> c_int;
    fn ppoll(
        fds: *mut PollFd,
        count: c_ulong,
        timeout: *const Timespec,
        signals: *const c_void,
    ) -> c_int;
}

/// Why a file isn't moved, and so with which status the program ends.
#[derive(Debug)]
pub enum Failure {
    /// A file, a secret or a socket is at fault: 1.
    Fault(String),
    /// The arguments are: 2.
    Usage(String),
    /// The peer or the connection is: 3.
    Lost(String),
    /// Ctrl-C came: 130.
    Interrupted,
}

impl Failure {
    pub fn status(&self) -> u8 {
        match self {
            Failure::Fault(_) => 1,
            Failure::Usage(_) => 2,
            Failure::Lost(_) => 3,
            Failure::Interrupted => 130,
        }
    }
}

impl fmt::Display for Failure {
    fn fmt(&self, f: &mut fmt::Formatter<'_>) -> fmt::Result {
        match self {
            Failure::Fault(why) | Failure::Usage(why) | Failure::Lost(why) => f.write_str(why),
            Failure::Interrupted => f.write_str("interrupted"),
        }
    }
}

impl From<fennelhammer::Error> for Failure {
    fn from(error: fennelhammer::Error) -> Self {
        Failure::Fault(error.to_string())
    }
}

/// What is at fault, as the operating system says it.
pub fn fault(what: &str, error: io::Error) -> Failure {
    Failure::Fault(format!("{}: {}", what, error))
}

/// Whether Ctrl-C came.
pub fn interrupted() -> bool {
    INTERRUPTED.load(Ordering::Relaxed)
}

extern "C" fn on_interrupt(_: c_int) {
    INTERRUPTED.store(true, Ordering::Relaxed);
}

/// A clock, and a socket to wait at.
pub struct Host {
    pub sending: bool,
    pub socket: UdpSocket,
    pub secret: [u8; SECRET],
    pub random: [u8; RANDOM],
    pub seed: [u8; 32],
    at: SocketAddr,
    start: Instant,
}

impl Host {
    /// The time, in nanoseconds from the start.
    pub fn now(&self) -> u64 {
        self.start.elapsed().as_nanos() as u64
    }

    /// Waits until a datagram is there, a time has come, or Ctrl-C: whether a datagram is there.
    pub fn wait(&self, until: u64) -> bool {
        let left = until.saturating_sub(self.now());
        let timeout = Timespec {
            seconds: (left / SECOND) as i64,
            nanoseconds: (left % SECOND) as i64,
        };
        let mut waited = PollFd {
            fd: self.socket.as_raw_fd(),
            events: POLLIN,
            revents: 0,
        };
        // SAFETY: the pointers are to one such struct each, which live on, and to no signals.
        unsafe { ppoll(&mut waited, 1, &timeout, std::ptr::null()) > 0 }
    }

    /// Tells the own hello, reads the peer's, and connects the socket to the peer. A sender tells
    /// its hello again and again, and a receiver once it has the sender's. What is no hello by
    /// this secret is skipped; of what comes only a hello by another one shortens the wait.
    pub fn meet(&self, own: &Hello) -> Result<Hello, Failure> {
        let mut end = self.now()
            + if self.sending {
                HELLO_WAIT
            } else {
                LONGEST_WAIT
            };
        let (mut refused, mut bytes) = (false, [0; 2048]);
        while self.now() < end && !interrupted() {
            if self.sending {
                let _ = self.socket.send_to(own.bytes(), self.at); // Lost, it goes again.
            }
            if !self.wait(if self.sending {
                self.now() + HELLO_AGAIN
            } else {
                end
            }) {
                continue;
            }
            let (len, from) = match self.socket.recv_from(&mut bytes) {
                Ok(came) => came,
                Err(_) => continue,
            };
            if !Hello::is_one(!self.sending, &bytes[..len]) {
                continue;
            }
            if let Some(hello) = Hello::read(!self.sending, &self.secret, &bytes[..len]) {
                self.connect(own, from)?;
                return Ok(hello);
            }
            if !refused {
                end = end.min(self.now() + HELLO_WAIT);
            }
            refused = true;
        }
        Err(self.not_met(refused))
    }

    fn connect(&self, own: &Hello, peer: SocketAddr) -> Result<(), Failure> {
        self.socket
            .connect(peer)
            .map_err(|error| fault("connect", error))?;
        if !self.sending {
            let _ = self.socket.send(own.bytes()); // Lost, it goes again as the sender asks.
        }
        Ok(())
    }

    /// Why no peer was met.
    fn not_met(&self, refused: bool) -> Failure {
        if interrupted() {
            return Failure::Interrupted;
        }
        Failure::Lost(String::from(match (self.sending, refused) {
            (true, _) => "no answer in 5 seconds: no receiver, or one with another secret",
            (false, true) => "whoever came has another secret",
            (false, false) => "nobody came in 60 seconds",
        }))
    }
}

/// Reads a secret from a file of exactly so many bytes.
fn secret_of(path: &str) -> Result<[u8; SECRET], Failure> {
    let mut bytes = Vec::new();
    let file = File::open(path).map_err(|error| fault(path, error))?;
    let limit = SECRET as u64 + 1;
    file.take(limit)
        .read_to_end(&mut bytes)
        .map_err(|error| fault(path, error))?;
    let size = if bytes.len() < SECRET {
        "short"
    } else {
        "long"
    };
    bytes.try_into().map_err(|_| {
        Failure::Fault(format!(
            "{}: too {} for a secret, which has 32 bytes",
            path, size
        ))
    })
}

/// Bytes that nobody can guess.
fn random<const N: usize>() -> Result<[u8; N], Failure> {
    let mut bytes = [0; N];
    let path = "/dev/urandom";
    let mut file = File::open(path).map_err(|error| fault(path, error))?;
    file.read_exact(&mut bytes)
        .map_err(|error| fault(path, error))?;
    Ok(bytes)
}

/// A UDP socket at an address, which never waits, and sends nothing in fragments, as path MTU
/// discovery wants it.
fn socket_at(address: SocketAddr, port: &str) -> Result<UdpSocket, Failure> {
    let socket = UdpSocket::bind(address).map_err(|error| fault(port, error))?;
    socket
        .set_nonblocking(true)
        .map_err(|error| fault("socket", error))?;
    let (raw, size) = (socket.as_raw_fd(), std::mem::size_of::<c_int>() as c_uint);
    // A system that refuses it carries datagrams all the same, but finds out less of the path.
    // SAFETY: the pointer is to one number of this size.
    let _ = unsafe { setsockopt(raw, IPPROTO_IP, IP_MTU_DISCOVER, &IP_PMTUDISC_PROBE, size) };
    Ok(socket)
}

/// Reads the arguments, and opens what they name, but for the file: its path is given besides.
pub fn begin(words: &[String]) -> Result<(Host, &str), Failure> {
    let usage = || Failure::Usage("usage: udp_file send|receive ADDRESS PORT FILE SECRET".into());
    let (what, address, port, path, secret) = match words {
        [what, address, port, path, secret] => (what, address, port, path, secret),
        _ => return Err(usage()),
    };
    let sending = match what.as_str() {
        "send" => true,
        "receive" => false,
        _ => return Err(usage()),
    };
    let number = port.parse().ok().filter(|&it: &u16| it > 0);
    let number = number.ok_or_else(|| Failure::Usage(format!("{}: not a port", port)))?;
    let ip = address.parse::<Ipv4Addr>();
    let ip = ip.map_err(|_| Failure::Usage(format!("{}: not an IPv4 address", address)))?;
    let secret = secret_of(secret)?;
    let at = SocketAddr::V4(SocketAddrV4::new(ip, number));
    // SAFETY: the handler does nothing but to set a flag.
    unsafe { signal(SIGINT, on_interrupt) };
    let bound = if sending {
        (Ipv4Addr::UNSPECIFIED, 0).into()
    } else {
        at
    };
    let socket = socket_at(bound, port)?;
    let (random, seed, start) = (random()?, random()?, Instant::now());
    Ok((
        Host {
            sending,
            socket,
            secret,
            random,
            seed,
            at,
            start,
        },
        path,
    ))
}

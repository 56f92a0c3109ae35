//! A socket that waits only where it is told to, and a clock.
use std::io::ErrorKind;
use std::net::{SocketAddr, UdpSocket};
use std::time::{Duration, Instant};

/// How many datagrams are taken in one turn, and bytes of the longest there is.
pub const BURST: usize = 64;
pub const LONGEST: usize = 65536;

/// A socket, and the time since it was made.
pub struct Socket {
    socket: UdpSocket,
    start: Instant,
}

/// What a try to receive came to.
pub enum Came {
    Datagram(usize, SocketAddr),
    /// A datagram of before didn't arrive: timers see to it.
    Fault,
    Nothing,
}

impl Socket {
    pub fn new(socket: UdpSocket) -> std::io::Result<Self> {
        socket.set_nonblocking(true)?;
        Ok(Socket { socket, start: Instant::now() })
    }

    /// Nanoseconds since the start.
    pub fn now(&self) -> u64 {
        self.start.elapsed().as_nanos() as u64
    }

    /// Receives a datagram into a room, if one came.
    pub fn receive(&self, room: &mut [u8]) -> Came {
        match self.socket.recv_from(room) {
            Ok((len, from)) => Came::Datagram(len, from),
            Err(error) if error.kind() == ErrorKind::WouldBlock => Came::Nothing,
            Err(_) => Came::Fault,
        }
    }

    /// Sends a datagram to where the socket is connected; where that fails, it is lost.
    pub fn send(&self, datagram: &[u8]) {
        let _ = self.socket.send(datagram);
    }

    /// Sends a datagram to an address; where that fails, it is lost.
    pub fn send_to(&self, datagram: &[u8], address: SocketAddr) {
        let _ = self.socket.send_to(datagram, address);
    }

    /// Waits until a datagram comes, or until a time, at most for so many nanoseconds.
    pub fn wait(&self, until: Option<u64>, most: u64) {
        let left = until.unwrap_or(u64::MAX).saturating_sub(self.now()).min(most);
        if left > 0 {
            let _ = self.socket.set_read_timeout(Some(Duration::from_nanos(left)));
            let _ = self.socket.set_nonblocking(false);
            let _ = self.socket.peek(&mut [0]); // An error is a timer that expires.
            let _ = self.socket.set_nonblocking(true);
        }
    }
}

//! Moves a file between two processes over UDP, sealed by a secret that both have.
//!
//!     udp_file receive ADDRESS PORT FILE SECRET   waits there for a sender; FILE is emptied first
//!     udp_file send ADDRESS PORT FILE SECRET      sends FILE to the receiver at this IPv4 address
//!
//! SECRET is a file of 32 bytes that nobody can guess. Either may be `udp_file` in C or in Python.
//! `fh_hello.h` says why the first round is no handshake. The status is 0 where all was moved;
//! where not, one line says why, and [`Failure`] has the statuses.
mod host;
mod seal;

use fennelhammer::{Connection, Dir, Error, Event, Lost, Peer, Settings, Side, State};
use host::{fault, interrupted, Failure, Host};
use seal::{Hello, Refused, Seal};
use std::fs::File;
use std::io::{Read, Write};
use std::process::ExitCode;

/// The most datagrams that are taken, and sent, in one turn.
const BURST: usize = 64;
const IDLE_MS: u64 = 5000;

/// A file that is moved.
struct Transfer {
    host: Host,
    file: File,
    connection: Connection,
    local: Seal,
    remote: Seal,
    own: Hello,
    peers: Hello,
    stream: u64,
    /// Bytes of the file that aren't written to the stream yet.
    piece: Vec<u8>,
    /// Room for bytes that are read.
    room: Vec<u8>,
    moved: u64,
    /// Whether the FIN was written.
    finished: bool,
    /// Whether the connection was closed here, and because of what, if that was a fault.
    closed: bool,
    failure: Option<Failure>,
}

impl Transfer {
    /// Meets the peer, and makes the endpoint and the keys.
    fn new(host: Host, file: File) -> Result<Self, Failure> {
        let mut settings = Settings::default();
        settings.max_idle_timeout_ms = IDLE_MS;
        settings.ack_frequency = 1;
        settings.ack_max_delay = 2_500_000; // In place of 25 ms.
        let out_of_memory = || Failure::Fault("out of memory".into());
        let parameters = settings.parameters()?;
        let own = Hello::write(host.sending, &host.secret, &host.random, &parameters)
            .ok_or_else(out_of_memory)?;
        let peers = host.meet(&own)?;
        let local = Seal::new(&host.secret, &own, &peers, true).ok_or_else(out_of_memory)?;
        let remote = Seal::new(&host.secret, &peers, &own, false).ok_or_else(out_of_memory)?;
        let side = if host.sending {
            Side::Client
        } else {
            Side::Server
        };
        let (id, parameters) = (peers.id(), peers.parameters());
        let peer = Peer {
            id: &id,
            parameters,
            address: 0,
        };
        let now = host.now();
        let mut connection = Connection::new(&settings, side, own.id(), peer, host.seed, now)?;
        connection.ping(); // The idle timeout begins with what is sent, and not before.
        let stream = if host.sending {
            connection.open(Dir::Bi)?
        } else {
            0
        };
        Ok(Transfer {
            host,
            file,
            connection,
            local,
            remote,
            own,
            peers,
            stream,
            piece: Vec::new(),
            room: vec![0; 65536],
            moved: 0,
            finished: false,
            closed: false,
            failure: None,
        })
    }

    /// Closes the connection, for a fault if there is one.
    fn close(&mut self, failure: Option<Failure>) -> Result<(), Failure> {
        let (code, text) = match &failure {
            Some(failure) => (u64::from(failure.status()), failure.to_string()),
            None => (0, String::from("moved")),
        };
        self.closed = true;
        self.failure = failure;
        self.connection
            .close(self.host.now(), code, text.as_bytes())?;
        Ok(())
    }

    /// Writes as much of the file as the stream takes, and its FIN behind the last byte.
    fn write_file(&mut self) -> Result<(), Failure> {
        while !self.finished && !self.closed {
            if self.piece.is_empty() {
                let read = Read::by_ref(&mut self.file)
                    .take(65536)
                    .read_to_end(&mut self.piece);
                if let Err(error) = read {
                    return self.close(Some(fault("FILE", error)));
                }
            }
            if self.piece.is_empty() {
                self.finished = true;
                return Ok(self.connection.finish(self.stream)?);
            }
            match self.connection.write(self.stream, &self.piece) {
                Ok(written) => {
                    self.piece.drain(..written);
                    self.moved += written as u64;
                }
                Err(Error::Blocked) => return Ok(()),
                Err(error) => return Err(error.into()),
            }
        }
        Ok(())
    }

    /// Reads what came. The receiver answers a FIN by its own, which the sender waits for.
    fn read_file(&mut self) -> Result<(), Failure> {
        let mut fin = false;
        while !fin {
            let read = match self.connection.read(self.stream, &mut self.room) {
                Ok(read) => read,
                Err(Error::Memory) => return Err(Error::Memory.into()),
                Err(_) => return Ok(()), // There is nothing to read.
            };
            if let Err(error) = self.file.write_all(&self.room[..read.len]) {
                return self.close(Some(fault("FILE", error)));
            }
            self.moved += read.len as u64;
            fin = read.fin;
        }
        if self.host.sending {
            return self.close(None);
        }
        self.finished = true;
        Ok(self.connection.finish(self.stream)?)
    }

    /// A connection that is lost is a fault, unless it was closed here, or the receiver has all, or
    /// the peer says that all was moved.
    fn lose(&mut self, lost: Lost) {
        if self.closed || self.finished && !self.host.sending {
            return;
        }
        self.failure = Some(Failure::Lost(match lost {
            Lost::PeerApplication { code: 0, .. } if self.finished => return,
            Lost::PeerApplication { text, .. } => format!("the peer closed: {}", text),
            Lost::Idle => String::from("nothing came for 5 seconds"),
            other => format!("failed: {:?}", other),
        }));
    }

    fn act(&mut self) -> Result<(), Failure> {
        while let Some(event) = self.connection.next_event() {
            match event {
                // A file comes on no unidirectional stream.
                Event::Opened(Dir::Bi) => {
                    self.stream = self.connection.accept(Dir::Bi).unwrap_or(self.stream);
                    self.read_file()?;
                }
                Event::Readable(_) => self.read_file()?,
                Event::Writable(_) => self.write_file()?,
                Event::Finished(_) if !self.host.sending => self.close(None)?,
                Event::Lost(lost) => self.lose(lost),
                _ => {}
            }
        }
        Ok(())
    }

    /// Takes what came, as far as it opens, and lets timers expire: whether anything came.
    fn receive(&mut self) -> Result<bool, Failure> {
        let (mut bytes, mut came) = ([0; 2048], 0);
        while came < BURST {
            let datagram = match self.host.socket.recv(&mut bytes) {
                Ok(len) => &mut bytes[..len],
                Err(_) => break,
            };
            came += 1;
            if datagram == self.peers.bytes() {
                if !self.host.sending {
                    let _ = self.host.socket.send(self.own.bytes()); // The answer was lost.
                }
                continue;
            }
            let now = self.host.now();
            match self.remote.open(datagram) {
                // A datagram that closes the connection is told by an event.
                Ok(()) => drop(self.connection.receive(now, 0, 0, datagram)),
                Err(Refused::Limit) if !self.closed => {
                    self.close(Some(Failure::Lost("too much doesn't open".into())))?
                }
                Err(why @ Refused::Memory) => return Err(Failure::Fault(why.to_string())),
                Err(_) => {}
            }
        }
        let now = self.host.now();
        if self
            .connection
            .next_timeout()
            .map_or(false, |deadline| deadline <= now)
        {
            self.connection.timeout(now)?;
        }
        Ok(came > 0)
    }

    /// Sends what is ready: whether there may be more. What the socket doesn't take counts as lost.
    fn transmit(&mut self) -> Result<bool, Failure> {
        let mut bytes = [0; 2048];
        for _ in 0..BURST {
            let datagram = match self.connection.poll(self.host.now(), &mut bytes)? {
                Some(transmit) => &mut bytes[..transmit.len],
                None => return Ok(false),
            };
            self.local
                .seal(datagram)
                .map_err(|why| Failure::Fault(why.to_string()))?;
            let _ = self.host.socket.send(datagram);
        }
        Ok(true)
    }

    /// Moves the file: until all is said, or nothing more can be.
    fn run(&mut self) -> Result<(), Failure> {
        if self.host.sending {
            self.write_file()?;
        }
        let mut more = true;
        while matches!(self.connection.state(), State::Open | State::Closing) {
            if !more {
                let deadline = self.connection.next_timeout();
                self.host.wait(deadline.unwrap_or(u64::MAX));
            }
            if interrupted() && !self.closed {
                self.close(Some(Failure::Interrupted))?;
            }
            let came = self.receive()?;
            self.act()?;
            more = self.transmit()? || came;
        }
        self.failure.take().map_or(Ok(()), Err)
    }
}

fn move_file(words: &[String]) -> Result<(), Failure> {
    let (host, path) = host::begin(words)?;
    let file = if host.sending {
        File::open(path)
    } else {
        File::create(path)
    };
    let file = file.map_err(|error| fault(path, error))?;
    let mut transfer = Transfer::new(host, file)?;
    transfer.run()?;
    println!(
        "{} bytes, {} datagrams refused",
        transfer.moved,
        transfer.remote.refused()
    );
    Ok(())
}

fn main() -> ExitCode {
    let words: Vec<String> = std::env::args().skip(1).collect();
    match move_file(&words) {
        Ok(()) => ExitCode::SUCCESS,
        Err(failure) => {
            eprintln!("udp_file: {}", failure);
            ExitCode::from(failure.status())
        }
    }
}

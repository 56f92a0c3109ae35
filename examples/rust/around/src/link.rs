//! One end of a connection: first a handshake, then an endpoint.
use crate::failure::{Failure, Status};
use crate::handshake::{Handshake, Id};
use crate::http3;
use crate::packet::{packets, Kind, Level, Packet};
use crate::session::Session;
use fennelhammer::{Settings, Side, State, Transmit};
use ring::rand::{SecureRandom, SystemRandom};
use rustls::{ClientConfig, ServerConfig};
use std::sync::Arc;

/// Nanoseconds without an answer after which the handshake is given up.
pub const ANSWER: u64 = 10_000_000_000;
/// How many 1-RTT packets are kept that come before the endpoint is made.
const EARLY: usize = 10;
/// Bytes of the least datagram of a client with an Initial packet (RFC 9000, section 14.1).
pub const LEAST_INITIAL: usize = 1200;

/// One end of a connection. Times are nanoseconds, and addresses numbers of the caller's.
pub struct Link {
    settings: Settings,
    pub own_id: Id,
    seed: [u8; 32],
    /// Where the handshake's peer is.
    address: u64,
    handshake: Handshake,
    pub session: Option<Session>,
    early: Vec<(u64, Vec<u8>)>,
    /// Whether the end was told, and the datagram that tells it where there is no endpoint.
    is_closed: bool,
    last: Option<Vec<u8>>,
}

/// Bytes that nobody can guess.
fn random<const N: usize>() -> Result<[u8; N], Failure> {
    let mut bytes = [0; N];
    let filled = SystemRandom::new().fill(&mut bytes);
    filled.map_err(|error| Failure::fault("random bytes", error)).map(|_| bytes)
}

impl Link {
    /// A client's, which begins a handshake with a server of this name, at the address 0.
    pub fn client(
        settings: Settings,
        config: ClientConfig,
        name: &str,
        now: u64,
    ) -> Result<Self, Failure> {
        let ids = [random()?, random()?];
        let handshake = Handshake::client(config, name, settings.parameters()?, ids, now)?;
        Link::new(settings, ids[0], 0, handshake)
    }

    /// A server's, which answers a client's first packet.
    pub fn server(
        settings: Settings,
        config: Arc<ServerConfig>,
        asked: &Packet,
        address: u64,
        now: u64,
    ) -> Result<Self, Failure> {
        let own_id = random()?;
        let handshake = Handshake::server(config, settings.parameters()?, own_id, asked, now)?;
        Link::new(settings, own_id, address, handshake)
    }

    fn new(
        settings: Settings,
        own_id: Id,
        address: u64,
        handshake: Handshake,
    ) -> Result<Self, Failure> {
        let (seed, session, early, is_closed, last) = (random()?, None, Vec::new(), false, None);
        Ok(Link { settings, own_id, seed, address, handshake, session, early, is_closed, last })
    }

    /// Whether a packet of the peer's opened.
    pub fn is_answered(&self) -> bool {
        self.handshake.answered
    }

    /// Whether the application protocol is HTTP/3.
    pub fn has_http3(&self) -> bool {
        self.handshake.protocol() == Some(b"h3")
    }

    /// Takes a datagram that came from this address. A client stays where it is until the handshake
    /// is over (RFC 9000, section 9): long headers from elsewhere are dropped.
    pub fn receive(&mut self, now: u64, from: u64, datagram: &mut [u8]) -> Result<(), Failure> {
        let is_short = self.handshake.side == Side::Server && datagram.len() < LEAST_INITIAL;
        if from == self.address {
            self.handshake.arrived(datagram.len());
        }
        for packet in packets(datagram) {
            let bytes = &mut datagram[packet.at.clone()];
            match packet.kind {
                Kind::Short => self.receive_short(now, from, bytes)?,
                _ if from != self.address => {}
                Kind::Long(Level::Initial, _) if is_short => {}
                _ => self.handshake.receive(now, &packet, bytes)?,
            }
            self.make_session(now)?;
        }
        Ok(())
    }

    fn receive_short(&mut self, now: u64, from: u64, packet: &mut [u8]) -> Result<(), Failure> {
        match &mut self.session {
            Some(session) => session.receive(now, from, packet)?,
            None if self.early.len() < EARLY => self.early.push((from, packet.to_vec())),
            None => {} // The peer counts it as lost.
        }
        Ok(())
    }

    /// Makes the endpoint once the handshake is complete, and hands it what came early.
    fn make_session(&mut self, now: u64) -> Result<(), Failure> {
        if self.session.is_none() {
            let (settings, handshake) = (self.settings.clone(), &mut self.handshake);
            let (own_id, address) = (self.own_id, self.address);
            self.session = Session::new(settings, own_id, handshake, address, self.seed, now)?;
        }
        if self.session.is_some() {
            let early = std::mem::take(&mut self.early).into_iter();
            for (from, mut packet) in early {
                self.receive_short(now, from, &mut packet)?;
            }
        }
        Ok(())
    }

    /// Lets the timers expire whose time has come.
    pub fn timeout(&mut self, now: u64) -> Result<(), Failure> {
        self.handshake.timeout(now);
        match &mut self.session {
            Some(session) => Ok(session.connection.timeout(now)?),
            None if now < self.handshake.heard + ANSWER => Ok(()),
            None => Err(Failure::new(Status::Silent, "no answer within 10 s")),
        }
    }

    /// When the next timer expires, if one is set.
    pub fn next_timeout(&self) -> Option<u64> {
        let endpoints = self.session.as_ref().map(|session| session.connection.next_timeout());
        let first = endpoints.unwrap_or(Some(self.handshake.heard + ANSWER));
        [first, self.handshake.next_timeout()].into_iter().flatten().min()
    }

    /// The next datagram that is to be sent.
    pub fn poll(&mut self, now: u64, room: &mut [u8]) -> Result<Option<Transmit>, Failure> {
        if self.session.as_ref().map_or(false, |session| session.is_confirmed) {
            self.handshake.confirm();
        }
        let of_handshake = match self.last.take() {
            None if !self.is_closed => self.handshake.poll(now)?,
            last => last,
        };
        if let Some(datagram) = of_handshake {
            room[..datagram.len()].copy_from_slice(&datagram);
            let (len, peer_address) = (datagram.len(), self.address);
            return Ok(Some(Transmit { len, peer_address, ecn: 0 }));
        }
        self.session.as_mut().map_or(Ok(None), |session| session.poll(now, room))
    }

    /// Tells the peer of the end: go on until [`Link::is_over`].
    pub fn close(&mut self, now: u64, why: Result<&str, &Failure>) -> Result<(), Failure> {
        let (failure, text) = (why.err(), why.map_or_else(Failure::to_string, str::to_string));
        self.is_closed = true;
        let has_http3 = self.has_http3();
        if let Some(session) = &mut self.session {
            let code = match failure.map_or(0, |failure| failure.application_code) {
                0 if has_http3 => http3::NO_ERROR,
                code if has_http3 => code.max(http3::INTERNAL_ERROR),
                code => code,
            };
            session.connection.close(now, code, text.as_bytes())?;
        } else if let Some(code) = failure.and_then(|failure| failure.code) {
            self.last = self.handshake.close(code, &text)?;
        }
        Ok(())
    }

    /// Whether nothing is to be done any more, once the end was told.
    pub fn is_over(&self) -> bool {
        let state = self.session.as_ref().map(|session| session.connection.state());
        self.last.is_none() && !matches!(state, Some(State::Open | State::Closing))
    }
}

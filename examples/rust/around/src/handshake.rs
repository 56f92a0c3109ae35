//! A handshake: TLS in CRYPTO frames of Initial and Handshake packets, at a client with Retry and
//! version negotiation (RFC 9000, sections 6, 7, 8.1 and 17.2; RFC 9001, section 4; RFC 9002).
use crate::failure::{Failure, Status};
use crate::frame::{frames, put_prefixed, Frame};
use crate::packet::{is_valid_retry, long_header, open_long, seal_long};
use crate::packet::{Kind, Level, Packet, OVERHEAD, VERSION};
use crate::parameters::{agree, append};
use crate::space::Space;
use fennelhammer::Side;
use rustls::quic::{ClientQuicExt, KeyChange, Keys, QuicExt, Secrets, ServerQuicExt, Version};
use rustls::{ClientConfig, ClientConnection, Connection, ServerConfig, ServerConnection};
use std::sync::Arc;

/// Bytes of a datagram with an Initial packet (RFC 9000, section 14.1), and of any here; frames for
/// which there is room in one, or it waits; and those that a packet has at least, for its sample.
const DATAGRAM: usize = 1200;
const LEAST_ROOM: usize = 200;
const LEAST_FRAMES: usize = 4;
/// Nanoseconds of a round trip before one was measured (RFC 9002, section 6.2.2), of a timer's
/// grain, and of the longest probe timeout here.
const INITIAL_RTT: u64 = 333_000_000;
const GRANULARITY: u64 = 1_000_000;
const LONGEST_PTO: u64 = 3_000_000_000;

/// How many times the bytes that came a server sends before the address is validated (RFC 9000,
/// section 8.1).
const AMPLIFICATION: usize = 3;

/// A connection ID that is chosen here.
pub type Id = [u8; 8];

/// A packet's level, header and frames.
type Unsealed = (Level, Vec<u8>, Vec<u8>);

/// The keys of 1-RTT packets, and the secrets of those that come after them.
pub type OneRtt = (Keys, Secrets);

/// A handshake. Times are nanoseconds.
pub struct Handshake {
    pub side: Side,
    tls: Connection,
    /// By their [`Level`], and that of what TLS writes next.
    spaces: [Space; 2],
    level: Level,
    own_id: Id,
    /// Where the client's first packet went.
    first_id: Vec<u8>,
    /// Where packets go: at a client to what the server chose, once it did.
    pub peer_id: Vec<u8>,
    /// Whether a packet of the peer's opened.
    pub answered: bool,
    /// At a client.
    retry_id: Option<Vec<u8>>,
    token: Vec<u8>,
    /// How many bytes may be sent before more come.
    credit: usize,
    one_rtt: Option<OneRtt>,
    /// The last round trip that was measured, and how many probe timeouts expired since.
    pub rtt: Option<u64>,
    expired: u32,
    last_sent: u64,
    /// When a packet that opened came last, or else the handshake began.
    pub heard: u64,
}

impl Handshake {
    /// Begins a handshake with a server of this name. `parameters` are those of the endpoint.
    pub fn client(
        config: ClientConfig,
        name: &str,
        mut parameters: Vec<u8>,
        [own_id, first_id]: [Id; 2],
        now: u64,
    ) -> Result<Self, Failure> {
        let server = name.try_into().map_err(|error| Failure::fault(name, error))?;
        append(&mut parameters, &own_id, None);
        let tls = ClientConnection::new_quic(Arc::new(config), Version::V1, server, parameters);
        let tls = tls.map_err(|error| Failure::fault("TLS", error))?.into();
        let (first_id, peer_id) = (first_id.to_vec(), first_id.to_vec());
        let mut this = Handshake::new(Side::Client, tls, own_id, first_id, peer_id, now);
        this.write_tls();
        Ok(this)
    }

    /// Begins the handshake that this first packet of a client asks for.
    pub fn server(
        config: Arc<ServerConfig>,
        mut parameters: Vec<u8>,
        own_id: Id,
        asked: &Packet,
        now: u64,
    ) -> Result<Self, Failure> {
        let (first_id, peer_id) = (asked.dcid.clone(), asked.scid.clone());
        append(&mut parameters, &own_id, Some(&first_id));
        let tls = ServerConnection::new_quic(config, Version::V1, parameters);
        let tls = tls.map_err(|error| Failure::fault("TLS", error))?.into();
        Ok(Handshake::new(Side::Server, tls, own_id, first_id, peer_id, now))
    }

    fn new(
        side: Side,
        tls: Connection,
        own_id: Id,
        first_id: Vec<u8>,
        peer_id: Vec<u8>,
        now: u64,
    ) -> Self {
        let is_client = side == Side::Client;
        let mut spaces: [Space; 2] = Default::default();
        spaces[0].keys = Some(Keys::initial(Version::V1, &first_id, is_client));
        Handshake {
            side,
            tls,
            spaces,
            level: Level::Initial,
            own_id,
            first_id,
            peer_id,
            answered: false,
            retry_id: None,
            token: Vec::new(),
            credit: if is_client { usize::MAX } else { 0 },
            one_rtt: None,
            rtt: None,
            expired: 0,
            last_sent: now,
            heard: now,
        }
    }

    /// The 1-RTT keys, once, and the peer's transport parameters, once TLS is through and the
    /// connection IDs that the parameters name are those that were seen.
    pub fn complete(&mut self) -> Result<Option<(OneRtt, Vec<u8>)>, Failure> {
        if self.tls.is_handshaking() || self.one_rtt.is_none() {
            return Ok(None);
        }
        let parameters = self.tls.quic_transport_parameters().unwrap_or(&[]).to_vec();
        let first = (self.side == Side::Client).then(|| &self.first_id[..]);
        if !agree(&parameters, &self.peer_id, first, self.retry_id.as_deref()) {
            let why = "they are malformed, or name other connection IDs";
            return Err(Failure::parameters(why));
        }
        Ok(self.one_rtt.take().map(|one_rtt| (one_rtt, parameters)))
    }

    /// The application protocol that was agreed on.
    pub fn protocol(&self) -> Option<&[u8]> {
        self.tls.alpn_protocol()
    }

    /// The handshake is confirmed: its keys go (RFC 9001, section 4.9.2).
    pub fn confirm(&mut self) {
        self.spaces.iter_mut().for_each(|space| space.keys = None);
    }

    /// A datagram of so many bytes came, which lets a server send more.
    pub fn arrived(&mut self, len: usize) {
        self.credit = self.credit.saturating_add(AMPLIFICATION * len);
    }

    /// Takes a packet of a datagram. What isn't for this handshake, or doesn't open, changes
    /// nothing.
    pub fn receive(&mut self, now: u64, packet: &Packet, bytes: &mut [u8]) -> Result<(), Failure> {
        let is_client = self.side == Side::Client;
        let is_first = is_client && !self.answered && self.retry_id.is_none();
        let is_asked = !is_client && packet.dcid == self.first_id;
        if packet.dcid != self.own_id && !is_asked {
            return Ok(());
        }
        match &packet.kind {
            Kind::VersionNegotiation(versions) if is_first && packet.scid == self.first_id => {
                if !versions.contains(&VERSION) {
                    let why = format!("no version in common: the server has {:x?}", versions);
                    return Err(Failure::new(Status::NoVersion, why));
                }
            }
            Kind::Retry(token) if is_first && !token.is_empty() => {
                if packet.scid != self.first_id && is_valid_retry(&self.first_id, bytes) {
                    self.retry(packet.scid.clone(), token.clone());
                }
            }
            &Kind::Long(level, number_at)
                if is_client && !self.answered || packet.scid == self.peer_id =>
            {
                if !(is_client && packet.has_token) {
                    self.open(now, packet, (level, number_at), bytes)?;
                }
            }
            _ => {}
        }
        Ok(())
    }

    /// Opens a packet of this level, whose number is there, if it is new, and takes its frames.
    fn open(
        &mut self,
        now: u64,
        packet: &Packet,
        (level, number_at): (Level, usize),
        bytes: &mut [u8],
    ) -> Result<(), Failure> {
        let space = &self.spaces[level as usize];
        let keys = space.keys.as_ref().map(|keys| &keys.remote);
        let opened = keys.and_then(|it| open_long(it, bytes, number_at, space.expected));
        if let Some((number, at)) = opened.filter(|(number, _)| space.is_new(*number)) {
            (self.answered, self.heard) = (true, now);
            self.peer_id = packet.scid.clone();
            if self.side == Side::Server && level == Level::Handshake {
                self.credit = usize::MAX; // The client's address is validated.
                self.spaces[0].keys = None; // RFC 9001, section 4.9.1.
            }
            if bytes[0] & 0x0c != 0 || at.is_empty() {
                return Err(Failure::broken("reserved bits, or a packet without frames"));
            }
            self.take_frames(now, level, number, &bytes[at])?;
            self.read_tls(level)?;
        }
        Ok(())
    }

    /// Begins again with the server's token and ID (RFC 9000, section 17.2.5.2).
    fn retry(&mut self, scid: Vec<u8>, token: Vec<u8>) {
        self.spaces[0].keys = Some(Keys::initial(Version::V1, &scid, true));
        self.spaces[0].probe();
        (self.peer_id, self.retry_id, self.token) = (scid.clone(), Some(scid), token);
    }

    /// Takes the frames of a packet of this number.
    fn take_frames(
        &mut self,
        now: u64,
        level: Level,
        number: u64,
        payload: &[u8],
    ) -> Result<(), Failure> {
        let malformed = || Failure::broken("a frame is malformed, or isn't for a handshake");
        let space = &mut self.spaces[level as usize];
        let mut ack_eliciting = false;
        for frame in frames(payload).ok_or_else(malformed)? {
            ack_eliciting |= matches!(frame, Frame::Ping | Frame::Crypto(..));
            match frame {
                Frame::Padding | Frame::Ping => {}
                Frame::Ack(ranges) => {
                    if let Some(sent_at) = space.on_ack(&ranges)? {
                        (self.rtt, self.expired) = (Some(now.saturating_sub(sent_at)), 0);
                    }
                }
                Frame::Crypto(offset, data) => space.insert_crypto(offset, data)?,
                Frame::Close(code, text) => return Err(Failure::closed(code, text)),
            }
        }
        space.on_received(number, ack_eliciting);
        Ok(())
    }

    /// Hands TLS what came in order.
    fn read_tls(&mut self, level: Level) -> Result<(), Failure> {
        while let Some(data) = self.spaces[level as usize].take_crypto() {
            let read = self.tls.read_hs(&data);
            let alert = self.tls.alert().map(|alert| alert.get_u8());
            read.map_err(|error| Failure::tls(&error, alert))?;
            self.write_tls();
        }
        Ok(())
    }

    /// Queues what TLS has to say, at the level that each part is for, and keeps its keys.
    fn write_tls(&mut self) {
        loop {
            let outgoing = &mut self.spaces[self.level as usize].outgoing;
            let before = outgoing.len();
            match self.tls.write_hs(outgoing) {
                Some(KeyChange::Handshake { keys }) => {
                    self.level = Level::Handshake;
                    self.spaces[self.level as usize].keys = Some(keys);
                }
                // TLS has no more to say then.
                Some(KeyChange::OneRtt { keys, next }) => self.one_rtt = Some((keys, next)),
                None if outgoing.len() == before => return,
                None => {}
            }
        }
    }

    /// Whether nothing may be sent before more comes from the client.
    fn is_blocked(&self) -> bool {
        self.credit < DATAGRAM
    }

    /// When the probe timer expires (RFC 9002, section 6.2), if it is set: while something is in
    /// flight, and at a client else until TLS is through, as the server may send no more before it
    /// hears from this address.
    pub fn next_timeout(&self) -> Option<u64> {
        if self.is_blocked() {
            return None;
        }
        let in_flight = self.spaces.iter().filter_map(Space::last_in_flight).max();
        let waits = self.side == Side::Client && self.tls.is_handshaking();
        let waits = waits.then(|| self.last_sent);
        let once = 3 * self.rtt.unwrap_or(INITIAL_RTT) + GRANULARITY;
        let pto = once.saturating_mul(1 << self.expired.min(16)).min(LONGEST_PTO);
        in_flight.or(waits).map(|since| since + pto)
    }

    /// Lets the probe timer expire, if its time has come: what is in flight goes again.
    pub fn timeout(&mut self, now: u64) {
        if self.next_timeout().map_or(true, |deadline| now < deadline) {
            return;
        }
        self.expired += 1;
        let last = self.spaces.iter().rposition(|space| space.keys.is_some());
        for (at, space) in self.spaces.iter_mut().enumerate() {
            if space.last_in_flight().is_some() || Some(at) == last {
                space.probe();
            }
        }
    }

    /// The next datagram, if one is to be sent: an Initial packet, a Handshake packet, or both.
    pub fn poll(&mut self, now: u64) -> Result<Option<Vec<u8>>, Failure> {
        if self.is_blocked() {
            return Ok(None);
        }
        let datagram = self.seal(|space, room| {
            let sends = space.has_to_send() && room >= LEAST_ROOM;
            sends.then(|| space.write_frames(now, room))
        })?;
        self.last_sent = datagram.as_ref().map_or(self.last_sent, |_| now);
        Ok(datagram)
    }

    /// A datagram that closes the connection by an error, in all packets for which there are keys
    /// (RFC 9000, section 10.2.3), if one may be sent (section 8.1).
    pub fn close(&mut self, code: u64, text: &str) -> Result<Option<Vec<u8>>, Failure> {
        if self.is_blocked() {
            return Ok(None);
        }
        let mut frames = Vec::new();
        put_prefixed(&mut frames, &[0x1c, code, 0], &text.as_bytes()[..text.len().min(LEAST_ROOM)]);
        self.seal(|_, _| Some(frames.clone()))
    }

    /// Seals the frames that each space has for so much room into one datagram, if there are any. A
    /// datagram with an Initial packet is filled.
    fn seal(
        &mut self,
        mut frames_of: impl FnMut(&mut Space, usize) -> Option<Vec<u8>>,
    ) -> Result<Option<Vec<u8>>, Failure> {
        let (mut room, mut packets) = (DATAGRAM, Vec::<Unsealed>::new());
        for level in [Level::Initial, Level::Handshake] {
            let header = long_header(level, &self.peer_id, &self.own_id, &self.token);
            let space = &mut self.spaces[level as usize];
            let left = room.saturating_sub(header.len() + OVERHEAD);
            if let Some(mut frames) = space.keys.is_some().then(|| frames_of(space, left)).flatten()
            {
                frames.resize(frames.len().max(LEAST_FRAMES), 0);
                room = left.saturating_sub(frames.len());
                packets.push((level, header, frames));
            }
        }
        if packets.iter().any(|(level, ..)| *level == Level::Initial) {
            if let Some((.., last)) = packets.last_mut() {
                last.resize(last.len() + room, 0);
            }
        }
        let sealed = packets.into_iter().map(|packet| self.seal_packet(packet));
        let datagram = sealed.collect::<Result<Vec<_>, _>>()?.concat();
        if self.credit < usize::MAX {
            self.credit = self.credit.saturating_sub(datagram.len());
        }
        Ok(Some(datagram).filter(|datagram| !datagram.is_empty()))
    }

    /// Seals a packet. With a client's Handshake packet the Initial keys go (RFC 9001, section
    /// 4.9.1).
    fn seal_packet(&mut self, (level, header, frames): Unsealed) -> Result<Vec<u8>, Failure> {
        let space = &mut self.spaces[level as usize];
        let keys = space.keys.as_ref().map(|keys| &keys.local);
        let sealed = keys.map_or(Ok(Vec::new()), |it| seal_long(it, header, space.next, &frames));
        space.next += 1;
        if self.side == Side::Client && level == Level::Handshake {
            self.spaces[0].keys = None;
        }
        sealed.map_err(|error| Failure::fault("seal", error))
    }
}

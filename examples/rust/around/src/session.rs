//! The endpoint, with packet protection around it.
use crate::failure::Failure;
use crate::handshake::{Handshake, Id};
use crate::protection::Protection;
use fennelhammer::{Connection, Error, Event, Peer, Settings, Side, Transmit};

/// The longest round trip that an endpoint takes as measured, in nanoseconds.
const LONGEST_RTT: u64 = 60_000_000_000;

/// An endpoint, and the packet protection around it.
pub struct Session {
    pub connection: Connection,
    pub protection: Protection,
    /// How long the peer's connection IDs are. The endpoint's packets don't say so.
    id_len: usize,
    /// Whether the handshake is confirmed (RFC 9001, section 4.1.2).
    pub is_confirmed: bool,
}

impl Session {
    /// Makes the endpoint once the handshake is complete, at the time `now`, with a peer at this
    /// address. At a server the handshake is confirmed with that, which the client is told.
    pub fn new(
        mut settings: Settings,
        own_id: Id,
        handshake: &mut Handshake,
        address: u64,
        seed: [u8; 32],
        now: u64,
    ) -> Result<Option<Self>, Failure> {
        let (one_rtt, parameters) = match handshake.complete()? {
            Some(complete) => complete,
            None => return Ok(None),
        };
        let side = handshake.side;
        let (protection, id) = (Protection::new(side, one_rtt), &handshake.peer_id[..]);
        if id.is_empty() {
            return Err(Failure::unfit("the peer has an empty connection ID"));
        }
        if let Some(rtt) = handshake.rtt.map(|rtt| rtt.clamp(2, LONGEST_RTT)) {
            (settings.first_rtt, settings.first_rtt_variation) = (rtt, rtt / 2);
        }
        settings.confidentiality_limit = protection.current.local.confidentiality_limit();
        let peer = Peer { id, parameters: &parameters, address };
        let connection = Connection::new(&settings, side, own_id, peer, seed, now);
        let mut connection = connection.map_err(|error| match error {
            Error::Parameters | Error::DatagramSize => Failure::parameters(error),
            other => other.into(),
        })?;
        let (id_len, is_confirmed) = (id.len(), side == Side::Server);
        if is_confirmed {
            connection.handshake_done()?;
        }
        Ok(Some(Session { connection, protection, id_len, is_confirmed }))
    }

    /// Hands the endpoint a 1-RTT packet that came from this address, if it opens.
    pub fn receive(&mut self, now: u64, from: u64, packet: &mut [u8]) -> Result<(), Failure> {
        if self.protection.open(packet)? {
            match self.connection.receive(now, from, 0, packet) {
                Ok(_) | Err(Error::Closed) => {} // An event says why it closed.
                Err(error) => return Err(error.into()),
            }
        }
        Ok(())
    }

    /// The endpoint's next event, but for the one by which a client learns that the handshake is
    /// confirmed: that is noted.
    pub fn next_event(&mut self) -> Option<Event> {
        let event = self.connection.next_event();
        if event == Some(Event::HandshakeConfirmed) {
            self.is_confirmed = true;
            return self.connection.next_event(); // It comes but once.
        }
        event
    }

    /// The next datagram that is to be sent, sealed.
    pub fn poll(&mut self, now: u64, room: &mut [u8]) -> Result<Option<Transmit>, Failure> {
        let transmit = self.connection.poll(now, room)?;
        if let Some(transmit) = &transmit {
            self.protection.seal(&mut room[..transmit.len], self.id_len)?;
        }
        Ok(transmit)
    }
}

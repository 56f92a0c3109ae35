//! A client: the link to it, and what it is served.
use crate::folder::Folder;
use crate::server::address_of;
use crate::service::Service;
use around::failure::Failure;
use around::link::Link;
use around::socket::Socket;
use std::collections::BTreeSet;
use std::fmt;

/// How many addresses of a client are kept, to be told.
const ADDRESSES: usize = 10;

/// A client: its connection, and what it is served on it.
pub struct Client {
    link: Link,
    /// The connection IDs by which its datagrams come: to where the first one went, and the own.
    pub ids: Vec<Vec<u8>>,
    /// Once there is an endpoint.
    service: Option<Service>,
    /// When there is something to be done: 0 where a datagram came.
    pub deadline: u64,
    /// Why the connection ended, once it did.
    why: Option<Failure>,
    /// The first addresses to which datagrams went.
    addresses: BTreeSet<u64>,
}

impl Client {
    /// A client whose first packet went to this ID.
    pub fn new(link: Link, first_id: &[u8]) -> Self {
        let ids = vec![first_id.to_vec(), link.own_id.to_vec()];
        let (service, deadline, why, addresses) = (None, 0, None, BTreeSet::new());
        Client { link, ids, service, deadline, why, addresses }
    }

    /// Whether it was heard of at all: a packet of its opened.
    pub fn is_real(&self) -> bool {
        self.link.is_answered()
    }

    /// Whether nothing is to be done for it any more.
    pub fn is_over(&self) -> bool {
        self.why.is_some() && self.link.is_over()
    }

    /// Reads the IDs anew, where the endpoint issued or retired some: those of before.
    pub fn renew_ids(&mut self) -> Option<Vec<Vec<u8>>> {
        let connection = &mut self.link.session.as_mut()?.connection;
        let own = if connection.ids_changed() { connection.own_ids().ok()? } else { return None };
        let first = self.ids.first().cloned().into_iter();
        let ids = first.chain(own.iter().map(|own| own.id.to_vec())).collect();
        Some(std::mem::replace(&mut self.ids, ids))
    }

    /// Takes a datagram that came from this address.
    pub fn receive(&mut self, now: u64, from: u64, datagram: &mut [u8]) {
        self.deadline = 0;
        let taken = self.link.receive(now, from, datagram);
        self.end_with(now, taken);
    }

    /// Does what is due, and sends.
    pub fn turn(&mut self, now: u64, folder: &Folder, socket: &Socket, room: &mut [u8]) {
        let acted = self.act(now, folder);
        self.end_with(now, acted);
        let sent = self.transmit(now, socket, room);
        self.end_with(now, sent);
        self.deadline = self.link.next_timeout().unwrap_or(u64::MAX);
    }

    /// Ends the connection, where something failed, and tells the client why.
    fn end_with(&mut self, now: u64, done: Result<(), Failure>) {
        if let (Err(failure), None) = (done, &self.why) {
            let _ = self.link.close(now, Err(&failure)); // Else it learns by its idle timeout.
            self.why = Some(failure);
        }
    }

    fn act(&mut self, now: u64, folder: &Folder) -> Result<(), Failure> {
        self.link.timeout(now)?;
        let has_http3 = self.link.has_http3();
        match &mut self.link.session {
            Some(session) if self.why.is_none() => {
                let service = self.service.get_or_insert_with(|| Service::new(has_http3));
                service.act(&mut session.connection, folder)
            }
            _ => Ok(()),
        }
    }

    fn transmit(&mut self, now: u64, socket: &Socket, room: &mut [u8]) -> Result<(), Failure> {
        while let Some(transmit) = self.link.poll(now, room)? {
            if self.addresses.len() < ADDRESSES {
                self.addresses.insert(transmit.peer_address);
            }
            socket.send_to(&room[..transmit.len], address_of(transmit.peer_address));
        }
        Ok(())
    }
}

/// How the connection was, in a line.
impl fmt::Display for Client {
    fn fmt(&self, f: &mut fmt::Formatter<'_>) -> fmt::Result {
        let addresses = self.addresses.iter().map(|&it| address_of(it).to_string());
        write!(f, "{}", addresses.collect::<Vec<_>>().join(" and "))?;
        if let (Some(session), Some(service)) = (&self.link.session, &self.service) {
            let protocol = if self.link.has_http3() { "h3" } else { "hq-interop" };
            let (asked, bytes) = (service.requests, service.bytes);
            let (refused, updates) = (session.protection.refused, session.protection.updates);
            write!(f, ", {}: {} asked, {} bytes", protocol, asked, bytes)?;
            write!(f, ", {} packets refused, {} key updates", refused, updates)?;
        }
        self.why.iter().try_for_each(|why| write!(f, "; {}", why))
    }
}

//! A server: a socket, and which datagram is for which client.
use crate::client::Client;
use crate::folder::Folder;
use around::link::{Link, ANSWER, LEAST_INITIAL};
use around::packet::{packets, version_negotiation, Kind, Level, Packet};
use around::socket::{Came, Socket, BURST, LONGEST};
use fennelhammer::Settings;
use rustls::ServerConfig;
use std::collections::{BTreeMap, HashMap};
use std::io::Write;
use std::net::{Ipv4Addr, SocketAddr, SocketAddrV4};
use std::sync::mpsc::{sync_channel, SyncSender};
use std::sync::Arc;
use std::thread;

/// The idle timeout behind the handshake, in milliseconds; how many bytes of requests may be
/// unread, and of answers not acknowledged, for each client; and how many clients there may be.
const IDLE_MS: u64 = 10_000;
const UNREAD: u64 = 1 << 20;
const UNREAD_ON_STREAM: u64 = 1 << 16;
const UNACKNOWLEDGED: u64 = 1 << 21;
const CLIENTS: usize = 1000;
/// How many unidirectional streams a client wants for HTTP/3 (RFC 9114, section 6.2).
const CONTROL_STREAMS: u64 = 3;
/// Bytes of the least ID that a client may choose for a server (RFC 9000, section 7.2).
const LEAST_ID: usize = 8;
/// Where the ID of a 1-RTT packet ends: it begins with its second byte, and has 8.
const ID_END: usize = 9;
/// How many lines wait to be read.
const LINES: usize = 1000;

/// A number for an address, which says it: the endpoint knows addresses by numbers.
fn number_of(address: SocketAddr) -> Option<u64> {
    match address {
        SocketAddr::V4(it) => Some(u64::from(u32::from(*it.ip())) << 16 | u64::from(it.port())),
        SocketAddr::V6(_) => None,
    }
}

/// The address of a number.
pub fn address_of(number: u64) -> SocketAddr {
    SocketAddrV4::new(Ipv4Addr::from((number >> 16) as u32), number as u16).into()
}

/// Lines to the standard output, by a thread of its own: where nobody reads them the server goes
/// on, and those for which there is no room are left out.
fn printer() -> SyncSender<String> {
    let (lines, printed) = sync_channel::<String>(LINES);
    thread::spawn(move || {
        for line in printed {
            let _ = writeln!(std::io::stdout(), "{}", line); // It may be closed.
        }
    });
    lines
}

/// A server, at a socket, of all clients that come there.
pub struct Server {
    socket: Socket,
    config: Arc<ServerConfig>,
    settings: Settings,
    folder: Folder,
    /// By numbers, of which this is the next; and the numbers by the IDs of their datagrams.
    clients: BTreeMap<u64, Client>,
    next: u64,
    routes: HashMap<Vec<u8>, u64>,
    /// Where datagrams come to.
    room: Vec<u8>,
    lines: SyncSender<String>,
}

/// A server that only answers: a client may send no message, and datagrams stay small.
fn settings() -> Settings {
    let mut settings = Settings::default();
    settings.max_idle_timeout_ms = IDLE_MS;
    settings.receive_window = UNREAD;
    settings.stream_receive_window = UNREAD_ON_STREAM;
    settings.send_window = UNACKNOWLEDGED;
    settings.max_concurrent_uni_streams = CONTROL_STREAMS;
    settings.datagram_receive_buffer_size = 0;
    settings.mtu_discovery = 0;
    settings
}

impl Server {
    /// A server at this socket, of the files of this folder.
    pub fn new(socket: Socket, config: ServerConfig, folder: Folder) -> Self {
        let (clients, routes) = Default::default();
        let (config, settings, room) = (Arc::new(config), settings(), vec![0; LONGEST]);
        let (next, lines) = (0, printer());
        Server { socket, config, settings, folder, clients, next, routes, room, lines }
    }

    /// Serves, for ever.
    pub fn run(&mut self) -> ! {
        loop {
            self.receive();
            self.turn();
            let first = self.clients.values().map(|client| client.deadline).min();
            self.socket.wait(first, ANSWER);
        }
    }

    fn receive(&mut self) {
        for _ in 0..BURST {
            let mut room = std::mem::take(&mut self.room);
            let came = self.socket.receive(&mut room);
            if let Came::Datagram(len, from) = came {
                number_of(from).map_or((), |from| self.take(from, &mut room[..len]));
            }
            self.room = room;
            if let Came::Nothing = came {
                break;
            }
        }
    }

    /// Takes a datagram: all its packets are for whom the first one is (RFC 9000, section 12.2).
    fn take(&mut self, from: u64, datagram: &mut [u8]) {
        let now = self.socket.now();
        let first = match packets(datagram).into_iter().next() {
            Some(first) => first,
            None => return,
        };
        let known = self.route(&first, datagram);
        match known.and_then(|number| self.clients.get_mut(&number)) {
            Some(client) => client.receive(now, from, datagram),
            None if datagram.len() >= LEAST_INITIAL => self.welcome(now, &first, from, datagram),
            None => {}
        }
    }

    /// For which client a datagram is.
    fn route(&self, first: &Packet, datagram: &[u8]) -> Option<u64> {
        let id = match first.kind {
            Kind::Short => datagram.get(1..ID_END)?,
            _ => &first.dcid,
        };
        self.routes.get(id).copied()
    }

    /// Answers a datagram of nobody who is known: another version with the one there is, and an
    /// Initial packet, if it opens, with a handshake.
    fn welcome(&mut self, now: u64, first: &Packet, from: u64, datagram: &mut [u8]) {
        let is_new = matches!(first.kind, Kind::Long(Level::Initial, _))
            && first.dcid.len() >= LEAST_ID
            && self.clients.len() < CLIENTS;
        if let Kind::OtherVersion = first.kind {
            self.socket.send_to(&version_negotiation(first), address_of(from));
        } else if is_new {
            let (settings, config) = (self.settings.clone(), self.config.clone());
            // Where there is no memory, or nothing random, nobody is answered.
            let _ = Link::server(settings, config, first, from, now).map(|link| {
                let mut client = Client::new(link, &first.dcid);
                client.receive(now, from, datagram);
                if client.is_real() {
                    self.add(client);
                }
            });
        }
    }

    fn add(&mut self, client: Client) {
        self.routes.extend(client.ids.iter().map(|id| (id.clone(), self.next)));
        self.clients.insert(self.next, client);
        self.next += 1;
    }

    /// Does what is due for each client, and says how those were whose connection is over.
    fn turn(&mut self) {
        let now = self.socket.now();
        for (&number, client) in &mut self.clients {
            if client.deadline <= now {
                client.turn(now, &self.folder, &self.socket, &mut self.room);
            }
            if let Some(before) = client.renew_ids() {
                forget(&mut self.routes, &before);
                self.routes.extend(client.ids.iter().map(|id| (id.clone(), number)));
            }
            if client.is_over() {
                forget(&mut self.routes, &client.ids);
                let _ = self.lines.try_send(client.to_string()); // Else too many wait.
            }
        }
        self.clients.retain(|_, client| !client.is_over());
    }
}

fn forget(routes: &mut HashMap<Vec<u8>, u64>, ids: &[Vec<u8>]) {
    for id in ids {
        routes.remove(id);
    }
}

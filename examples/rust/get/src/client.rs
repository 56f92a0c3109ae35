//! A client: a socket, a link to the server, and a file that is being got.
use crate::fetch::Fetch;
use around::failure::Failure;
use around::link::{Link, ANSWER};
use around::socket::{Came, Socket, BURST, LONGEST};
use fennelhammer::Settings;
use rustls::ClientConfig;

/// The idle timeout behind the handshake, in milliseconds.
const IDLE_MS: u64 = 10_000;
/// How many streams of its own a server wants for HTTP/3 (RFC 9114, section 6.2).
const CONTROL_STREAMS: u64 = 3;

/// A client, of one connection and one file.
pub struct Client {
    socket: Socket,
    pub link: Link,
    pub fetch: Fetch,
    /// Where datagrams come to.
    room: Vec<u8>,
}

/// A client that only asks: the server may open no stream but those of HTTP/3, and send no message,
/// and there is no use for larger datagrams.
fn settings() -> Settings {
    let mut settings = Settings::default();
    settings.max_idle_timeout_ms = IDLE_MS;
    settings.max_concurrent_bidi_streams = 0;
    settings.max_concurrent_uni_streams = CONTROL_STREAMS;
    settings.datagram_receive_buffer_size = 0;
    settings.mtu_discovery = 0;
    settings
}

impl Client {
    /// A client that asks the server of this name, to which the socket is connected, for a file.
    pub fn new(
        socket: Socket,
        config: ClientConfig,
        name: &str,
        fetch: Fetch,
    ) -> Result<Self, Failure> {
        let link = Link::client(settings(), config, name, socket.now())?;
        Ok(Client { socket, link, fetch, room: vec![0; LONGEST] })
    }

    /// Nanoseconds since the start.
    pub fn now(&self) -> u64 {
        self.socket.now()
    }

    /// Gets the file, and closes the connection.
    pub fn run(&mut self) -> Result<(), Failure> {
        let got = loop {
            match self.turn() {
                Ok(false) => self.wait(),
                ended => break ended.map(drop),
            }
        };
        self.close(&got);
        got
    }

    /// Takes what came, does what is due, and sends: whether the file is whole.
    fn turn(&mut self) -> Result<bool, Failure> {
        self.receive()?;
        self.link.timeout(self.now())?;
        let has_http3 = self.link.has_http3();
        let is_whole = match &mut self.link.session {
            Some(session) => self.fetch.act(session, has_http3)?,
            None => false,
        };
        self.transmit()?;
        Ok(is_whole)
    }

    fn receive(&mut self) -> Result<(), Failure> {
        for _ in 0..BURST {
            match self.socket.receive(&mut self.room) {
                Came::Datagram(len, _) => {
                    self.link.receive(self.socket.now(), 0, &mut self.room[..len])?
                }
                Came::Fault => {}
                Came::Nothing => break,
            }
        }
        Ok(())
    }

    fn transmit(&mut self) -> Result<(), Failure> {
        let now = self.now();
        while let Some(transmit) = self.link.poll(now, &mut self.room)? {
            self.socket.send(&self.room[..transmit.len]);
        }
        Ok(())
    }

    /// Waits until a datagram comes, or a timer expires.
    fn wait(&self) {
        self.socket.wait(self.link.next_timeout(), ANSWER);
    }

    /// Tells the server of the end, and goes on until the endpoint is drained. What is at fault
    /// meanwhile changes nothing: the server learns by its idle timeout.
    fn close(&mut self, got: &Result<(), Failure>) {
        let _ = self.link.close(self.now(), got.as_ref().map(|_| "got"));
        let _ = self.transmit();
        while !self.link.is_over() {
            self.wait();
            let _ = (self.receive(), self.link.timeout(self.now()), self.transmit());
        }
    }
}

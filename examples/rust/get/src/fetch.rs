//! A file that is being got: what is asked on a stream, and what comes on it. By `hq-interop` that
//! is `GET /path`, and the file up to its FIN; else it is HTTP/3.
use crate::reply::Reply;
use around::failure::{Failure, Status};
use around::http3;
use around::session::Session;
use fennelhammer::{Connection, Dir, Error, Event, Lost};
use std::fs::{self, File};
use std::io::Write;

/// A file that is being got. It has its name once it is whole; up to then its name ends in `.part`.
pub struct Fetch {
    /// The server's name and port, as HTTP/3 has them.
    authority: String,
    name: String,
    path: String,
    part: String,
    file: File,
    /// The streams of HTTP/3 besides, and what came of its answer, where the server speaks that.
    http3: Option<(http3::Streams, Reply)>,
    /// Once it was begun, what isn't written to the stream yet, which is opened first.
    request: Option<Vec<u8>>,
    stream: Option<u64>,
    pub received: u64,
    is_whole: bool,
}

impl Drop for Fetch {
    fn drop(&mut self) {
        if !self.is_whole {
            let _ = fs::remove_file(&self.part); // Where that fails, a part of the file stays.
        }
    }
}

impl Fetch {
    /// Gets what the server of this name and port has under a name, into a file.
    pub fn new(authority: String, name: &str, path: &str) -> Result<Self, Failure> {
        let (path, part) = (path.to_string(), format!("{}.part", path));
        let file = File::create(&part).map_err(|error| Failure::fault(&part, error))?;
        let (name, http3, request, stream) = (name.to_string(), None, None, None);
        let (received, is_whole) = (0, false);
        Ok(Fetch { authority, name, path, part, file, http3, request, stream, received, is_whole })
    }

    /// Does what the endpoint's events ask for: whether the file is whole now.
    pub fn act(&mut self, session: &mut Session, has_http3: bool) -> Result<bool, Failure> {
        if self.request.is_none() {
            self.begin(has_http3);
        }
        self.ask(&mut session.connection)?;
        while let Some(event) = session.next_event() {
            let connection = &mut session.connection;
            match event {
                Event::Available(_) | Event::Writable(_) => self.ask(connection)?,
                Event::Readable(stream) => self.read(connection, stream)?,
                Event::Opened(Dir::Uni) => match &mut self.http3 {
                    Some((streams, _)) => streams.accept(connection)?,
                    None => {} // The server opened a stream that means nothing.
                },
                Event::Lost(lost) => return Err(self.lost(lost)),
                _ => {}
            }
        }
        Ok(self.is_whole)
    }

    /// The request, by the protocol that was agreed on.
    fn begin(&mut self, has_http3: bool) {
        if has_http3 {
            self.http3 = Some(Default::default());
            let fields = [
                (":method", "GET"),
                (":scheme", "https"),
                (":authority", &self.authority),
                (":path", &self.name),
            ];
            self.request = Some(http3::headers(&fields));
        } else {
            self.request = Some(format!("GET {}\r\n", self.name).into_bytes());
        }
    }

    /// Opens the streams, and writes the request and its FIN, as far as there is room.
    fn ask(&mut self, connection: &mut Connection) -> Result<(), Failure> {
        if let Some((streams, _)) = &mut self.http3 {
            streams.greet(connection)?;
        }
        let request = self.request.as_mut().filter(|request| !request.is_empty());
        let request = match request {
            Some(request) => request,
            None => return Ok(()),
        };
        let stream = match self.stream.map_or_else(|| connection.open(Dir::Bi), Ok) {
            Err(Error::Blocked) => return Ok(()),
            opened => opened?,
        };
        self.stream = Some(stream);
        while !request.is_empty() {
            match connection.write(stream, request) {
                Err(Error::Blocked) => return Ok(()),
                Err(Error::Stopped(code)) => {
                    return Err(self.refused("wants no request", code, ""))
                }
                written => drop(request.drain(..written?)),
            }
        }
        Ok(connection.finish(stream)?)
    }

    /// Reads what came on a stream.
    fn read(&mut self, connection: &mut Connection, stream: u64) -> Result<(), Failure> {
        match &mut self.http3 {
            Some((streams, _)) if streams.has(stream) => return streams.read(connection, stream),
            _ => {}
        }
        let mut room = [0; 65536];
        while !self.is_whole {
            let read = match connection.read(stream, &mut room) {
                Err(Error::Reset(code)) => return Err(self.refused("reset the stream", code, "")),
                Err(Error::Blocked | Error::ClosedStream) => return Ok(()),
                read => read?,
            };
            self.take(&room[..read.len])?;
            if read.fin {
                self.end()?;
            }
        }
        Ok(())
    }

    /// Writes the file's bytes of those that came.
    fn take(&mut self, bytes: &[u8]) -> Result<(), Failure> {
        let (file, received, part) = (&mut self.file, &mut self.received, &self.part);
        let mut write = |body: &[u8]| {
            *received += body.len() as u64;
            file.write_all(body).map_err(|error| Failure::fault(part, error))
        };
        match &mut self.http3 {
            Some((_, reply)) => reply.take(bytes, &mut write),
            None => write(bytes),
        }
    }

    /// The answer has come to its end: gives the file its name.
    fn end(&mut self) -> Result<(), Failure> {
        if let Some((_, reply)) = &self.http3 {
            reply.end(self.received)?;
        }
        let renamed = fs::rename(&self.part, &self.path);
        renamed.map_err(|error| Failure::fault(&self.path, error))?;
        self.is_whole = true;
        Ok(())
    }

    /// What the server did in place of giving the whole file.
    fn refused(&self, what: &str, code: u64, text: &str) -> Failure {
        let (got, text) = (self.received, Some(text).filter(|text| !text.is_empty()));
        // It is the server's: escaped it stays in one line.
        let text = text.map_or(String::new(), |text| format!(" ({})", text.escape_debug()));
        let why = format!("the server {} by code {}{}, after {} bytes", what, code, text, got);
        Failure::new(Status::Refused, why)
    }

    /// Why there is no whole file where the connection was lost.
    fn lost(&self, lost: Lost) -> Failure {
        match lost {
            Lost::PeerApplication { code, text } => self.refused("closed", code, &text),
            Lost::PeerTransport { code, text } => self.refused("closed for QUIC", code, &text),
            Lost::Idle => Failure::new(Status::Silent, "nothing came for the idle timeout"),
            Lost::Transport { code, text } => Failure::broken(format!("{} ({:#x})", text, code)),
            other => Failure::fault("the connection is lost", format!("{:?}", other)),
        }
    }
}

//! What is asked for and answered on a connection.
use crate::answer::{Answer, Progress};
use crate::folder::Folder;
use crate::request::Request;
use around::failure::{Failure, Status};
use around::http3;
use fennelhammer::{Connection, Dir, Error, Event, Lost};
use std::collections::BTreeMap;

/// A stream that a client opened.
enum Exchange {
    Asked(Request),
    Answered(Answer),
}

/// The streams of a connection.
pub struct Service {
    /// Those of HTTP/3 besides, where that is spoken.
    http3: Option<http3::Streams>,
    exchanges: BTreeMap<u64, Exchange>,
    /// How many files were asked for, and how many bytes were written.
    pub requests: u64,
    pub bytes: u64,
}

impl Service {
    pub fn new(has_http3: bool) -> Self {
        let http3 = has_http3.then(http3::Streams::default);
        Service { http3, exchanges: BTreeMap::new(), requests: 0, bytes: 0 }
    }

    /// Does what the endpoint's events ask for. It is a failure that the connection is lost.
    pub fn act(&mut self, connection: &mut Connection, folder: &Folder) -> Result<(), Failure> {
        self.http3.as_mut().map_or(Ok(()), |streams| streams.greet(connection))?;
        while let Some(event) = connection.next_event() {
            match event {
                Event::Opened(Dir::Bi) => {
                    while let Some(stream) = connection.accept(Dir::Bi) {
                        let request = Request::new(self.http3.is_some());
                        self.exchanges.insert(stream, Exchange::Asked(request));
                        self.go_on(connection, folder, stream)?;
                    }
                }
                Event::Opened(Dir::Uni) => {
                    self.http3.as_mut().map_or(Ok(()), |streams| streams.accept(connection))?
                }
                Event::Readable(stream) => match &mut self.http3 {
                    Some(streams) if streams.has(stream) => streams.read(connection, stream)?,
                    _ => self.go_on(connection, folder, stream)?,
                },
                Event::Writable(stream) => self.go_on(connection, folder, stream)?,
                Event::Stopped { stream, code } => {
                    if self.exchanges.remove(&stream).is_some() {
                        connection.reset(stream, code)?;
                    }
                }
                Event::Lost(lost) => return Err(lost_by(lost)),
                _ => {}
            }
        }
        Ok(())
    }

    /// Reads what is asked for on a stream, or writes what is answered.
    fn go_on(
        &mut self,
        connection: &mut Connection,
        folder: &Folder,
        stream: u64,
    ) -> Result<(), Failure> {
        if let Some(Exchange::Asked(request)) = self.exchanges.get_mut(&stream) {
            let has_http3 = self.http3.is_some();
            let answer = match read(connection, stream, request)? {
                None => return Ok(()),
                Some(Read::Reset) => Err(http3::NO_ERROR),
                Some(Read::Whole) => Answer::new(folder, request.end()?, has_http3),
            };
            self.requests += 1;
            match answer {
                Ok(answer) => drop(self.exchanges.insert(stream, Exchange::Answered(answer))),
                Err(code) => {
                    self.exchanges.remove(&stream);
                    return Ok(connection.reset(stream, code)?);
                }
            }
        }
        if let Some(Exchange::Answered(answer)) = self.exchanges.get_mut(&stream) {
            let before = answer.written;
            let progress = answer.write(connection, stream)?;
            self.bytes += answer.written - before;
            if let Progress::Over = progress {
                self.exchanges.remove(&stream);
            }
        }
        Ok(())
    }
}

/// What came of a request.
enum Read {
    Whole,
    Reset,
}

/// Reads a request: `None` where more is to come.
fn read(
    connection: &mut Connection,
    stream: u64,
    request: &mut Request,
) -> Result<Option<Read>, Failure> {
    let mut room = [0; 4096];
    loop {
        let read = match connection.read(stream, &mut room) {
            Err(Error::Blocked) => return Ok(None),
            Err(Error::Reset(_) | Error::ClosedStream) => return Ok(Some(Read::Reset)),
            read => read?,
        };
        request.take(&room[..read.len])?;
        if read.fin {
            return Ok(Some(Read::Whole));
        }
    }
}

/// Why a connection was lost.
fn lost_by(lost: Lost) -> Failure {
    let closed = |code, text: String| {
        let text = text.escape_debug(); // So that it stays one line.
        Failure::new(Status::Refused, format!("the client closed by {} ({})", code, text))
    };
    match lost {
        Lost::PeerApplication { code, text } => closed(format!("code {}", code), text),
        Lost::PeerTransport { code, text } => closed(format!("error {:#x} of QUIC", code), text),
        Lost::Idle => Failure::new(Status::Silent, "nothing came for the idle timeout"),
        Lost::Transport { code, text } => Failure::broken(format!("{} ({:#x})", text, code)),
        other => Failure::fault("the connection is lost", format!("{:?}", other)),
    }
}

//! What a client asks for on a stream: by `hq-interop` a line `GET /path`, and by HTTP/3 a HEADERS
//! frame (RFC 9114, section 4.1).
use around::failure::Failure;
use around::http3::{self, Frames, Piece};

/// Bytes of the longest line.
const LONGEST: usize = 4096;

/// Why nothing is answered: by a status of HTTP, or by a reset with a code.
#[derive(Clone, Copy, Debug, PartialEq, Eq)]
pub enum Refusal {
    Status(u16),
    Reset(u64),
}

/// A request, as far as it came.
pub enum Request {
    Line(Vec<u8>),
    /// The frames, and what the header says, once it came.
    Http3(Frames, Option<Result<String, Refusal>>),
}

impl Request {
    pub fn new(has_http3: bool) -> Self {
        if has_http3 {
            Request::Http3(Frames::default(), None)
        } else {
            Request::Line(Vec::new())
        }
    }

    /// Takes bytes that came. Trailers and a body are of no use.
    pub fn take(&mut self, bytes: &[u8]) -> Result<(), Failure> {
        match self {
            Request::Line(line) => {
                let room = LONGEST + 1 - line.len();
                line.extend(&bytes[..bytes.len().min(room)]);
            }
            Request::Http3(frames, asked) => {
                frames.take(bytes);
                while let Some(piece) = frames.next_piece()? {
                    match piece {
                        Piece::Headers(section) if asked.is_none() => {
                            *asked = Some(read_header(&section)?);
                        }
                        Piece::Data(_) if asked.is_none() => {
                            let why = "DATA comes first";
                            return Err(Failure::http3(http3::FRAME_UNEXPECTED, why));
                        }
                        _ => {}
                    }
                }
            }
        }
        Ok(())
    }

    /// What is asked for, once all came.
    pub fn end(&self) -> Result<Result<String, Refusal>, Failure> {
        match self {
            Request::Line(line) => Ok(read_line(line).ok_or(Refusal::Reset(400))),
            Request::Http3(frames, _) if !frames.is_whole() => {
                Err(Failure::http3(http3::FRAME_ERROR, "a request ends within a frame"))
            }
            Request::Http3(_, asked) => {
                let none = Err(Refusal::Reset(http3::REQUEST_INCOMPLETE));
                Ok(asked.clone().unwrap_or(none))
            }
        }
    }
}

fn read_line(line: &[u8]) -> Option<String> {
    let line = std::str::from_utf8(line).ok().filter(|line| line.len() <= LONGEST)?;
    Some(line.strip_prefix("GET ")?.trim_end().to_string())
}

/// The path that a header asks for.
fn read_header(section: &[u8]) -> Result<Result<String, Refusal>, Failure> {
    let fields = http3::fields(section)?;
    let path = http3::value(&fields, ":path");
    Ok(match (http3::value(&fields, ":method"), path) {
        (Some("GET"), Some(path)) => Ok(path.to_string()),
        (Some(_), Some(_)) => Err(Refusal::Status(405)),
        _ => Err(Refusal::Reset(http3::MESSAGE_ERROR)),
    })
}

//! The answer to a request of HTTP/3 (RFC 9114, section 4.1).
use around::failure::{Failure, Status};
use around::http3::{self, Frames, Piece};

/// What came of an answer.
#[derive(Default)]
pub struct Reply {
    frames: Frames,
    /// Whether its header, with status 200, came, and how long its body is, if it says so.
    is_begun: bool,
    length: Option<u64>,
}

impl Reply {
    /// Takes bytes that came, and hands on those of the body.
    pub fn take(
        &mut self,
        bytes: &[u8],
        body: &mut impl FnMut(&[u8]) -> Result<(), Failure>,
    ) -> Result<(), Failure> {
        self.frames.take(bytes);
        while let Some(piece) = self.frames.next_piece()? {
            match piece {
                Piece::Headers(section) if !self.is_begun => self.begin(&section)?,
                Piece::Data(data) if self.is_begun => body(&data)?,
                Piece::Data(_) => {
                    return Err(Failure::http3(http3::FRAME_UNEXPECTED, "DATA comes first"))
                }
                _ => {} // Trailers.
            }
        }
        Ok(())
    }

    /// Takes a header: one with a status below 200 says nothing.
    fn begin(&mut self, section: &[u8]) -> Result<(), Failure> {
        let fields = http3::fields(section)?;
        let number = |name| http3::value(&fields, name).and_then(|it| it.parse::<u64>().ok());
        match number(":status") {
            Some(100..=199) => {}
            Some(200) => (self.is_begun, self.length) = (true, number("content-length")),
            Some(status) => {
                let why = format!("the server answers with status {}", status);
                return Err(Failure::new(Status::Refused, why));
            }
            None => return Err(Failure::http3(http3::MESSAGE_ERROR, "no status in an answer")),
        }
        Ok(())
    }

    /// Whether the stream may end behind a body of so many bytes.
    pub fn end(&self, received: u64) -> Result<(), Failure> {
        if !self.frames.is_whole() {
            return Err(Failure::http3(http3::FRAME_ERROR, "the answer ends within a frame"));
        }
        if !self.is_begun || self.length.map_or(false, |length| length != received) {
            return Err(Failure::http3(http3::MESSAGE_ERROR, "the answer isn't whole"));
        }
        Ok(())
    }
}

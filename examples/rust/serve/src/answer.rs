//! An answer on a stream: a header of HTTP/3, if there is one, and a file.
use crate::folder::Folder;
use crate::request::Refusal;
use around::failure::Failure;
use around::http3;
use fennelhammer::{Connection, Error};
use std::fs::File;
use std::io::Read;

/// How many bytes of a file are read at once.
const BLOCK: usize = 65536;

/// An answer, as far as it isn't written yet.
pub struct Answer {
    /// What is to be written next, from some byte on.
    block: Vec<u8>,
    from: usize,
    /// The file, and how much of it is to be read.
    file: Option<File>,
    left: u64,
    /// By which code the stream is reset where the file can't be read.
    broken: u64,
    pub written: u64,
}

/// How far an answer is.
pub enum Progress {
    /// It waits for room.
    Blocked,
    /// Nothing is left to be done.
    Over,
}

impl Answer {
    /// The answer to what is asked for.
    pub fn new(
        folder: &Folder,
        asked: Result<String, Refusal>,
        has_http3: bool,
    ) -> Result<Self, u64> {
        let found = asked.and_then(|name| folder.open(&name).ok_or(Refusal::Status(404)));
        match found {
            Ok((file, len)) if has_http3 => {
                let length = len.to_string();
                let fields = [(":status", "200"), ("content-length", &length)];
                let block = [http3::headers(&fields), http3::data_head(len)].concat();
                Ok(Answer::of(block, Some(file), len, http3::INTERNAL_ERROR))
            }
            Ok((file, len)) => Ok(Answer::of(Vec::new(), Some(file), len, 500)),
            Err(Refusal::Status(status)) if has_http3 => {
                let block = http3::headers(&[(":status", &status.to_string())]);
                Ok(Answer::of(block, None, 0, http3::INTERNAL_ERROR))
            }
            Err(Refusal::Status(status)) => Err(u64::from(status)),
            Err(Refusal::Reset(code)) => Err(code),
        }
    }

    fn of(block: Vec<u8>, file: Option<File>, left: u64, broken: u64) -> Self {
        Answer { block, from: 0, file, left, broken, written: 0 }
    }

    /// Writes as much as there is room for, and the FIN behind all of it.
    pub fn write(&mut self, connection: &mut Connection, stream: u64) -> Result<Progress, Failure> {
        loop {
            if self.from == self.block.len() && !self.fill() {
                connection.reset(stream, self.broken)?;
                return Ok(Progress::Over);
            }
            let is_last = self.from == self.block.len();
            let written = if is_last {
                connection.finish(stream).map(|()| 0)
            } else {
                connection.write(stream, &self.block[self.from..])
            };
            match written {
                Ok(_) if is_last => return Ok(Progress::Over),
                Ok(len) => (self.from, self.written) = (self.from + len, self.written + len as u64),
                Err(Error::Blocked) => return Ok(Progress::Blocked),
                Err(Error::Stopped(code)) => {
                    connection.reset(stream, code)?;
                    return Ok(Progress::Over);
                }
                Err(error) => return Err(error.into()),
            }
        }
    }

    /// Reads the next block of the file, which is empty at its end: whether that could be read.
    fn fill(&mut self) -> bool {
        let len = self.left.min(BLOCK as u64) as usize;
        self.block.resize(len, 0);
        let read = self.file.as_mut().map_or(Ok(()), |file| file.read_exact(&mut self.block));
        (self.from, self.left) = (0, self.left - len as u64);
        read.is_ok()
    }
}

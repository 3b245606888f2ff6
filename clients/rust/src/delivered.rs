//! What comes on each side of a connection, and when; and why a capture is no output of toxicap.
use std::time::Duration;
use std::{error, fmt, io};

/// How a direction ends.
#[derive(Clone, Copy, Debug, PartialEq, Eq)]
#[non_exhaustive]
pub enum End {
    /// By a FIN; in a capture a toxic's close is one too.
    Fin,
    /// By a toxic's close, as a report tells it.
    Close,
    /// By a reset.
    Reset,
    /// By a refusal, since the proxy is disabled; this stands in both directions.
    Refused,
}

/// What comes.
#[derive(Clone, PartialEq, Eq)]
#[non_exhaustive]
pub enum What {
    /// Bytes that come at once.
    Chunk(Vec<u8>),
    /// The end of the direction.
    End(End),
}

/// Which way bytes go.
#[derive(Clone, Copy, Debug, PartialEq, Eq)]
pub enum Direction {
    /// What the client sent.
    Up,
    /// What the server sent.
    Down,
}

/// What comes at an instant.
#[derive(Clone, Debug, PartialEq, Eq)]
#[non_exhaustive]
pub struct Event {
    /// The time since the opening.
    pub time: Duration,
    /// Which way it goes.
    pub direction: Direction,
    /// What comes.
    pub what: What,
}

/// What one direction of a connection delivered.
#[derive(Clone, Default, PartialEq, Eq)]
#[non_exhaustive]
pub struct Line {
    /// Its chunks, each whole (also above 1,460 bytes), with its time; several may have the same. A live read may give less, or more that came at once.
    pub chunks: Vec<(Duration, Vec<u8>)>,
    /// Its end, if it has one, with its time.
    pub end: Option<(Duration, End)>,
}

/// What both directions of a connection delivered.
#[derive(Clone, Debug, Default, PartialEq, Eq)]
#[non_exhaustive]
pub struct Delivered {
    /// What the client sent.
    pub up: Line,
    /// What the server sent.
    pub down: Line,
}

/// Bytes as messages show them: their number, and the first of them.
pub(crate) struct Shown<'a>(pub(crate) &'a [u8]);

impl fmt::Debug for Shown<'_> {
    fn fmt(&self, to: &mut fmt::Formatter) -> fmt::Result {
        let dots = if self.0.len() > 20 { ".." } else { "" };
        write!(to, "{} bytes \"{}{dots}\"", self.0.len(), self.0[..self.0.len().min(20)].escape_ascii())
    }
}

impl fmt::Debug for What {
    fn fmt(&self, to: &mut fmt::Formatter) -> fmt::Result {
        match self {
            What::Chunk(bytes) => Shown(bytes).fmt(to),
            What::End(end) => end.fmt(to),
        }
    }
}

impl fmt::Debug for Line {
    fn fmt(&self, to: &mut fmt::Formatter) -> fmt::Result {
        let chunks: Vec<_> = self.chunks.iter().map(|(time, bytes)| (time, Shown(bytes))).collect();
        to.debug_struct("Line").field("chunks", &chunks).field("end", &self.end).finish()
    }
}

/// Why toxicap did not write a capture.
#[derive(Clone, Debug, PartialEq, Eq)]
#[non_exhaustive]
pub struct NotOutput {
    /// The number of the record that is at fault, from 0; `None` where it is the file's header.
    pub record: Option<usize>,
    /// What is at fault.
    pub why: String,
}

impl fmt::Display for NotOutput {
    fn fmt(&self, to: &mut fmt::Formatter) -> fmt::Result {
        to.write_str("no output capture of toxicap: ")?;
        match self.record {
            Some(number) => write!(to, "record {number}: {}", self.why),
            None => to.write_str(&self.why),
        }
    }
}

impl error::Error for NotOutput {}

impl From<NotOutput> for io::Error {
    fn from(fault: NotOutput) -> io::Error {
        io::Error::new(io::ErrorKind::InvalidData, fault)
    }
}

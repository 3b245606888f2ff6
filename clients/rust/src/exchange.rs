//! What an end of a connection has received and sent, by a clock of its own.
use crate::delivered::{End, Line, What};
use crate::steps::{bytes_of, steps_of, Step};
use std::collections::VecDeque;
use std::io::{self, ErrorKind};
use std::time::Duration;

const FOREVER: &str = "nothing comes any more, and a client without a read timeout waits forever: set one";

/// An end of a connection, while it is used.
pub(crate) struct Exchange {
    pub(crate) now: Duration,
    pub(crate) timeout: Option<Duration>,
    pub(crate) late: Option<Duration>, // how late a read that joins chunks is
    steps: VecDeque<Step>,             // what was not taken
    offset: usize,                     // how many bytes of the first step were taken
    passed: usize,                     // how many bytes had been sent when the last step was taken
    pub(crate) sent: Vec<u8>,
    asked: Vec<(usize, Duration)>, // how many bytes were sent up to these times
    closed: Option<Duration>,      // when this end was shut down for writing
    is_shut: bool,                 // whether it is for reading
    is_cut: bool,                  // whether a toxic ended both directions
    has_met: Option<End>,          // a reset that was told, or such an end that a write has met
    recorded: Vec<u8>,             // what the recorded side sent
    pub(crate) is_compared: bool,
}

impl Exchange {
    pub(crate) fn open(line: &Line, recorded: &Line, own: &Line, is_cut: bool) -> io::Result<Exchange> {
        if matches!(line.end, Some((_, End::Refused))) {
            return Err(ErrorKind::ConnectionRefused.into());
        }
        Ok(Exchange {
            now: Duration::ZERO,
            timeout: None,
            late: None,
            steps: steps_of(line, recorded, own)?.into(),
            offset: 0,
            passed: 0,
            sent: Vec::new(),
            asked: vec![(0, Duration::ZERO)],
            closed: None,
            is_shut: false,
            is_cut,
            has_met: None,
            recorded: bytes_of(own),
            is_compared: false,
        })
    }

    /// Ends reading, writing or both.
    pub(crate) fn shut(&mut self, reads: bool, writes: bool) {
        self.is_shut |= reads;
        self.closed = self.closed.or(writes.then_some(self.now));
    }

    /// What this end has not done of what a step waits for.
    fn lacks(&self, step: &Step) -> Option<String> {
        if self.sent.len() < step.need {
            let sent = self.sent.len();
            return Some(format!("a read after {sent} bytes were sent: the recorded side had sent {} before what comes next", step.need));
        }
        let is_open = step.closed && self.closed.is_none();
        is_open.then(|| "a read while this side is open: the recorded side had closed before what comes next".to_string())
    }

    /// When a step comes, but not before what stands before it; `None` if it waits for this end.
    fn due(&self, step: &Step) -> Option<Duration> {
        if self.lacks(step).is_some() {
            return None;
        }
        let asked = self.asked[self.asked.partition_point(|(count, _)| *count < step.need)].1;
        let since = if step.closed { asked.max(self.closed?) } else { asked };
        Some(since.saturating_add(step.pause).saturating_add(step.delay))
    }

    /// The end of the peer, if it has come: also while bytes before it were not taken.
    fn end(&self) -> Option<End> {
        let What::End(end) = self.steps.back()?.what else { return None };
        self.steps.iter().rev().all(|step| self.due(step).is_some_and(|due| due <= self.now)).then_some(end)
    }

    /// Why a read waits in vain, if it does: for the rest of a request, or without a timeout.
    fn in_vain(&self, due: Option<Duration>) -> Option<String> {
        let next = self.steps.front();
        let lacks = next.and_then(|step| self.lacks(step).filter(|_| matches!(step.what, What::Chunk(_))));
        let is_short = self.sent.len() > self.passed || next.is_some_and(|step| self.sent.len() >= step.need);
        match lacks {
            Some(why) if is_short || self.timeout.is_none() => Some(why),
            _ if due.is_some() || self.timeout.is_some() => None,
            _ => Some(next.and_then(|step| self.lacks(step)).unwrap_or_else(|| FOREVER.to_string())),
        }
    }

    /// Moves the clock on to what comes next, if nothing has come.
    fn wait(&mut self) -> io::Result<()> {
        let due = self.steps.front().and_then(|step| self.due(step));
        if due.is_some_and(|due| due <= self.now) {
            return Ok(());
        }
        if let Some(why) = self.in_vain(due) {
            return Err(io::Error::other(why));
        }
        let limit = self.timeout.map_or(Duration::MAX, |timeout| self.now.saturating_add(timeout));
        self.now = limit;
        let due = due.filter(|due| *due <= limit).ok_or(ErrorKind::WouldBlock)?;
        self.now = due.saturating_add(self.late.unwrap_or_default());
        Ok(())
    }

    /// Takes bytes of the first step, if they have come; how many.
    fn take(&mut self, to: &mut [u8]) -> usize {
        let Some(step) = self.steps.front() else { return 0 };
        let What::Chunk(bytes) = &step.what else { return 0 };
        if self.due(step).filter(|due| *due <= self.now).is_none() {
            return 0;
        }
        let rest = &bytes[self.offset..];
        let (len, is_whole) = (rest.len().min(to.len()), rest.len() <= to.len());
        to[..len].copy_from_slice(&rest[..len]);
        self.offset += len;
        if is_whole {
            self.steps.pop_front();
            (self.offset, self.passed) = (0, self.sent.len());
        }
        len
    }

    pub(crate) fn read(&mut self, to: &mut [u8]) -> io::Result<usize> {
        if to.is_empty() {
            return Ok(0);
        }
        if !self.is_shut {
            self.wait()?;
        }
        let mut len = self.take(to);
        while self.late.is_some() && len < to.len() {
            match self.take(&mut to[len..]) {
                0 => break,
                more => len += more,
            }
        }
        if len == 0 && self.has_met != Some(End::Reset) && self.end() == Some(End::Reset) {
            self.has_met = Some(End::Reset);
            return Err(ErrorKind::ConnectionReset.into());
        }
        Ok(len)
    }

    pub(crate) fn write(&mut self, from: &[u8]) -> io::Result<usize> {
        let end = self.end();
        let is_told = self.has_met.is_some();
        if end == Some(End::Reset) || end.is_some() && self.is_cut {
            self.has_met = end;
        }
        match end {
            Some(End::Reset) if !is_told => return Err(ErrorKind::ConnectionReset.into()),
            _ if self.closed.is_some() || is_told => return Err(ErrorKind::BrokenPipe.into()),
            _ => {}
        }
        let place = self.sent.len();
        let recorded = self.recorded.get(place..).unwrap_or_default();
        if self.is_compared && !recorded.starts_with(from) {
            let same = from.iter().zip(recorded).take_while(|(byte, recorded)| byte == recorded).count();
            return Err(io::Error::other(format!("other bytes are sent than the recorded ones, from byte {} on", place + same)));
        }
        self.sent.extend_from_slice(from);
        self.asked.push((self.sent.len(), self.now));
        Ok(from.len())
    }
}

//! What comes to a side of a connection, step by step, and what each step waits for.
use crate::delivered::{Delivered, End, Line, What};
use std::io::{self, ErrorKind};
use std::time::Duration;

/// What comes to a side of a connection, and what it waits for.
#[derive(Clone, Debug, PartialEq, Eq)]
#[non_exhaustive]
pub struct Step {
    /// How many bytes the recorded side had sent before it.
    pub need: usize,
    /// Whether that side had closed before it.
    pub closed: bool,
    /// From the last of these to the recorded answer.
    pub pause: Duration,
    /// What the toxics added.
    pub delay: Duration,
    /// A chunk, or the end.
    pub what: What,
}

const NEVER: Duration = Duration::MAX;
const OTHER: &str = "the recorded connection is another, or has later bytes: it is the same one of the output under the scenario []";

/// What comes to the client of a connection, in order. `recorded` is the same connection under the scenario `[]`.
///
/// A chunk stands for the recorded one that has its last byte, an end for the first byte that no longer comes or for the recorded end. An end that a
/// toxic made earlier than that stands for what was recorded last before it, of either side.
///
/// ```
/// let capture = include_bytes!("../share/toxicap/samples/http-get.pcap");
/// # #[cfg(feature = "native")] {
/// let recorded = toxicap::delivered(&toxicap::rehearse(capture, &["[]"], "", 0)?[0].capture)?;
/// let steps = toxicap::steps(&recorded[0], &recorded[0])?;
/// assert_eq!((steps[0].need, steps[0].delay.as_nanos()), (82, 0)); // the first answer waits for the 82 bytes of the request
/// # }
/// # Ok::<(), std::io::Error>(())
/// ```
///
/// # Errors
///
/// `InvalidInput` if `recorded` is another connection, or has later bytes.
pub fn steps(output: &Delivered, recorded: &Delivered) -> io::Result<Vec<Step>> {
    steps_of(&output.down, &recorded.down, &recorded.up)
}

/// What comes by a line, of which the recorded one is known, to the side that sent `own` in the recording.
pub(crate) fn steps_of(line: &Line, recorded: &Line, own: &Line) -> io::Result<Vec<Step>> {
    let (ends, own_ends) = (ends(recorded), ends(own));
    let recorded_end = recorded.end.map_or(NEVER, |(time, _)| time);
    let answered = |place| ends.get(ends.partition_point(|(_, end)| *end < place)).map_or(recorded_end, |(time, _)| *time);
    let step = |recorded_at: Duration, at: Duration, what| -> io::Result<Step> {
        let (asked, need) = own_ends[..own_ends.partition_point(|(time, _)| *time <= recorded_at)].last().copied().unwrap_or_default();
        let closed = own.end.filter(|(time, end)| *end == End::Fin && *time < recorded_at);
        let pause = recorded_at - closed.map_or(asked, |(time, _)| time);
        let delay = at.checked_sub(recorded_at).ok_or_else(|| io::Error::new(ErrorKind::InvalidInput, OTHER))?;
        Ok(Step { need, closed: closed.is_some(), pause, delay, what })
    };
    let (mut found, mut place) = (Vec::new(), 0);
    for (at, bytes) in &line.chunks {
        place += bytes.len();
        found.push(step(answered(place), *at, What::Chunk(bytes.clone()))?);
    }
    if let Some((at, end)) = line.end {
        let before = || ends.iter().chain(&own_ends).map(|(time, _)| *time).filter(|time| *time <= at).max();
        let recorded_at = Some(answered(place + 1)).filter(|time| *time <= at).or_else(before);
        found.push(step(recorded_at.unwrap_or_default(), at, What::End(end))?);
    }
    if bytes_of(recorded).starts_with(&bytes_of(line)) {
        Ok(found)
    } else {
        Err(io::Error::new(ErrorKind::InvalidInput, OTHER))
    }
}

/// The bytes of a line.
pub(crate) fn bytes_of(line: &Line) -> Vec<u8> {
    line.chunks.iter().map(|(_, bytes)| &bytes[..]).collect::<Vec<_>>().concat()
}

/// The time of each chunk of a line, and the number of bytes up to its end.
fn ends(line: &Line) -> Vec<(Duration, usize)> {
    let mut end = 0;
    let up_to = |(time, bytes): &(Duration, Vec<u8>)| {
        end += bytes.len();
        (*time, end)
    };
    line.chunks.iter().map(up_to).collect()
}

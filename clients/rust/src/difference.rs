//! What differs between a golden file and what came.
use crate::delivered::{End, Line, NotOutput, Shown};
use crate::events::delivered;
use std::fmt::Debug;
use std::time::Duration;

/// The first difference of two output captures, by connection, direction, chunk and time; `None` if they are the same bytes.
///
/// # Errors
///
/// One of them is no output capture.
pub fn difference(expected: &[u8], found: &[u8]) -> Result<Option<String>, NotOutput> {
    let (before, after) = (delivered(expected)?, delivered(found)?);
    for (number, (one, other)) in before.iter().zip(&after).enumerate() {
        for (way, one, other) in [("up", &one.up, &other.up), ("down", &one.down, &other.down)] {
            if one != other {
                return Ok(Some(format!("connection {number}, {way}, {}", of_lines(one, other))));
            }
        }
    }
    if before.len() != after.len() {
        return Ok(Some(format!("it has {} connections, and {} came", before.len(), after.len())));
    }
    let place = expected.iter().zip(found).position(|(one, other)| one != other);
    Ok(place.map(|place| format!("what is delivered is the same, and the bytes differ from byte {place} on")))
}

/// The first chunk, or the end, in which two lines differ.
fn of_lines(expected: &Line, found: &Line) -> String {
    for number in 0..expected.chunks.len().max(found.chunks.len()) {
        let (one, other) = (expected.chunks.get(number), found.chunks.get(number));
        if let (Some((time, one)), Some((at, other))) = (one, other) {
            let place = one.iter().zip(other).position(|(one, other)| one != other);
            if let (true, Some(place)) = (time == at && one.len() == other.len(), place) {
                return format!("chunk {number}, {:?} at {time:?}: others came from byte {place} on", Shown(one));
            }
        }
        if one != other {
            let [one, other] = [one, other].map(|chunk| shown(chunk.map(|(time, bytes)| (*time, Shown(bytes)))));
            return format!("chunk {number}: {one}, and {other} came");
        }
    }
    let [one, other] = [expected.end, found.end].map(shown::<End>);
    format!("the end: {one}, and {other} came")
}

fn shown<T: Debug>(found: Option<(Duration, T)>) -> String {
    found.map_or("none".to_string(), |(time, what)| format!("{what:?} at {time:?}"))
}

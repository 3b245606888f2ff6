//! What each side of a connection received, and when, read from an output capture of toxicap.
//!
//! An output capture has its segments in order, without repeats and gaps, so nothing is reassembled. A capture that toxicap did not write (a
//! recording, pcapng, an output that was cut or put in another order) is refused: the error tells why, and the number of the record, from 0.
//! Checksums are not looked at.
use crate::delivered::{Delivered, Direction, End, Event, NotOutput, What};
use std::collections::HashMap;
use std::time::Duration;

const SYN: u8 = 2;
const ACK: u8 = 16;
const PSH_ACK: u8 = 24;
const FIN_ACK: u8 = 17;
const RST_ACK: u8 = 20;
const SYN_ACK: u8 = 18;
const LONGEST_PIECE: u32 = 1460;
/// What follows the magic number in each output capture.
const FILE_HEADER: [u8; 20] = [2, 0, 4, 0, 0, 0, 0, 0, 0, 0, 0, 0, 255, 255, 0, 0, 1, 0, 0, 0];
const WAYS: [Direction; 2] = [Direction::Up, Direction::Down];

/// VLAN, sender and receiver.
type Pair<'a> = (&'a [u8], [&'a [u8]; 2], [&'a [u8]; 2]);
/// The sides that have not ended (a connection's number, and 0 for the client's), by what their next records have: pair and sequence number.
type Awaited<'a> = HashMap<(Pair<'a>, u32), Vec<(usize, usize)>>;

#[derive(Clone, Copy, PartialEq)]
struct Record<'a> {
    time: u64,
    pair: Pair<'a>,
    seq: u32,
    ack: u32,
    flags: u8,
    payload: &'a [u8],
}

/// A connection while it is read; arrays have the client's before the server's.
#[derive(Default)]
struct Connection<'a> {
    opened: u64,
    pairs: [Pair<'a>; 2],
    next: [u32; 2],
    sent: [u32; 2],
    ended: [bool; 2],
    begun: [Vec<u8>; 2],
    events: Vec<Event>,
}

/// The events of each connection of an output capture, in order of time, connections in the order of the report's lines.
///
/// # Errors
///
/// Why toxicap did not write this capture.
pub fn events(capture: &[u8]) -> Result<Vec<Vec<Event>>, NotOutput> {
    let found = records(capture)?;
    let (mut connections, mut awaited, mut number) = (Vec::new(), HashMap::new(), 0);
    while number < found.len() {
        let record = &found[number];
        if record.flags == SYN && record.payload.is_empty() {
            let (begun, length) = opening(&found[number..]).ok_or_else(|| refusal(number, "no opening follows its SYN"))?;
            for side in [0, 1] {
                begun.wait(&mut awaited, connections.len(), side);
            }
            connections.push(begun);
            number += length;
        } else {
            go_on(&mut connections, &mut awaited, record).map_err(|why| refusal(number, &why))?;
            number += 1;
        }
    }
    if connections.iter().any(|c| c.begun.iter().any(|bytes| !bytes.is_empty())) {
        return Err(refusal(number, "the end is missing"));
    }
    Ok(connections.into_iter().map(|c| c.events).collect())
}

/// The same as two lines for each connection, up and down.
///
/// # Errors
///
/// Those of [`events`].
pub fn delivered(capture: &[u8]) -> Result<Vec<Delivered>, NotOutput> {
    let lines_of = |found: Vec<Event>| {
        let mut lines = Delivered::default();
        for event in found {
            let line = if event.direction == Direction::Up { &mut lines.up } else { &mut lines.down };
            match event.what {
                What::Chunk(bytes) => line.chunks.push((event.time, bytes)),
                What::End(end) => line.end = Some((event.time, end)),
            }
        }
        lines
    };
    Ok(events(capture)?.into_iter().map(lines_of).collect())
}

fn refusal(number: usize, why: &str) -> NotOutput {
    NotOutput { record: Some(number), why: why.to_string() }
}

/// The number at a place, its lowest byte first.
fn little(bytes: &[u8], place: usize) -> u64 {
    u64::from(u32::from_le_bytes(bytes[place..place + 4].try_into().unwrap()))
}

/// The number at a place, its highest byte first.
fn big(bytes: &[u8], place: usize) -> u32 {
    u32::from_be_bytes(bytes[place..place + 4].try_into().unwrap())
}

/// The records of an output capture, each checked alone.
fn records(capture: &[u8]) -> Result<Vec<Record<'_>>, NotOutput> {
    let tick = match capture.get(..4) {
        Some([0xd4, 0xc3, 0xb2, 0xa1]) => 1000,
        Some([0x4d, 0x3c, 0xb2, 0xa1]) => 1,
        _ => 0,
    };
    if tick == 0 || capture.get(4..24) != Some(&FILE_HEADER[..]) {
        return Err(NotOutput { record: None, why: "it has another file header".to_string() });
    }
    let (mut found, mut place) = (Vec::<Record>::new(), 24);
    while place < capture.len() {
        let held = capture.get(place + 8..place + 16).filter(|sizes| sizes[..4] == sizes[4..]);
        let frame = held.and_then(|sizes| capture.get(place + 16..place + 16 + little(sizes, 0) as usize)).unwrap_or(&[]);
        let mut record = read(frame).map_err(|why| refusal(found.len(), why))?;
        let parts = little(capture, place + 4) * tick;
        record.time = little(capture, place) * 1_000_000_000 + parts;
        if parts >= 1_000_000_000 || found.last().is_some_and(|last| record.time < last.time) {
            return Err(refusal(found.len(), "its time is none, or falls back"));
        }
        found.push(record);
        place += 16 + frame.len();
    }
    Ok(found)
}

/// Reads a frame, as a record without its time; or tells why there is none that toxicap wrote.
fn read(frame: &[u8]) -> Result<Record<'_>, &'static str> {
    let link = if frame.get(12..14) == Some(&[0x81, 0]) { 18 } else { 14 };
    if frame.len() < link + 40 {
        return Err("it is cut, or no TCP segment");
    }
    let (ip, tcp) = (&frame[link..], &frame[link + 20..]);
    let total = usize::from(u16::from_be_bytes([ip[2], ip[3]]));
    let fixed = frame[link - 2..link] == [8, 0]
        && ip[..2] == [0x45, 0]
        && ip[4..10] == [0, 0, 0x40, 0, 0x40, 6]
        && (tcp[12], &tcp[14..16], &tcp[18..20]) == (0x50, &[255, 255], &[0, 0]);
    if !fixed || total != ip.len() {
        return Err("its headers are another's");
    }
    Ok(Record {
        time: 0,
        pair: (&frame[12..link - 2], [&ip[12..16], &tcp[..2]], [&ip[16..20], &tcp[2..4]]),
        seq: big(tcp, 4),
        ack: big(tcp, 8),
        flags: tcp[13],
        payload: &tcp[20..],
    })
}

/// The connection that the first record begins, by a SYN, and how many records its opening has; `None` where toxicap writes none such.
fn opening<'a>(found: &[Record<'a>]) -> Option<(Connection<'a>, usize)> {
    let (begin, answer) = (found[0], *found.get(1)?);
    let (vlan, client, server) = begin.pair;
    let first = begin.seq.wrapping_add(1);
    let back = Record { pair: (vlan, server, client), ack: first, ..begin };
    if answer == (Record { seq: 0, flags: RST_ACK, ..back }) {
        let events = WAYS.map(|direction| Event { time: Duration::ZERO, direction, what: What::End(End::Refused) });
        return Some((Connection { ended: [true; 2], events: events.to_vec(), ..Connection::default() }, 2));
    }
    let next = [first, answer.seq.wrapping_add(1)];
    let third = Record { seq: first, ack: next[1], flags: ACK, ..begin };
    let opens = answer == (Record { seq: answer.seq, flags: SYN_ACK, ..back }) && found.get(2) == Some(&third);
    opens.then_some((Connection { opened: begin.time, pairs: [begin.pair, back.pair], next, ..Connection::default() }, 3))
}

/// Finds the side that a record goes on with, and takes it there.
fn go_on<'a>(connections: &mut [Connection<'a>], awaited: &mut Awaited<'a>, record: &Record<'a>) -> Result<(), String> {
    let what = (record.pair, record.seq);
    let sides = awaited.remove(&what).unwrap_or_default();
    let (able, others): (Vec<_>, Vec<_>) = sides.into_iter().partition(|(number, side)| connections[*number].goes_on(*side, record));
    if !others.is_empty() {
        awaited.insert(what, others);
    }
    match able[..] {
        [(number, side)] if connections[number].take(side, record) => {
            connections[number].wait(awaited, number, side);
            Ok(())
        }
        [_] => Err("toxicap writes no such segment".to_string()),
        _ => Err(format!("{} connections go on with it", able.len())),
    }
}

impl<'a> Connection<'a> {
    /// Adds a side of this connection, which has this number, unless it has ended.
    fn wait(&self, awaited: &mut Awaited<'a>, number: usize, side: usize) {
        if !self.ended[side] {
            let what = (self.pairs[side], self.next[side]);
            awaited.entry(what).or_default().push((number, side));
        }
    }

    /// Whether a record as a side awaits it may be of this connection: it acknowledges what was sent.
    fn goes_on(&self, side: usize, record: &Record) -> bool {
        self.next[1 - side].wrapping_sub(record.ack) <= self.sent[1 - side]
    }

    /// Takes a record of this connection; false where toxicap writes none such. The pieces of a chunk are joined up to its PSH.
    fn take(&mut self, side: usize, record: &Record) -> bool {
        let mut length = record.payload.len() as u32;
        let what = match record.flags {
            FIN_ACK | RST_ACK if length == 0 && self.begun[side].is_empty() => {
                (self.ended[side], length) = (true, 1);
                Some(What::End(if record.flags == FIN_ACK { End::Fin } else { End::Reset }))
            }
            PSH_ACK if (1..=LONGEST_PIECE).contains(&length) => {
                self.begun[side].extend(record.payload);
                Some(What::Chunk(std::mem::take(&mut self.begun[side])))
            }
            ACK if length == LONGEST_PIECE => {
                self.begun[side].extend(record.payload);
                None
            }
            _ => return false,
        };
        let time = Duration::from_nanos(record.time - self.opened);
        self.events.extend(what.map(|what| Event { time, direction: WAYS[side], what }));
        self.next[side] = self.next[side].wrapping_add(length);
        self.sent[side] += length;
        true
    }
}

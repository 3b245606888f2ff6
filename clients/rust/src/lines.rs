//! What each side of each connection receives in each scenario, by one call: no capture is made or read.
use crate::delivered::{Delivered, End, Line};
use crate::refusal::Refusal;
use crate::rehearse::{first, inputs, texts, Inputs, NO_ROOM};
use std::time::Duration;

#[repr(C)]
#[derive(Clone, Copy, Default)]
struct Chunk {
    end: u64,
    time: u64,
}

#[repr(C)]
#[derive(Clone, Copy, Default)]
struct Way {
    bytes: u64,
    chunks: u64,
    end_time: u64,
    end: u64,
}

#[repr(C)]
#[derive(Clone, Copy, Default)]
struct Connection {
    opened: u64,
    ways: [Way; 2],
    addresses: [u32; 2],
    ports: [u16; 2],
    vlan: u32,
}

#[repr(C)]
struct Sizes {
    bytes: usize,
    chunks: usize,
    connections: usize,
}

#[link(name = "toxicap", kind = "static")]
#[rustfmt::skip]
extern "C" {
    fn toxicap_lines(
        inputs: *const Inputs, bytes: *mut u8, bytes_room: usize, chunks: *mut Chunk, chunks_room: usize,
        connections: *mut Connection, connections_room: usize, sizes: *mut Sizes,
    ) -> u8;
}

/// Of each scenario the lines of each connection: what [`delivered`](crate::delivered()) reads of the capture of
/// [`rehearse`](crate::rehearse()), in less time and memory.
///
/// # Errors
///
/// Those of [`rehearse`](crate::rehearse()).
#[rustfmt::skip]
pub fn lines(capture: &[u8], scenarios: &[&str], hosts: &str, seed: u64) -> Result<Vec<Vec<Delivered>>, Refusal> {
    let (texts, count) = (texts(scenarios), scenarios.len());
    let inputs = inputs(capture, &texts, hosts, seed);
    // a first guess: a record takes 70 bytes of the capture, and a connection mostly four records
    let size = count * capture.len();
    let mut sizes = Sizes { bytes: size + 1024, chunks: size / 70, connections: size / 280 };
    loop {
        let mut bytes = vec![0; sizes.bytes];
        let mut chunks = vec![Chunk::default(); sizes.chunks];
        let mut connections = vec![Connection::default(); sizes.connections];
        // SAFETY: each pointer goes with its own slice's length, and the outputs are apart from all else.
        let status = unsafe {
            toxicap_lines(
                &inputs, bytes.as_mut_ptr(), bytes.len(), chunks.as_mut_ptr(), chunks.len(),
                connections.as_mut_ptr(), connections.len(), &mut sizes,
            )
        };
        if status == NO_ROOM { continue }
        Refusal::check(status, &bytes[..sizes.bytes])?;
        let (mut bytes, mut chunks) = (&bytes[..], &chunks[..]);
        let mut line = |way: Way| {
            let (mut bytes, mut from) = (first(&mut bytes, way.bytes as usize), 0);
            let mut chunk = |it: &Chunk| (Duration::from_nanos(it.time), first(&mut bytes, (it.end - std::mem::replace(&mut from, it.end)) as usize).to_vec());
            let chunks = first(&mut chunks, way.chunks as usize).iter().map(&mut chunk).collect();
            let end = [None, Some(End::Fin), Some(End::Fin), Some(End::Reset), Some(End::Refused)][way.end as usize];
            Line { chunks, end: end.map(|end| (Duration::from_nanos(way.end_time), end)) }
        };
        let pairs: Vec<_> = connections[..sizes.connections].iter().map(|of| Delivered { up: line(of.ways[0]), down: line(of.ways[1]) }).collect();
        let each = sizes.connections / count.max(1);
        return Ok((0..count).map(|at| pairs[at * each..(at + 1) * each].to_vec()).collect());
    }
}

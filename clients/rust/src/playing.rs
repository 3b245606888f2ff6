//! One client of a player, while it is served.
use crate::delivered::{End, What};
use crate::serving::{Client, Shared, State};
use crate::steps::Step;
use std::io::{ErrorKind, Read, Write};
use std::net::{Shutdown, TcpStream};
use std::os::fd::AsRawFd;
use std::sync::MutexGuard;
use std::time::{Duration, Instant};

const APART: Duration = Duration::from_millis(1); // between chunks that are due twice as far apart, however late the player is
const FLOOD: usize = 1 << 20; // how many bytes more than the recorded one's a client may send

impl Shared {
    /// Does the steps of a client's connection; ends early if the client has gone, or the player ends.
    pub(crate) fn play(&self, number: usize, socket: &TcpStream) -> Option<()> {
        let (mut before, mut wrote) = (None, None::<Instant>);
        for step in &self.player.parts[number].steps {
            let due = self.since(number, step)?.checked_add(self.player.length(step));
            let distance = due.zip(before).map_or(Duration::ZERO, |(due, before)| due.saturating_duration_since(before));
            before = due;
            let apart = if distance >= 2 * APART { self.player.gap.max(APART) } else { self.player.gap };
            match &step.what {
                What::Chunk(bytes) => {
                    self.pause(due.map(|due| wrote.map_or(due, |wrote| due.max(wrote + apart))))?;
                    self.write(number, socket, bytes)?;
                    wrote = Some(Instant::now());
                }
                What::End(end) => {
                    self.pause(due)?;
                    if *end == End::Reset {
                        return reset_at_close(socket);
                    }
                    socket.shutdown(Shutdown::Write).ok()?;
                }
            }
        }
        self.wait_for(number, |client| client.closed.is_some(), |_| "the client did not close".into()).map(drop)
    }

    /// Waits up to an instant, while the limit stands still; `None` if the player ends before.
    fn pause(&self, until: Option<Instant>) -> Option<()> {
        let mut state = self.lock();
        state.timed += 1;
        self.news.notify_all();
        let left = || until.map_or(Duration::MAX, |until| until.saturating_duration_since(Instant::now()));
        while state.waker.is_none() && !left().is_zero() {
            state = self.wait(state, left());
        }
        state.timed -= 1;
        self.news.notify_all();
        state.waker.is_none().then_some(())
    }

    /// Sends a chunk; `None` if the client has gone, or the player ends before the client has taken all of it.
    fn write(&self, number: usize, mut socket: &TcpStream, mut chunk: &[u8]) -> Option<()> {
        let asked = Instant::now();
        while !chunk.is_empty() {
            match socket.write(chunk) {
                Ok(count) => chunk = &chunk[count..],
                Err(fault) if fault.kind() == ErrorKind::Interrupted => {}
                Err(_) => {
                    let mut state = self.lock();
                    let is_ended = state.waker.is_some();
                    state.clients[number].missing =
                        is_ended.then(|| (asked, format!("connection {}: the client left {} bytes", self.player.parts[number].number, chunk.len())));
                    return None;
                }
            }
        }
        Some(())
    }

    /// When the client had done what a step waits for; `None` if it never will, or the player ends before.
    fn since(&self, number: usize, step: &Step) -> Option<Instant> {
        let is_ready = |client: &Client| client.received.len() >= step.need && (!step.closed || client.closed.is_some());
        let missing = |client: &Client| {
            let open = if step.closed { " and did not close" } else { "" };
            format!("the client sent {} of {} bytes{open}", client.received.len(), step.need)
        };
        let state = self.wait_for(number, |client| is_ready(client) || client.closed.is_some(), missing)?;
        let client = Some(&state.clients[number]).filter(|client| is_ready(client))?;
        let heard = client.heard[client.heard.partition_point(|(count, _)| *count < step.need)].1;
        Some(if step.closed { heard.max(client.closed?) } else { heard })
    }

    /// Waits until a client has done something; `None` if the player ends before, and then what was missing is kept.
    fn wait_for(&self, number: usize, is_done: impl Fn(&Client) -> bool, missing: impl Fn(&Client) -> String) -> Option<MutexGuard<'_, State>> {
        let asked = Instant::now();
        let mut state = self.lock();
        while state.waker.is_none() {
            if is_done(&state.clients[number]) {
                return Some(state);
            }
            state = self.wait(state, Duration::MAX);
        }
        let client = &mut state.clients[number];
        client.missing = (!is_done(client)).then(|| (asked, format!("connection {}: {}", self.player.parts[number].number, missing(client))));
        None
    }

    /// Takes what a client sends, until it closes or the player ends.
    pub(crate) fn receive(&self, number: usize, mut socket: &TcpStream) {
        let mut room = vec![0; 65536];
        loop {
            let count = match socket.read(&mut room) {
                Err(fault) if fault.kind() == ErrorKind::Interrupted => continue,
                found => found.unwrap_or(0),
            };
            let mut state = self.lock();
            let (is_ended, client) = (state.waker.is_some(), &mut state.clients[number]);
            let place = client.received.len();
            client.received.extend_from_slice(&room[..count]);
            client.heard.push((client.received.len(), Instant::now()));
            if count == 0 && !is_ended {
                client.closed = Some(Instant::now());
            }
            let fault = self.fault_from(number, place, &client.received);
            self.news.notify_all();
            if let Some(why) = fault {
                state.fault.get_or_insert((ErrorKind::InvalidData, format!("connection {}: {why}", self.player.parts[number].number)));
                drop(state);
                return self.end();
            }
            if count == 0 {
                return;
            }
        }
    }

    /// What is wrong with what a client sent from a place on: other bytes than the recorded one's, or far more.
    fn fault_from(&self, number: usize, place: usize, received: &[u8]) -> Option<String> {
        let recorded = &self.player.parts[number].requests;
        if self.player.is_same && !recorded.starts_with(received) {
            let place = place + received[place..].iter().zip(&recorded[place.min(recorded.len())..]).take_while(|(one, other)| one == other).count();
            let [sent, expected] = [received, recorded].map(|bytes| bytes.get(place..).unwrap_or_default());
            let [sent, expected] = [sent, expected].map(|bytes| bytes[..bytes.len().min(20)].escape_ascii());
            return Some(format!("the client sent \"{sent}\" at byte {place}, and the recorded one \"{expected}\""));
        }
        let more = received.len().saturating_sub(recorded.len());
        (more > FLOOD).then(|| format!("the client sent {more} bytes more than the recorded one"))
    }
}

/// Has the close of a socket reset its connection.
fn reset_at_close(socket: &TcpStream) -> Option<()> {
    #[repr(C)]
    struct Linger {
        is_on: i32,
        seconds: i32,
    }
    extern "C" {
        fn setsockopt(socket: i32, level: i32, option: i32, value: *const Linger, size: u32) -> i32;
    }
    // SAFETY: the value is read only, and has that size; 1 is SOL_SOCKET of Linux, 13 SO_LINGER.
    (unsafe { setsockopt(socket.as_raw_fd(), 1, 13, &Linger { is_on: 1, seconds: 0 }, 8) } == 0).then_some(())
}

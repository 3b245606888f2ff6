//! Sockets over what an output capture delivered, with a clock of their own: a client meets each delay, end and timeout at its time, and nothing waits.
use crate::delivered::{Delivered, Line};
use crate::exchange::Exchange;
use std::fmt;
use std::io::{self, ErrorKind, Read, Write};
use std::net::Shutdown;
use std::sync::{Arc, Mutex, MutexGuard};
use std::time::Duration;

/// One end of a connection of an output capture, in place of a `TcpStream`.
///
/// A read gives bytes of one chunk, so that borders are met ([`joined`](Socket::joined) is the other way). If none has come by the time of its clock,
/// which begins at 0 at the opening, the clock moves on to the next one. A FIN reads as no bytes, a reset as `ConnectionReset`, once. A read that
/// times out moves the clock on by its timeout, and is `WouldBlock`, as of a `TcpStream` on Linux. Writes take no time, and fail after a reset; so does
/// the second one after a toxic's close.
///
/// What comes waits until this end has sent as many bytes as the recorded one had before it, and has shut down its side if that one had. It comes as
/// long after them as in the output. A read after a part of a request is an error at once, also in another thread; its kind is `Other`, which no fault
/// of a network has. So is a read without a timeout that would wait forever. After a longer request than the recorded one an answer may come early.
pub struct Socket {
    state: Arc<Mutex<Exchange>>,
}

impl Socket {
    /// The client's end of a connection, one of those of [`delivered`](crate::delivered()). `recorded` is the same connection under the scenario `[]`.
    ///
    /// # Errors
    ///
    /// `ConnectionRefused` if its proxy was disabled; `InvalidInput` if `recorded` is another connection, or has later bytes.
    pub fn client(output: &Delivered, recorded: &Delivered) -> io::Result<Socket> {
        Socket::open(&output.down, &recorded.down, &recorded.up, is_cut(output))
    }

    /// The server's end: it receives `up`, and its answers are what requests wait for.
    ///
    /// # Errors
    ///
    /// Those of [`client`](Socket::client).
    pub fn server(output: &Delivered, recorded: &Delivered) -> io::Result<Socket> {
        Socket::open(&output.up, &recorded.up, &recorded.down, is_cut(output))
    }

    /// An end to which a line comes at its times, whatever is sent: for parsers.
    ///
    /// # Errors
    ///
    /// `ConnectionRefused` if its proxy was disabled.
    pub fn reader(line: &Line) -> io::Result<Socket> {
        Socket::open(line, line, &Line::default(), false)
    }

    fn open(line: &Line, recorded: &Line, own: &Line, is_cut: bool) -> io::Result<Socket> {
        Ok(Socket { state: Arc::new(Mutex::new(Exchange::open(line, recorded, own, is_cut)?)) })
    }

    /// Has reads join chunks, as a kernel often does: a read that has waited is late by this time, and each read gives all that has come by then.
    pub fn joined(self, late: Duration) -> Socket {
        self.lock().late = Some(late);
        self
    }

    /// Has writes of other bytes than the recorded side's fail.
    pub fn same_requests(self) -> Socket {
        self.lock().is_compared = true;
        self
    }

    /// The time of its clock.
    pub fn now(&self) -> Duration {
        self.lock().now
    }

    /// Moves the clock on, such as by the time that a client takes for its work.
    pub fn advance(&self, time: Duration) {
        let mut state = self.lock();
        state.now = state.now.saturating_add(time);
    }

    /// What was written.
    pub fn sent(&self) -> Vec<u8> {
        self.lock().sent.clone()
    }

    /// Another handle of this end, as of a `TcpStream`: it never fails.
    pub fn try_clone(&self) -> io::Result<Socket> {
        Ok(Socket { state: Arc::clone(&self.state) })
    }

    /// Ends reading, writing or both: reads give what has come, then no bytes, and writes are `BrokenPipe`. It never fails.
    pub fn shutdown(&self, how: Shutdown) -> io::Result<()> {
        self.lock().shut(how != Shutdown::Write, how != Shutdown::Read);
        Ok(())
    }

    /// Sets how long a read waits at most, by the clock; `None` for no limit.
    ///
    /// # Errors
    ///
    /// `InvalidInput` for no time at all, as of a `TcpStream`.
    pub fn set_read_timeout(&self, timeout: Option<Duration>) -> io::Result<()> {
        self.set_write_timeout(timeout)?;
        self.lock().timeout = timeout;
        Ok(())
    }

    /// Sets how long a write waits at most; none waits.
    ///
    /// # Errors
    ///
    /// `InvalidInput` for no time at all, as of a `TcpStream`.
    pub fn set_write_timeout(&self, timeout: Option<Duration>) -> io::Result<()> {
        if timeout == Some(Duration::ZERO) {
            return Err(ErrorKind::InvalidInput.into());
        }
        Ok(())
    }

    fn lock(&self) -> MutexGuard<'_, Exchange> {
        self.state.lock().expect("no thread has failed in a call of this socket")
    }
}

/// Whether a toxic ended both directions of a connection.
fn is_cut(output: &Delivered) -> bool {
    output.up.end.is_some() && output.up.end == output.down.end
}

impl fmt::Debug for Socket {
    fn fmt(&self, to: &mut fmt::Formatter) -> fmt::Result {
        let state = self.lock();
        write!(to, "Socket at {:?}, after {} bytes were sent", state.now, state.sent.len())
    }
}

impl Read for Socket {
    fn read(&mut self, to: &mut [u8]) -> io::Result<usize> {
        self.lock().read(to)
    }
}

impl Write for Socket {
    fn write(&mut self, from: &[u8]) -> io::Result<usize> {
        self.lock().write(from)
    }

    fn flush(&mut self) -> io::Result<()> {
        Ok(())
    }
}

//! What a player does with its clients, by threads.
use crate::player::Player;
use crate::steps::Step;
use std::fmt;
use std::io::{self, ErrorKind};
use std::net::{Ipv4Addr, Shutdown, SocketAddr, TcpListener, TcpStream};
use std::sync::{Arc, Condvar, Mutex, MutexGuard, PoisonError, Weak};
use std::thread::{self, JoinHandle};
use std::time::{Duration, Instant};

/// A connection that is played.
#[derive(Clone)]
pub(crate) struct Part {
    pub(crate) number: usize,
    pub(crate) steps: Vec<Step>,
    pub(crate) requests: Vec<u8>,
}

/// A [`Player`] that serves. When it is dropped it ends all connections.
#[must_use]
pub struct Serving {
    address: SocketAddr,
    shared: Arc<Shared>,
    host: Option<JoinHandle<()>>,
    _held: Option<(TcpListener, TcpStream)>,
}

/// What the threads of a player share.
pub(crate) struct Shared {
    pub(crate) player: Player,
    port: u16,
    state: Mutex<State>,
    pub(crate) news: Condvar,
}

pub(crate) struct State {
    pub(crate) clients: Vec<Client>,
    pub(crate) timed: usize, // how many steps wait for their time
    has_run_out: bool,
    pub(crate) waker: Option<SocketAddr>, // the player has ended, and this is its own last client
    pub(crate) fault: Option<(ErrorKind, String)>,
}

pub(crate) struct Client {
    socket: Weak<TcpStream>, // while it is served
    pub(crate) received: Vec<u8>,
    pub(crate) heard: Vec<(usize, Instant)>, // how many bytes there were, and when
    pub(crate) closed: Option<Instant>,
    pub(crate) missing: Option<(Instant, String)>, // what was waited for when the player ended, and since when
}

impl Serving {
    pub(crate) fn begin(is_refused: bool, player: Player) -> io::Result<Serving> {
        let listener = TcpListener::bind((Ipv4Addr::LOCALHOST, 0))?;
        let held = is_refused.then(|| TcpStream::connect(listener.local_addr()?)).transpose()?; // whose own port nobody listens at
        let address = held.as_ref().map_or_else(|| listener.local_addr(), TcpStream::local_addr)?;
        let state = State { clients: Vec::new(), timed: 0, has_run_out: false, waker: None, fault: None };
        let shared = Arc::new(Shared { player, port: address.port(), state: Mutex::new(state), news: Condvar::new() });
        if held.is_some() {
            return Ok(Serving { address, shared, host: None, _held: Some(listener).zip(held) });
        }
        let serving = Arc::clone(&shared);
        Ok(Serving { address, shared, host: Some(thread::spawn(move || serving.serve(listener))), _held: None })
    }

    /// Where it serves.
    pub fn address(&self) -> SocketAddr {
        self.address
    }

    /// Ends all connections, wherever they are, and gives what each client has sent.
    ///
    /// # Errors
    ///
    /// `TimedOut` with what was missing when the limit had run out, or if no client came; `InvalidData` for other requests than the recorded ones.
    pub fn close(mut self) -> io::Result<Vec<Vec<u8>>> {
        self.shared.end();
        self.result()
    }

    /// The same after all connections have ended by themselves. If clients are refused it is the same at once.
    ///
    /// # Errors
    ///
    /// Those of [`close`](Serving::close).
    pub fn wait(mut self) -> io::Result<Vec<Vec<u8>>> {
        self.result()
    }

    fn result(&mut self) -> io::Result<Vec<Vec<u8>>> {
        let is_refused = self.host.is_none();
        if let Some(host) = self.host.take() {
            host.join().map_err(|_| io::Error::other("the player failed"))?;
        }
        let mut state = self.shared.lock();
        let came = state.clients.len();
        let fault = state.fault.take().or_else(|| (came == 0 && !is_refused).then(|| (ErrorKind::TimedOut, "no client came".into())));
        match fault {
            Some((kind, why)) => Err(io::Error::new(kind, format!("player: port {}: {why}", self.shared.port))),
            None => Ok(state.clients.iter_mut().map(|client| std::mem::take(&mut client.received)).collect()),
        }
    }
}

impl fmt::Debug for Serving {
    fn fmt(&self, to: &mut fmt::Formatter) -> fmt::Result {
        write!(to, "{:?} at {}", self.shared.player, self.address)
    }
}

impl Drop for Serving {
    fn drop(&mut self) {
        if let Some(host) = self.host.take() {
            self.shared.end();
            let _ = host.join();
        }
    }
}

impl Shared {
    pub(crate) fn lock(&self) -> MutexGuard<'_, State> {
        self.state.lock().unwrap_or_else(PoisonError::into_inner)
    }

    /// Waits for news, or that long.
    pub(crate) fn wait<'a>(&self, state: MutexGuard<'a, State>, most: Duration) -> MutexGuard<'a, State> {
        self.news.wait_timeout(state, most).unwrap_or_else(PoisonError::into_inner).0
    }

    /// Ends all connections. What has come before is still taken.
    pub(crate) fn end(&self) {
        let mut state = self.lock();
        if state.waker.is_none() {
            let address = SocketAddr::from((Ipv4Addr::LOCALHOST, self.port));
            let is_full = state.clients.len() == self.player.parts.len();
            let waker = if is_full { Ok(address) } else { TcpStream::connect(address).and_then(|waker| waker.local_addr()) };
            state.waker = Some(waker.unwrap_or(address));
            state.clients.iter().for_each(Client::stop);
            self.news.notify_all();
        }
    }

    /// Serves each client that comes, up to the last, and keeps what was missing when the limit had run out.
    fn serve(self: Arc<Shared>, listener: TcpListener) {
        let shared = Arc::clone(&self);
        let watch = thread::spawn(move || shared.watch());
        let mut threads = Vec::new();
        for number in 0..self.player.parts.len() {
            match listener.accept() {
                Ok((_, from)) if self.lock().waker == Some(from) => break,
                Ok((socket, _)) => threads.push(self.welcome(number, socket)),
                Err(fault) => {
                    self.lock().fault.get_or_insert((fault.kind(), fault.to_string()));
                    break;
                }
            }
        }
        drop(listener);
        threads.into_iter().for_each(|thread| drop(thread.join()));
        self.end();
        let _ = watch.join();
        let mut state = self.lock();
        let (came, all) = (state.clients.len(), self.player.parts.len());
        let first = state.clients.iter().filter_map(|client| client.missing.clone()).min();
        let missing = match first {
            Some((_, missing)) => missing,
            None if came == 0 => "no client came".into(),
            None if came < all => format!("{came} of {all} clients came"),
            None => return,
        };
        if state.has_run_out {
            state.fault.get_or_insert((ErrorKind::TimedOut, format!("{missing} (limit {:?})", self.player.limit)));
        }
    }

    /// Ends the player if the limit has run out.
    fn watch(&self) {
        let (mut state, mut left) = (self.lock(), self.player.limit);
        while state.waker.is_none() {
            let (begun, runs) = (Instant::now(), state.timed == 0);
            if runs && left.is_zero() {
                state.has_run_out = true;
                drop(state);
                return self.end();
            }
            state = self.wait(state, if runs { left } else { Duration::MAX });
            left = left.saturating_sub(if runs { begun.elapsed() } else { Duration::ZERO });
        }
    }

    /// Takes a client that has come, and serves it by two threads.
    fn welcome(self: &Arc<Shared>, number: usize, socket: TcpStream) -> JoinHandle<()> {
        let _ = socket.set_nodelay(true);
        let (socket, heard) = (Arc::new(socket), vec![(0, Instant::now())]);
        let client = Client { socket: Arc::downgrade(&socket), received: Vec::new(), heard, closed: None, missing: None };
        let mut state = self.lock();
        if state.waker.is_some() {
            client.stop();
        }
        state.clients.push(client);
        let shared = Arc::clone(self);
        thread::spawn(move || {
            thread::scope(|scope| {
                scope.spawn(|| shared.receive(number, &socket));
                shared.play(number, &socket);
                let _ = socket.shutdown(Shutdown::Read);
            });
        })
    }
}

impl Client {
    /// Has threads that wait for the client come to their end.
    fn stop(&self) {
        if let Some(socket) = self.socket.upgrade() {
            let _ = socket.shutdown(Shutdown::Both);
        }
    }
}

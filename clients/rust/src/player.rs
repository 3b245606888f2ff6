//! A server for real clients: it plays connections of an output capture in real time.
use crate::delivered::{Delivered, End, What};
use crate::serving::{Part, Serving};
use crate::steps::{bytes_of, steps, Step};
use std::fmt;
use std::io::{self, ErrorKind};
use std::time::Duration;

/// Serves the server's side of connections to clients on 127.0.0.1, chunk by chunk, and ends each as the output does: by a FIN, by a reset, or not at
/// all. Each client that comes gets the next connection; after the last one others are refused, and so is each if the proxy was disabled.
///
/// An answer waits until the client has sent as many bytes as the recorded one had before it (and has closed, if that one had). From then on it takes as
/// long as in the output. A client that closes before that gets no further answer. Record the client that is tested: after longer requests an answer may
/// come early. Chunks that are due 2 ms apart stay 1 ms apart if the machine is late; a client that reads late may miss bytes before a reset.
///
/// For [`limit`](Player::limit) in all the player waits for clients: to come, to send enough, to take bytes, to close after the last step. Time in which
/// an answer is under way does not count. Then it ends, with a `TimedOut` that tells what was missing: so a client that hangs is found, if the limit is
/// below its own timeout. A client that sends 1 MiB more than the recorded one ends the player with `InvalidData`.
///
/// ```
/// use std::io::{Read, Write};
/// use std::net::TcpStream;
/// use toxicap::{delivered, Player};
///
/// # #[cfg(feature = "native")] {
/// let capture = include_bytes!("../share/toxicap/samples/http-get.pcap");
/// let limit = r#"[{"name": "web", "upstream": "10.77.0.2:80", "toxics": [{"type": "limit_data", "attributes": {"bytes": 200}}]}]"#;
/// let outputs = toxicap::rehearse(capture, &[limit, "[]"], "", 0)?;
/// let player = Player::new(&delivered(&outputs[0].capture)?, &delivered(&outputs[1].capture)?)?.serve()?;
/// let mut client = TcpStream::connect(player.address())?;
/// client.write_all(&[b'x'; 82])?; // or by the client that is tested
/// assert_eq!(client.read_to_end(&mut Vec::new())?, 200);
/// drop(client);
/// assert_eq!(player.close()?, [[b'x'; 82]]);
/// # }
/// # Ok::<(), std::io::Error>(())
/// ```
#[derive(Clone)]
pub struct Player {
    all: Vec<Part>,
    pub(crate) parts: Vec<Part>, // what clients get, in order
    pub(crate) factor: f64,
    pub(crate) has_pauses: bool,
    pub(crate) limit: Duration,
    pub(crate) gap: Duration,
    pub(crate) is_same: bool,
}

impl Player {
    /// A player of all connections. Both lists are those of [`delivered`](crate::delivered()) of one recording, the second one under the scenario `[]`.
    ///
    /// # Errors
    ///
    /// `InvalidInput` if they are of other recordings, or in the other order.
    pub fn new(output: &[Delivered], recorded: &[Delivered]) -> io::Result<Player> {
        if output.len() != recorded.len() {
            return Err(invalid(format!("the outputs are not of one capture (connections: {} and {})", output.len(), recorded.len())));
        }
        let part = |(number, (output, recorded)): (usize, (&Delivered, &Delivered))| {
            Ok(Part { number, steps: steps(output, recorded)?, requests: bytes_of(&recorded.up) })
        };
        let all: Vec<Part> = output.iter().zip(recorded).enumerate().map(part).collect::<io::Result<_>>()?;
        let limit = Duration::from_secs(10);
        Ok(Player { parts: all.clone(), all, factor: 1.0, has_pauses: true, limit, gap: Duration::ZERO, is_same: false })
    }

    /// Has clients get only these connections, in this order, by their numbers in the report.
    ///
    /// # Errors
    ///
    /// `InvalidInput` if there is none of a number.
    pub fn connections(mut self, numbers: impl IntoIterator<Item = usize>) -> io::Result<Player> {
        let there = self.all.len();
        let part =
            |number| self.all.get(number).cloned().ok_or_else(|| invalid(format!("there is no connection {number}: there are {there}, from 0 on")));
        self.parts = numbers.into_iter().map(part).collect::<io::Result<_>>()?;
        Ok(self)
    }

    /// Multiplies all times; by 0 answers come at once.
    pub fn factor(mut self, factor: f64) -> Player {
        self.factor = factor;
        self
    }

    /// Leaves out the recorded server's own pauses, so that only the toxics delay.
    pub fn without_pauses(mut self) -> Player {
        self.has_pauses = false;
        self
    }

    /// Waits that long for clients, in all; 10 seconds without it.
    pub fn limit(mut self, limit: Duration) -> Player {
        self.limit = limit;
        self
    }

    /// Keeps chunks of a connection at least that far apart.
    pub fn gap(mut self, gap: Duration) -> Player {
        self.gap = gap;
        self
    }

    /// Ends with `InvalidData` if a client sends other bytes than the recorded one; it may stop early.
    pub fn same_requests(mut self) -> Player {
        self.is_same = true;
        self
    }

    /// Opens a port, and serves by threads of its own.
    ///
    /// # Errors
    ///
    /// `InvalidInput` if there is no connection, or if some are refused and others are not; what the system says of the port.
    pub fn serve(self) -> io::Result<Serving> {
        let of = |refused| self.parts.iter().find(|part| part.is_refused() == refused);
        match (of(true), of(false)) {
            (None, None) => Err(invalid("there is no connection".into())),
            (Some(refused), Some(other)) => Err(invalid(format!(
                "connection {} is refused and connection {} is not: one port cannot do both, name the connections of one server",
                refused.number, other.number
            ))),
            (refused, _) => Serving::begin(refused.is_some(), self),
        }
    }

    /// How long a step takes once the client has done what it waits for.
    pub(crate) fn length(&self, step: &Step) -> Duration {
        let length = if self.has_pauses { step.pause + step.delay } else { step.delay };
        Duration::try_from_secs_f64(length.as_secs_f64() * self.factor).unwrap_or(Duration::MAX)
    }
}

impl fmt::Debug for Player {
    fn fmt(&self, to: &mut fmt::Formatter) -> fmt::Result {
        write!(to, "Player of connections {:?}", self.parts.iter().map(|part| part.number).collect::<Vec<_>>())
    }
}

impl Part {
    fn is_refused(&self) -> bool {
        matches!(&self.steps[..], [Step { what: What::End(End::Refused), .. }])
    }
}

fn invalid(why: String) -> io::Error {
    io::Error::new(ErrorKind::InvalidInput, why)
}

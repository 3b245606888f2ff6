//! Reports as data.
use crate::delivered::End;
use std::collections::BTreeMap;
use std::net::SocketAddrV4;
use std::time::Duration;

/// What a report says.
#[derive(Clone, Debug, PartialEq, Eq)]
#[non_exhaustive]
pub struct Report {
    /// The numbers of its first two lines by their names, such as `scenario`, `records` and `unopened`.
    pub counts: BTreeMap<String, u64>,
    /// Its connections, in order of their numbers.
    pub connections: Vec<Connection>,
}

/// What a report says of a connection.
#[derive(Clone, Debug, PartialEq, Eq)]
#[non_exhaustive]
pub struct Connection {
    /// The side that opened it.
    pub client: SocketAddrV4,
    /// The other side.
    pub server: SocketAddrV4,
    /// The number of its VLAN.
    pub vlan: Option<u16>,
    /// The number of the scenario's proxy that it meets, from 0.
    pub proxy: Option<usize>,
    /// What the client sent.
    pub up: Flow,
    /// What the server sent.
    pub down: Flow,
}

/// What a report says of a direction.
#[derive(Clone, Debug, PartialEq, Eq)]
#[non_exhaustive]
pub struct Flow {
    /// How many bytes came to the other side.
    pub delivered: u64,
    /// How many bytes the recording has before the first gap or FIN.
    pub recorded: u64,
    /// How many bytes stand after a gap or a FIN, and are not delivered.
    pub lost: u64,
    /// How it ends; `None` if it stays open.
    pub end: Option<End>,
    /// When it ends, since the opening; `None` if it stays open, or is refused.
    pub at: Option<Duration>,
    /// The longest time that a delivered byte was held back.
    pub max: Duration,
}

impl Report {
    /// What the text of a report says; `None` if it is none, or torn. `tick` is the unit of the times in it, that of the capture: a microsecond or a
    /// nanosecond.
    pub fn parse(text: &str, tick: Duration) -> Option<Report> {
        let mut report = Report { counts: BTreeMap::new(), connections: Vec::new() };
        for (number, line) in text.lines().enumerate() {
            report.take(number, line, tick.as_nanos() as u64)?;
        }
        let count = report.connections.len() as u64;
        (text.ends_with('\n') && report.counts.get("connections") == Some(&count)).then_some(report)
    }

    fn take(&mut self, number: usize, line: &str, tick: u64) -> Option<()> {
        let mut words = line.split(' ');
        if number < 2 {
            while let Some(name) = words.next() {
                self.counts.insert(name.to_string(), words.next()?.parse().ok()?);
            }
            return line.starts_with(["scenario ", "connections "][number]).then_some(());
        }
        let (_, client, _, server) = (words.next()?, words.next()?.parse().ok()?, words.next()?, words.next()?.parse().ok()?);
        let (mut name, mut vlan) = (words.next()?, None);
        if name == "vlan" {
            (vlan, name) = (Some(words.next()?.parse().ok()?), words.next()?);
        }
        let proxy = words.next().filter(|_| name == "proxy")?;
        let proxy = if proxy == "-" { None } else { Some(proxy.parse().ok()?) };
        let mut flow = |name| flow_of([words.next().filter(|word| *word == name)?, words.next()?, words.next()?, words.next()?, words.next()?], tick);
        self.connections.push(Connection { client, server, vlan, proxy, up: flow("up")?, down: flow("down")? });
        Some(())
    }
}

/// A direction in words, such as `down 216/216/0 fin+3756 max 0`.
fn flow_of([_, bytes, end, _, max]: [&str; 5], tick: u64) -> Option<Flow> {
    let mut bytes = bytes.split('/').map(|number| number.parse().ok());
    let time = |digits: &str| Some(Duration::from_nanos(digits.parse::<u64>().ok()?.checked_mul(tick)?));
    let (end, at) = end.split_once('+').map_or((end, None), |(end, at)| (end, Some(at)));
    let end = match end {
        "open" => None,
        "fin" => Some(End::Fin),
        "close" => Some(End::Close),
        "reset" => Some(End::Reset),
        "refused" => Some(End::Refused),
        _ => return None,
    };
    let at = at.map_or(Some(None), |at| time(at).map(Some))?;
    Some(Flow { delivered: bytes.next()??, recorded: bytes.next()??, lost: bytes.next()??, end, at, max: time(max)? })
}

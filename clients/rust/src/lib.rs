//! Network faults rehearsed on recorded TCP sessions, in this process: no socket, no file, and equal arguments give equal bytes.
//!
//! An answer that is cut after 200 bytes, and a scenario whose host nobody names:
//!
//! ```
//! use std::time::Duration;
//! use toxicap::{delivered, rehearse, reports, End, Kind};
//!
//! let capture = include_bytes!("../share/toxicap/samples/http-get.pcap");
//! let limit = r#"[{"name": "web", "upstream": "10.77.0.2:80", "toxics": [{"type": "limit_data", "attributes": {"bytes": 200}}]}]"#;
//! let outputs = rehearse(capture, &[limit], "", 7)?;
//! let down = &delivered(&outputs[0].capture)?[0].down;
//! assert_eq!(down.chunks.iter().map(|(_, bytes)| bytes.len()).sum::<usize>(), 200);
//! assert!(matches!(down.end, Some((_, End::Fin))));
//! let report = outputs[0].parsed().unwrap();
//! assert_eq!((report.connections[0].down.delivered, report.connections[0].down.end), (200, Some(End::Close)));
//!
//! let refusal = reports(capture, &[&limit.replace("10.77.0.2", "redis")], "", 7).unwrap_err();
//! assert_eq!((refusal.kind, refusal.kind as u32, &*refusal.place), (Kind::UnknownHost, 15, "scenario 0 proxy 0"));
//! assert_eq!(refusal.line(), "refused 15 UnknownHost scenario 0 proxy 0");
//! let hint = "scenario 0, proxy 0 \"web\": names are not looked up: give the address that the capture has by redis=ADDR among the hosts";
//! assert_eq!(refusal.to_string(), format!("{}: {hint}", refusal.line()));
//! # Ok::<(), Box<dyn std::error::Error>>(())
//! ```
//!
//! What a client reads: recorded, a first read gives all headers of the answer, and in slices a part of them. So a client that takes one read for
//! the headers passes with the one and fails with the other. The scenario `[]` has no proxies: the session is as recorded. A [`Socket`] stands for
//! the client's `TcpStream`: each byte and end comes at its time, by a clock of its own, and nothing waits.
//!
//! ```
//! use std::io::{BufRead, BufReader, Read};
//! use toxicap::{delivered, rehearse, Socket};
//!
//! let capture = include_bytes!("../share/toxicap/samples/http-get.pcap");
//! let slicer = r#"[{"name": "web", "upstream": "10.77.0.2:80", "toxics": [{"type": "slicer", "attributes": {"average_size": 50, "delay": 1000}}]}]"#;
//! let mut reads = Vec::new();
//! for output in rehearse(capture, &["[]", slicer], "", 0)? {
//!     let answer = delivered(&output.capture)?.remove(0).down;
//!     reads.push(Socket::reader(&answer)?.read(&mut [0; 65536])?);
//!     let last = BufReader::new(Socket::reader(&answer)?).lines().last().unwrap()?;
//!     assert_eq!(last, "Hello from the sample server.");
//! }
//! assert_eq!(reads, [186, 50]);
//! # Ok::<(), std::io::Error>(())
//! ```
//!
//! A proxy that no connection meets does nothing, and neither does a misspelt field: look at `proxy` and `max` of the parsed report.
//! A `Search` finds the least seed and the smallest scenario under which a test fails, and a `Player` serves an output to real clients.
//!
//! Pages, scenarios and samples are in `share/toxicap` of the crate's folder, first `README.md`; copy a capture to your own tests, and name it there.
//! The static library is in the crate, for Linux on x86-64-v2. Without the feature `native` the crate only reads outputs, on any system.
#![deny(missing_docs)]

mod delivered;
mod difference;
#[cfg(feature = "native")]
mod effects;
mod events;
mod exchange;
#[cfg(feature = "native")]
mod json;
#[cfg(feature = "native")]
mod lines;
#[cfg(target_os = "linux")]
mod player;
#[cfg(target_os = "linux")]
mod playing;
#[cfg(feature = "native")]
mod refusal;
#[cfg(feature = "native")]
mod rehearse;
mod report;
#[cfg(feature = "native")]
mod search;
#[cfg(target_os = "linux")]
mod serving;
#[cfg(feature = "native")]
mod shrink;
mod sockets;
mod steps;

pub use delivered::{Delivered, Direction, End, Event, Line, NotOutput, What};
pub use difference::difference;
#[cfg(feature = "native")]
pub use effects::effects;
pub use events::{delivered, events};
#[cfg(feature = "native")]
pub use lines::lines;
#[cfg(target_os = "linux")]
pub use player::Player;
#[cfg(feature = "native")]
pub use refusal::{Kind, Refusal};
#[cfg(feature = "native")]
pub use rehearse::{rehearse, reports, Output};
pub use report::{Connection, Flow, Report};
#[cfg(feature = "native")]
pub use search::{Found, Search, SearchError, Verdict};
#[cfg(target_os = "linux")]
pub use serving::Serving;
pub use sockets::Socket;
pub use steps::{steps, Step};

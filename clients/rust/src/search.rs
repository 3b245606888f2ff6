//! Searches over rehearsals: the least seed, and the smallest scenario, for which a function says that its outputs are looked for.
use crate::json::Value;
use crate::refusal::Refusal;
use crate::rehearse::{rehearse, reports, Output};
use crate::report::Report;
use std::fmt::{self, Display};
use std::ops::{ControlFlow, Range};
use std::panic::{catch_unwind, AssertUnwindSafe};
use std::sync::{Mutex, PoisonError};
use std::time::Duration;
use std::{error, thread};

/// What a function says of outputs: `true` or an error if they are looked for, so that a test may use `?` in it.
pub trait Verdict {
    /// Why they are looked for; `None` if they are not.
    fn why(self) -> Option<String>;
}

impl Verdict for bool {
    fn why(self) -> Option<String> {
        self.then(String::new)
    }
}

impl<T, E: Display> Verdict for Result<T, E> {
    fn why(self) -> Option<String> {
        self.err().map(|error| error.to_string())
    }
}

/// What a search found.
#[derive(Clone, Debug, PartialEq, Eq)]
#[non_exhaustive]
pub struct Found {
    /// The least seed.
    pub seed: u64,
    /// The scenarios, the smallest one of [`shrink`](Search::shrink).
    pub scenarios: Vec<String>,
    /// The function's error, or the text of its panic.
    pub why: String,
}

/// Why a search has no answer.
#[derive(Clone, Debug, PartialEq, Eq)]
#[non_exhaustive]
pub enum SearchError {
    /// The library refuses an input.
    Refused(Refusal),
    /// The function panicked; [`panics`](Search::panics) has that count as found.
    Panicked(Found),
    /// A proxy (its scenario, its number) that no connection meets: it does nothing; [`loose`](Search::loose) takes such scenarios.
    Unmet(usize, usize),
    /// There is nothing to shrink: the scenario does not fail under these seeds.
    Passes,
    /// There is nothing to shrink: the scenario `[]`, without toxics, fails too.
    FailsUntouched,
    /// The function of [`progress`](Search::progress) ended it; what was found by then.
    Ended(Option<Found>),
}

impl Display for SearchError {
    fn fmt(&self, to: &mut fmt::Formatter) -> fmt::Result {
        match self {
            SearchError::Refused(refusal) => refusal.fmt(to),
            SearchError::Panicked(found) => write!(to, "the function panicked under the seed {}: {}", found.seed, found.why),
            SearchError::Unmet(scenario, proxy) => {
                write!(to, "scenario {scenario} proxy {proxy}: no connection meets it; loose() takes such scenarios")
            }
            SearchError::Passes => to.write_str("the scenario does not fail under these seeds: there is nothing to shrink"),
            SearchError::FailsUntouched => to.write_str("the scenario [], without toxics, fails too: there is nothing to shrink"),
            SearchError::Ended(_) => to.write_str("the search was ended"),
        }
    }
}

impl error::Error for SearchError {}

impl From<Refusal> for SearchError {
    fn from(refusal: Refusal) -> SearchError {
        SearchError::Refused(refusal)
    }
}

pub(crate) type Searched = Result<Option<Found>, SearchError>;

/// Searches over rehearsals of a capture, under the seeds from 0 to 31 and by one thread, if nothing else is said.
///
/// ```
/// use toxicap::Search;
///
/// let capture = include_bytes!("../share/toxicap/samples/http-get.pcap");
/// let scenario = r#"[{"name": "web", "upstream": "10.77.0.2:80", "toxics": [
///     {"type": "limit_data", "toxicity_ppm": 1000, "attributes": {"bytes": 50}}]}]"#;
/// let search = Search::new(capture).seeds(0..1000).workers(4);
/// let cut = |outputs: &[toxicap::Output]| outputs[0].report.contains("/216/0 close");
/// let found = search.least_seed(&[scenario], cut)?.unwrap();
/// assert_eq!(found.seed, 565);
/// let smallest = search.shrink(scenario, cut)?;
/// let expected = r#"[{"name": "web", "upstream": "10.77.0.2:80", "toxics": [{"type": "limit_data", "attributes": {"bytes": 0}}]}]"#;
/// assert_eq!((smallest.seed, &*smallest.scenarios[0]), (0, expected));
/// # Ok::<(), toxicap::SearchError>(())
/// ```
pub struct Search<'a> {
    pub(crate) capture: &'a [u8],
    pub(crate) hosts: &'a str,
    pub(crate) seeds: Range<u64>,
    workers: usize,
    has_panics: bool,
    is_loose: bool,
    progress: Box<dyn Fn(u64) -> ControlFlow<()> + Sync + 'a>,
    tries: Mutex<u64>,
}

/// What threads share that look for the least seed.
struct Claims {
    next: u64,
    below: u64,
    result: Searched,
}

impl<'a> Search<'a> {
    /// Searches over a capture, as of [`rehearse`](crate::rehearse()).
    pub fn new(capture: &'a [u8]) -> Search<'a> {
        let progress = Box::new(|_| ControlFlow::Continue(()));
        Search { capture, hosts: "", seeds: 0..32, workers: 1, has_panics: false, is_loose: false, progress, tries: Mutex::new(0) }
    }

    /// Gives names their addresses, as for [`rehearse`](crate::rehearse()).
    pub fn hosts(mut self, hosts: &'a str) -> Search<'a> {
        self.hosts = hosts;
        self
    }

    /// Tries these seeds, the least one first.
    pub fn seeds(mut self, seeds: Range<u64>) -> Search<'a> {
        self.seeds = seeds;
        self
    }

    /// Calls the function by this number of threads. The answer is the same.
    pub fn workers(mut self, workers: usize) -> Search<'a> {
        self.workers = workers;
        self
    }

    /// Has a panic of the function count as found; else it ends the search.
    pub fn panics(mut self) -> Search<'a> {
        self.has_panics = true;
        self
    }

    /// Takes scenarios with proxies that no connection meets.
    pub fn loose(mut self) -> Search<'a> {
        self.is_loose = true;
        self
    }

    /// Calls a function before each try, with the number of tries before it, by one thread at a time. Its `Break` ends the search.
    pub fn progress(mut self, progress: impl Fn(u64) -> ControlFlow<()> + Sync + 'a) -> Search<'a> {
        self.progress = Box::new(progress);
        self
    }

    /// The least of the seeds under which a function says that the outputs are looked for; the outputs are those of [`rehearse`](crate::rehearse()).
    ///
    /// # Errors
    ///
    /// As [`SearchError`] says.
    pub fn least_seed<V: Verdict>(&self, scenarios: &[&str], holds: impl Fn(&[Output]) -> V + Sync) -> Searched {
        self.check(scenarios)?;
        self.least(scenarios, self.seeds.clone(), &holds)
    }

    /// Refuses proxies that no connection meets.
    pub(crate) fn check(&self, scenarios: &[&str]) -> Result<(), SearchError> {
        for (number, text) in reports(self.capture, scenarios, self.hosts, self.seeds.start)?.iter().enumerate() {
            let report = Report::parse(text, Duration::from_nanos(1));
            let met: Vec<_> = report.iter().flat_map(|report| &report.connections).filter_map(|connection| connection.proxy).collect();
            let proxies = Value::read(&mut &*scenarios[number]).and_then(|mut value| value.list().map(|proxies| proxies.len()));
            match (0..proxies.unwrap_or(0)).find(|proxy| !met.contains(proxy)) {
                Some(proxy) if !self.is_loose => return Err(SearchError::Unmet(number, proxy)),
                _ => {}
            }
        }
        Ok(())
    }

    pub(crate) fn least<V: Verdict>(&self, scenarios: &[&str], seeds: Range<u64>, holds: &(impl Fn(&[Output]) -> V + Sync)) -> Searched {
        let claims = Mutex::new(Claims { next: seeds.start, below: seeds.end, result: Ok(None) });
        thread::scope(|scope| {
            for _ in 0..self.workers.max(1) {
                scope.spawn(|| {
                    while let Some(seed) = self.claim(&claims) {
                        let result = self.attempt(scenarios, seed, holds);
                        let mut claims = claims.lock().unwrap_or_else(PoisonError::into_inner);
                        if result != Ok(None) && seed < claims.below {
                            (claims.below, claims.result) = (seed, result);
                        }
                    }
                });
            }
        });
        claims.into_inner().unwrap_or_else(PoisonError::into_inner).result
    }

    /// The next seed, if one is left: all before one at which something came are tried.
    fn claim(&self, claims: &Mutex<Claims>) -> Option<u64> {
        let mut claims = claims.lock().unwrap_or_else(PoisonError::into_inner);
        if claims.next >= claims.below {
            return None;
        }
        let mut tries = self.tries.lock().unwrap_or_else(PoisonError::into_inner);
        if (self.progress)(*tries).is_break() {
            (claims.below, claims.result) = (claims.next, Err(SearchError::Ended(None)));
            return None;
        }
        *tries += 1;
        claims.next += 1;
        Some(claims.next - 1)
    }

    fn attempt<V: Verdict>(&self, scenarios: &[&str], seed: u64, holds: &impl Fn(&[Output]) -> V) -> Searched {
        let outputs = rehearse(self.capture, scenarios, self.hosts, seed)?;
        let found = |why| Found { seed, scenarios: scenarios.iter().map(ToString::to_string).collect(), why };
        match catch_unwind(AssertUnwindSafe(|| holds(&outputs).why())) {
            Ok(why) => Ok(why.map(found)),
            Err(panic) => {
                let text = panic.downcast_ref::<String>().cloned().or_else(|| panic.downcast_ref::<&str>().map(ToString::to_string));
                let found = found(text.unwrap_or_default());
                if self.has_panics {
                    Ok(Some(found))
                } else {
                    Err(SearchError::Panicked(found))
                }
            }
        }
    }
}

//! Rehearses recorded sessions in this process.
use crate::delivered::Shown;
use crate::refusal::Refusal;
use crate::report::Report;
use std::fmt;
use std::time::Duration;

/// What one scenario gives.
#[derive(Clone, PartialEq, Eq)]
#[non_exhaustive]
pub struct Output {
    /// A classic pcap of what each side received.
    pub capture: Vec<u8>,
    /// A line of counts, a line of connections, and a line for each connection.
    pub report: String,
}

impl Output {
    /// The report as data; `None` if its text was changed, and is no report.
    pub fn parsed(&self) -> Option<Report> {
        let is_in_nanoseconds = self.capture.first() == Some(&0x4d);
        Report::parse(&self.report, Duration::from_nanos(if is_in_nanoseconds { 1 } else { 1000 }))
    }
}

impl fmt::Debug for Output {
    fn fmt(&self, to: &mut fmt::Formatter) -> fmt::Result {
        to.debug_struct("Output").field("capture", &Shown(&self.capture)).field("report", &self.report).finish()
    }
}

#[repr(C)]
pub(crate) struct Inputs {
    capture: *const u8,
    capture_len: usize,
    scenarios: *const u8,
    scenarios_len: usize,
    scenario_lens: *const usize,
    scenario_count: usize,
    hosts: *const u8,
    hosts_len: usize,
    seed: u64,
}

#[repr(C)]
struct Sizes {
    captures: usize,
    reports: usize,
    lens: usize,
}

#[link(name = "toxicap", kind = "static")]
#[rustfmt::skip]
extern "C" {
    fn toxicap_rehearse(
        inputs: *const Inputs, captures: *mut u8, captures_room: usize, reports: *mut u8, reports_room: usize,
        lens: *mut usize, lens_room: usize, sizes: *mut Sizes,
    ) -> u8;
    fn toxicap_reports(inputs: *const Inputs, reports: *mut u8, reports_room: usize, sizes: *mut Sizes) -> u8;
}

/// The status of too little room: then the sizes say what is required.
pub(crate) const NO_ROOM: u8 = 2;

/// Scenarios one after another, and the length of each.
pub(crate) fn texts(scenarios: &[&str]) -> (String, Vec<usize>) {
    (scenarios.concat(), scenarios.iter().map(|text| text.len()).collect())
}

/// Inputs that lead to these, and hold as long as they do.
pub(crate) fn inputs(capture: &[u8], (text, lens): &(String, Vec<usize>), hosts: &str, seed: u64) -> Inputs {
    Inputs {
        capture: capture.as_ptr(),
        capture_len: capture.len(),
        scenarios: text.as_ptr(),
        scenarios_len: text.len(),
        scenario_lens: lens.as_ptr(),
        scenario_count: lens.len(),
        hosts: hosts.as_ptr(),
        hosts_len: hosts.len(),
        seed,
    }
}

/// A first guess at the room for the reports of scenarios.
fn report_room(capture: &[u8], count: usize) -> usize {
    count * (1024 + (capture.len() / 8).min(262_144))
}

/// The capture and the report of each scenario, in their order: the bytes that `toxicap --out` stores.
///
/// The capture is a classic pcap of Ethernet frames, or a dump of one in hexadecimal; scenarios are texts of JSON in Toxiproxy's populate form, with the
/// field `toxics`: of `[]` the session is as recorded, and without a scenario there is no output. Hosts are lines, such as
/// `"redis=10.77.0.3\nweb=10.77.0.2"`. What is drawn depends on the seed, and on the scenario's number in the call, so two equal scenarios of a call
/// may draw otherwise. Equal arguments give equal bytes. Any thread with 256 KB of stack may call.
///
/// An output is an open loop: each request comes at its recorded time, even if the answer before it is late.
///
/// # Errors
///
/// What is refused, and lack of memory in the library, as a [`Refusal`]. If there is no room for the outputs themselves, the process ends as it
/// does by any `Vec`.
pub fn rehearse(capture: &[u8], scenarios: &[&str], hosts: &str, seed: u64) -> Result<Vec<Output>, Refusal> {
    let (texts, count) = (texts(scenarios), scenarios.len());
    let inputs = inputs(capture, &texts, hosts, seed);
    let room = count * (capture.len() + capture.len() / 2) + 4096;
    let mut sizes = Sizes { captures: room, reports: report_room(capture, count), lens: 2 * count };
    loop {
        let (mut captures, mut reports, mut lens) = (vec![0; sizes.captures], vec![0; sizes.reports], vec![0; sizes.lens]);
        let [to_captures, to_reports] = [&mut captures, &mut reports].map(|bytes: &mut Vec<u8>| bytes.as_mut_ptr());
        // SAFETY: each pointer goes with its own slice's length, and the outputs are apart from all else.
        let status =
            unsafe { toxicap_rehearse(&inputs, to_captures, captures.len(), to_reports, reports.len(), lens.as_mut_ptr(), lens.len(), &mut sizes) };
        if status == NO_ROOM {
            continue;
        }
        Refusal::check(status, &reports[..sizes.reports])?;
        let (mut captures, mut reports) = (&captures[..], &reports[..]);
        let output = |two: &[usize]| Output { capture: first(&mut captures, two[0]).to_vec(), report: text(first(&mut reports, two[1])) };
        return Ok(lens.chunks(2).map(output).collect());
    }
}

/// Only the report of each scenario: the same texts as of [`rehearse`], in less time and memory.
///
/// # Errors
///
/// Those of [`rehearse`].
pub fn reports(capture: &[u8], scenarios: &[&str], hosts: &str, seed: u64) -> Result<Vec<String>, Refusal> {
    let texts = texts(scenarios);
    let inputs = inputs(capture, &texts, hosts, seed);
    let mut sizes = Sizes { captures: 0, reports: report_room(capture, scenarios.len()), lens: 0 };
    loop {
        let mut bytes = vec![0; sizes.reports];
        // SAFETY: each pointer goes with its own slice's length, and the output is apart from all else.
        let status = unsafe { toxicap_reports(&inputs, bytes.as_mut_ptr(), bytes.len(), &mut sizes) };
        if status == NO_ROOM {
            continue;
        }
        bytes.truncate(sizes.reports);
        Refusal::check(status, &bytes)?;
        let mut reports = Vec::<String>::new();
        for line in text(&bytes).split_inclusive('\n') {
            match reports.last_mut() {
                Some(report) if !line.starts_with("scenario ") => report.push_str(line),
                _ => reports.push(line.to_string()),
            }
        }
        return Ok(reports);
    }
}

/// The first items of a slice, which goes on after them.
pub(crate) fn first<'a, T>(items: &mut &'a [T], len: usize) -> &'a [T] {
    let (front, rest) = items.split_at(len);
    *items = rest;
    front
}

fn text(bytes: &[u8]) -> String {
    String::from_utf8_lossy(bytes).into_owned()
}

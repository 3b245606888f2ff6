//! What toxicap refuses.
use std::{error, fmt, io};

// made: kinds (by tests/tree/made.py, of docs/refusals.tsv)
/// The kinds of refusals, by their numbers; `docs/use/refusals.md` says what to do.
#[derive(Clone, Copy, Debug, PartialEq, Eq, Hash)]
#[non_exhaustive]
#[rustfmt::skip]
pub enum Kind {
    #[doc = "The capture has fewer than 24 bytes."] ShortHeader = 1,
    #[doc = "The first four bytes are no magic number of a classic pcap."] BadMagic = 2,
    #[doc = "The capture is of another pcap version than 2.4."] BadVersion = 3,
    #[doc = "The capture's link type field is not 1, Ethernet."] BadLink = 4,
    #[doc = "A record announces more than 262144 bytes."] RecordTooLong = 5,
    #[doc = "A capture, a dump or a scenario file has more than 2^30 bytes."] CaptureTooLong = 6,
    #[doc = "The text is not JSON in UTF-8, or nests deeper than 127 levels, or has a number too large for a float."] NotJson = 10,
    #[doc = "The text is no JSON array."] NotArray = 11,
    #[doc = "A proxy or a toxic is no object, or a field of it is missing or of the wrong kind."] BadMember = 12,
    #[doc = "An earlier proxy has the name."] DuplicateProxy = 13,
    #[doc = "The upstream is not HOST:PORT with a port from 1 to 65535."] BadUpstream = 14,
    #[doc = "The host of the upstream is no address, and no --host names it."] UnknownHost = 15,
    #[doc = "The type is none of the seven."] UnknownToxic = 16,
    #[doc = "The stream is neither upstream nor downstream."] BadStream = 17,
    #[doc = "An earlier toxic of the proxy has the name."] DuplicateToxic = 18,
    #[doc = "An attribute is no whole number in its range."] AttributeRange = 19,
    #[doc = "The scenario has more than 64 proxies, or a stream of a proxy more than 8 toxics."] TooMany = 20,
    #[doc = "The toxicity is not 0 or 1, or toxicity_ppm is no whole number up to 1000000."] BadToxicity = 21,
    #[doc = "There are more than 256 scenarios."] TooManyScenarios = 22,
    #[doc = "A --host is not NAME=ADDR with a valid name and an IPv4 address, or its name was given before."] BadHost = 23,
    #[doc = "Memory was refused."] Memory = 40,
    #[doc = "A byte of a dump is no hexadecimal digit, or the last byte has but one."] BadDump = 55,
}

#[rustfmt::skip]
const KINDS: [Kind; 22] = [
    Kind::ShortHeader, Kind::BadMagic, Kind::BadVersion, Kind::BadLink, Kind::RecordTooLong, Kind::CaptureTooLong, Kind::NotJson,
    Kind::NotArray, Kind::BadMember, Kind::DuplicateProxy, Kind::BadUpstream, Kind::UnknownHost, Kind::UnknownToxic, Kind::BadStream,
    Kind::DuplicateToxic, Kind::AttributeRange, Kind::TooMany, Kind::BadToxicity, Kind::TooManyScenarios, Kind::BadHost, Kind::Memory,
    Kind::BadDump,
];
// end

impl fmt::Display for Kind {
    fn fmt(&self, to: &mut fmt::Formatter) -> fmt::Result {
        write!(to, "refused {} {self:?}", *self as u32)
    }
}

impl error::Error for Kind {}

/// What toxicap refuses. As text it is the program's line, and after a colon what helps. The numbers in it count from 0. Its source is its kind.
#[derive(Clone, Debug, PartialEq, Eq)]
#[non_exhaustive]
pub struct Refusal {
    /// What it is.
    pub kind: Kind,
    /// Its place, such as `scenario 0 proxy 1`; empty if it has none.
    pub place: String,
    /// What helps: the field that it is about, what that is, what is expected there, and what to do. It is empty if nothing is known.
    pub hint: String,
}

impl fmt::Display for Refusal {
    fn fmt(&self, to: &mut fmt::Formatter) -> fmt::Result {
        to.write_str(&self.line())?;
        match &*self.hint {
            "" => Ok(()),
            hint => write!(to, ": {hint}"),
        }
    }
}

impl error::Error for Refusal {
    fn source(&self) -> Option<&(dyn error::Error + 'static)> {
        Some(&self.kind)
    }
}

impl From<Refusal> for io::Error {
    fn from(refusal: Refusal) -> io::Error {
        io::Error::new(io::ErrorKind::InvalidInput, refusal)
    }
}

impl Refusal {
    /// The program's line, such as `refused 15 UnknownHost scenario 0 proxy 1`.
    pub fn line(&self) -> String {
        format!("{} {}", self.kind, self.place).trim_end().to_string()
    }

    /// What a call says by its status, which is not that of too little room, and by its text.
    pub(crate) fn check(status: u8, text: &[u8]) -> Result<(), Refusal> {
        let text = match status {
            0 => return Ok(()),
            1 => String::from_utf8_lossy(text),
            _ => "refused 40 Memory".into(),
        };
        let (line, hint) = text.split_once('\n').unwrap_or((&text, ""));
        let mut words = line.splitn(4, ' ').skip(1);
        let number = words.next().and_then(|word| word.parse().ok());
        let kind = KINDS.into_iter().find(|kind| Some(*kind as u32) == number);
        let place = words.nth(1).unwrap_or_default().to_string();
        Err(Refusal { kind: kind.expect("a refusal of the library has a kind"), place, hint: hint.to_string() })
    }
}

package toxicap

// made: tables (by tests/tree/made.py, of docs/refusals.tsv and docs/toxics.tsv)

// The kinds of refusals.
const (
	ErrShortHeader      Kind = 1  // the capture has fewer than 24 bytes
	ErrBadMagic         Kind = 2  // the first four bytes are no magic number of a classic pcap
	ErrBadVersion       Kind = 3  // the capture is of another pcap version than 2.4
	ErrBadLink          Kind = 4  // the capture's link type field is not 1, Ethernet
	ErrRecordTooLong    Kind = 5  // a record announces more than 262144 bytes
	ErrCaptureTooLong   Kind = 6  // a capture, a dump or a scenario file has more than 2^30 bytes
	ErrNotJson          Kind = 10 // the text is not JSON in UTF-8, or nests deeper than 127 levels, or has a number too large for a float
	ErrNotArray         Kind = 11 // the text is no JSON array
	ErrBadMember        Kind = 12 // a proxy or a toxic is no object, or a field of it is missing or of the wrong kind
	ErrDuplicateProxy   Kind = 13 // an earlier proxy has the name
	ErrBadUpstream      Kind = 14 // the upstream is not HOST:PORT with a port from 1 to 65535
	ErrUnknownHost      Kind = 15 // the host of the upstream is no address, and no --host names it
	ErrUnknownToxic     Kind = 16 // the type is none of the seven
	ErrBadStream        Kind = 17 // the stream is neither upstream nor downstream
	ErrDuplicateToxic   Kind = 18 // an earlier toxic of the proxy has the name
	ErrAttributeRange   Kind = 19 // an attribute is no whole number in its range
	ErrTooMany          Kind = 20 // the scenario has more than 64 proxies, or a stream of a proxy more than 8 toxics
	ErrBadToxicity      Kind = 21 // the toxicity is not 0 or 1, or toxicity_ppm is no whole number up to 1000000
	ErrTooManyScenarios Kind = 22 // there are more than 256 scenarios
	ErrBadHost          Kind = 23 // a --host is not NAME=ADDR with a valid name and an IPv4 address, or its name was given before
	ErrMemory           Kind = 40 // memory was refused
	ErrBadDump          Kind = 55 // a byte of a dump is no hexadecimal digit, or the last byte has but one
)

var kindNames = map[Kind]string{
	1: "ShortHeader", 2: "BadMagic", 3: "BadVersion", 4: "BadLink", 5: "RecordTooLong", 6: "CaptureTooLong", 10: "NotJson", 11: "NotArray",
	12: "BadMember", 13: "DuplicateProxy", 14: "BadUpstream", 15: "UnknownHost", 16: "UnknownToxic", 17: "BadStream", 18: "DuplicateToxic", 19: "AttributeRange",
	20: "TooMany", 21: "BadToxicity", 22: "TooManyScenarios", 23: "BadHost", 40: "Memory", 55: "BadDump",
}

// The attributes of each type of toxics.
var attributes = []struct{ of, name string }{
	{"latency", "latency"},
	{"latency", "jitter"},
	{"bandwidth", "rate"},
	{"slow_close", "delay"},
	{"timeout", "timeout"},
	{"reset_peer", "timeout"},
	{"slicer", "average_size"},
	{"slicer", "size_variation"},
	{"slicer", "delay"},
	{"limit_data", "bytes"},
}

// end

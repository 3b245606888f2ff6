// Package toxicap rehearses network faults on recorded TCP sessions, in this process: no socket, no file, and equal arguments give equal bytes.
//
// Rehearse gives of each scenario the output capture and the report, Events and Delivered what each connection of an output capture received, and
// when. A Conn gives that to a client as a net.Conn with a clock of its own, so that nothing waits, and a Dialer to one that dials; a Player serves
// it to a real client in real time. ClosedLoop has client and server wait for one another under a scenario. ParseReport gives the numbers of a
// report, Explain why nothing happened. LeastSeed, Shrink, FeedPrefixes and FuzzScenario look for what makes a test fail, and the package golden
// compares outputs with golden files, and gives Dialers of them. The static library is in the package: Rehearse, Reports and what calls them need cgo,
// and Linux on x86-64-v2; elsewhere their error is ErrNoLibrary. All else works on stored outputs there, too.
//
// Errors have names: errors.Is finds an Err.. value, and errors.As a *Refusal, *RequestError or *PanicError.
//
// Scenarios are JSON in Toxiproxy's populate form, in which a proxy may also have toxics; [] leaves the session as recorded, and unknown fields are
// ignored. Scenario makes them of a Proxy and a Toxic:
//
//	[{"name": "web", "upstream": "10.77.0.2:80", "toxics": [{"type": "slicer", "attributes": {"average_size": 50}}]}]
//
// Pages, scenarios and samples are in share/toxicap of the module's folder, first docs/use/go.md; example_test.go has whole tests.
package toxicap

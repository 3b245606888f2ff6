"""The fixture of pytest and what it stands on, by runs of pytest in temporary folders: what makes a rehearsal do nothing, and golden files, how they
differ, which were written and which are stale."""
import importlib.util
import json
import os
import pathlib
import subprocess
import sys
import tempfile
import unittest

from toxicap import Refusal, explain, rehearse

TOP = pathlib.Path(__file__).resolve().parents[3]

HTTP, SHOP = ((TOP / "samples" / name).read_bytes() for name in ("http-get.pcap", "shop.pcap"))
HEADER = HTTP[:24]


def record(frame):
    return bytes(8) + len(frame).to_bytes(4, "little") * 2 + frame


def web(*toxics, **fields):
    return {"name": "web", "upstream": "10.77.0.2:80", "toxics": list(toxics), **fields}


class Findings(unittest.TestCase):
    def setUp(self):
        self.folder = tempfile.TemporaryDirectory()
        self.addCleanup(self.folder.cleanup)

    def finds(self, capture, scenario, *expected, hosts=b""):
        self.assertEqual(list(map(str, explain(capture, [[], scenario], hosts, 7))), list(expected))

    def test_nothing_to_find(self):
        self.finds(SHOP, [web({"type": "latency", "attributes": {"latency": 1}}), {"name": "db", "upstream": "db:6379"}], hosts={"db": "10.77.0.3"})
        self.assertEqual(explain(HEADER, []), [])

    def test_unknown_fields(self):
        toxics = [{"type": "latency", "attributes": {"latencyy": 9, "a\nb": 1}}, {"type": "timeout", "timeout": 5, "enabled": False}]
        place = "scenario 1 proxy 0"
        self.finds(
            HTTP,
            [web(*toxics, Enabled=False)],
            f"{place}: unknown field Enabled (is it enabled?)",
            f"{place} toxic 0 attributes: unknown field latencyy (is it latency?)",
            f'{place} toxic 0 attributes: unknown field "a\\nb" (known are latency, jitter)',
            f'{place} toxic 1: unknown field timeout (it belongs in "attributes")',
            f'{place} toxic 1: unknown field enabled (only a proxy can be disabled; for a toxic write "toxicity": 0)',
            f'{place} toxic 0 "latency_downstream": effect on 0 of 1 connection; on 1: its latency and jitter are 0',
        )

    def test_toxics_without_effect(self):
        """Warnings, in the words of tools/explain; none for toxics of a proxy that is not met."""
        [silent] = rehearse(HTTP, [web({"type": "timeout"})])
        for capture, expected, *toxics in (
            (HTTP, ["its toxicity is 0"], {"type": "timeout", "toxicity": 0}),
            (silent, ["no bytes flow downstream (upstream up to 82 bytes)"], {"type": "slicer", "attributes": {"average_size": 9}}),
            (HTTP, ["all is the same without it, on this capture and beside the other toxics"], {"type": "latency", "attributes": {"latency": 9}}, {"type": "timeout", "name": "{}"}),
            (HTTP, ["its limit of 83 bytes is not passed (at most 82 came, downstream up to 216)", "it is not drawn (toxicity_ppm 1)"],
             {"type": "limit_data", "stream": "upstream", "attributes": {"bytes": 83}}, {"type": "timeout", "toxicity_ppm": 1}),
            (HTTP, [], {"type": "slicer", "attributes": {"average_size": 9}}, {"type": "slow_close", "attributes": {"delay": 9}}),
        ):
            scenario, path = [web(*toxics)], pathlib.Path(self.folder.name, "x")
            found = explain(capture, [[], scenario], seed=7)
            self.assertEqual([finding.text for finding in found], [f"effect on 0 of 1 connection; on 1: {text}" for text in expected])
            self.assertEqual([finding.is_warning for finding in found], [True] * len(expected))
            path.with_suffix(".pcap").write_bytes(capture if isinstance(capture, bytes) else capture.capture)
            path.with_suffix(".json").write_text(json.dumps(scenario))
            words = [TOP / "tools/explain", "--capture", path.with_suffix(".pcap"), "--seed", "7"]
            told = subprocess.run([*words, *["--scenario", path.with_suffix(".json")] * 2], stdout=subprocess.PIPE, text=True).stdout
            lines = [line.split('": ')[1] for line in told.splitlines() if "effect on 0" in line]
            self.assertEqual(lines[len(lines) // 2 :], [finding.text for finding in found])
        [finding] = explain(HTTP, [web({"type": "latency"}, upstream="10.77.0.2:81")])
        self.assertFalse(finding.is_warning)

    def test_refusals(self):
        for scenario in b"{", b"[{}]":
            with self.assertRaises(Refusal):
                explain(HTTP, [scenario])

    def test_proxies_that_are_not_met(self):
        proxies = [{"name": "w e", "upstream": "10.77.0.2:8080"}, web(), {"name": "late", "upstream": "web:080"}, {"name": "x", "upstream": "web:81"}]
        none, servers = "no connection meets it;", "servers of the capture: 10.77.0.3:6379, 10.77.0.2:80"
        self.finds(
            SHOP,
            proxies,
            f'scenario 1 proxy 0 "w e" (10.77.0.2:8080): {none} {servers}',
            f'scenario 1 proxy 2 "late" (web:080): {none} proxy 1 stands before the same server, and is met first',
            f'scenario 1 proxy 3 "x" (web:81): {none} {servers}',
            hosts=b"web=10.77.0.2",
        )

    def test_captures_without_a_connection(self):
        """A finding for each reason, and none for the proxies."""
        syn = HTTP[40 : 40 + int.from_bytes(HTTP[32:36], "little")]
        later = syn[:47] + b"\x10" + syn[48:]
        v6, udp = syn[:12] + b"\x86\xdd" + syn[14:], syn[:23] + b"\x11" + syn[24:]
        cases = [
            ([], "it has no connection and no record: the filter of the recording matched nothing, or it was stopped too early"),
            ([v6], "it has no connection; 1 of 1 records are notipv4: IPv6 (localhost may be ::1), ARP, or two VLAN tags; only IPv4 is rehearsed: "
                   "connect to an IPv4 address, such as 127.0.0.1"),
            ([later], "it has no connection; 1 of 1 segments are unopened: the opening of their sessions is not in the capture; start recording "
                      "before the client connects"),
            ([udp], "it has no connection; 1 of 1 records are nottcp: UDP, ICMP or another protocol; only TCP is rehearsed: record TCP sessions"),
            ([syn[:-1]], "it has no connection; 1 of 1 records are cut: recorded without their ends, their bytes are missing; record whole packets "
                         "(tcpdump -s 0)"),
            ([b"x"], "it has no connection; 1 of 1 records are short: they have no whole Ethernet header; record whole packets (tcpdump -s 0)"),
        ]
        for frames, text in cases:
            self.finds(HEADER + b"".join(map(record, frames)), [web()], f"capture: {text}")
        found = explain(HEADER + b"".join(map(record, [later, v6, v6])), [web()])
        self.assertEqual([finding.text.split(":")[0] for finding in found],
                         ["it has no connection; 2 of 3 records are notipv4", "it has no connection; 1 of 1 segments are unopened"])


SUITE = '''
import pathlib, pytest, toxicap
LATE = [{"name": "web", "upstream": "10.77.0.2:80", "toxics": [{"type": "latency", "attributes": {"latency": 100}}]}]
HTTP, SHOP = (pathlib.Path(r"%s") / name for name in ("http-get.pcap", "shop.pcap"))
''' % (TOP / "samples")


class Suites(unittest.TestCase):
    """Runs of pytest over small suites, each in a folder of its own."""

    def setUp(self):
        temporary = tempfile.TemporaryDirectory()
        self.addCleanup(temporary.cleanup)
        self.folder = pathlib.Path(temporary.name)

    def suite(self, name="test_suite.py", **tests):
        """Writes a module of tests, each a body; `rehearse` is the fixture."""
        text = SUITE + "".join(f"def test_{name}(rehearse):\n    {body}\n" for name, body in tests.items())
        (self.folder / name).write_text(text)

    def run_pytest(self, status, *options):
        """A run of pytest over the folder, which ends so: what it prints."""
        command = [sys.executable, "-B", "-m", "pytest", "-q", "-p", "no:cacheprovider", "-p", "toxicap.pytest_plugin", *options]
        ended = subprocess.run(command, cwd=self.folder, stdout=subprocess.PIPE, stderr=subprocess.STDOUT, text=True, timeout=200)
        self.assertEqual(ended.returncode, status, ended.stdout)
        return ended.stdout


class Golden(Suites):
    """Golden files: what is written, what differs, and what is stale."""

    def test_what_was_written(self):
        self.suite(one='rehearse(HTTP, LATE, golden="golden/one")', two='rehearse(SHOP, LATE, golden="golden/two")', again='test_one(rehearse)')
        told = self.run_pytest(1)
        self.assertIn(f"there is no golden file {self.folder / 'golden/two.pcap'}", told)
        self.assertNotIn("golden files written", told)
        told = self.run_pytest(0, "--toxicap-update")
        self.assertIn("toxicap: golden files written -", told)
        self.assertIn(" golden/one.pcap golden/one.txt golden/two.pcap golden/two.txt ", " ".join(told.split()))
        (self.folder / "golden/two.txt").unlink()
        told = self.run_pytest(0, "--toxicap-update")
        self.assertIn("golden/two.txt", told)
        for name in "golden/one", "golden/two.pcap":
            self.assertNotIn(name, told)
        self.assertNotIn("golden/", self.run_pytest(0, "--toxicap-update"))

    def differs(self, *lines):
        told = self.run_pytest(1)
        for line in lines:
            self.assertIn(line, told.splitlines())
        return told

    def late(self):
        """Writes golden files of a suite with one test: their path without ending."""
        self.suite(late='rehearse(SHOP, LATE, golden="golden/late")')
        self.run_pytest(0, "--toxicap-update")
        return self.folder / "golden/late"

    def test_another_scenario(self):
        """Of a report both lines are shown; of a capture connection, direction, chunk and time."""
        golden = self.late()
        self.suite(late='LATE[0]["toxics"].append({"type": "limit_data", "attributes": {"bytes": 200}}); rehearse(SHOP, LATE, golden="golden/late")')
        line = "1 10.77.0.1:54720 > 10.77.0.2:80 proxy 0 up 83/83/0"
        self.differs(
            f"the golden file {golden}.txt differs:",
            "line 4",
            f"-{line} fin+7573 max 0 down 6388/6388/0 fin+107495 max 100000",
            f"+{line} fin+7573 max 0 down 200/6388/0 close+107487 max 100000",
            f"the golden file {golden}.pcap differs:",
            "connection 1, down: chunk 1: 1448 bytes at 107.487 ms, and 12 bytes at 107.487 ms came",
            "`pytest --toxicap-update` writes golden files",
        )

    def test_other_files(self):
        """Other bytes of a chunk, another line, line ends as another system has them, a header that toxicap does not write, a checksum."""
        golden = self.late()
        report, capture = (golden.with_suffix(ending).read_bytes() for ending in (".txt", ".pcap"))
        other = bytearray(capture)
        other[other.index(b"200 OK")] ^= 1
        golden.with_suffix(".pcap").write_bytes(other)
        golden.with_suffix(".txt").write_bytes(report + b"4 more\n")
        told = self.differs("line 7", "-4 more", "connection 1, down: chunk 0 at 107.415 ms, 188 bytes: others came from byte 9 on")
        self.assertNotIn("\n+", told)
        golden.with_suffix(".txt").write_bytes(report.replace(b"\n", b"\r\n"))
        golden.with_suffix(".pcap").write_bytes(capture.replace(HTTP[4:8], b"\r\n\r\n", 1))
        self.differs(
            "its lines end by CR LF: git keeps LF by a line `golden/** -text` of .gitattributes",
            "it is no output capture of toxicap: it has another file header; "
            f"the bytes differ from byte 4 on: it has {len(capture)}, and {len(capture)} came",
        )
        golden.with_suffix(".pcap").write_bytes(capture[:90] + bytes([capture[90] ^ 1]) + capture[91:])  # a checksum
        self.differs(f"the bytes differ from byte 90 on: it has {len(capture)}, and {len(capture)} came")

    def test_many_differences(self):
        self.late().with_suffix(".txt").write_bytes(b"x\n" * 11)
        lines = [line for line in self.differs("..").splitlines() if line.startswith("line ")]
        self.assertEqual(lines, [f"line {number}" for number in range(1, 11)])

    def test_connections(self):
        """Another number of connections, and chunks that did not come or are new."""
        golden = self.folder / "golden/late"
        self.suite(late='rehearse(SHOP, [], golden="golden/late")')
        self.run_pytest(0, "--toxicap-update")
        self.suite(late='rehearse(HTTP, [], golden="golden/late")')
        told = self.differs("it has 4 connections, and 1 came")
        self.assertRegex(told, r"\nconnection 0, down: chunk 0: [0-9]+ bytes at [0-9.]+ ms, and 186 bytes at 3.610 ms came\n")
        silent = '[{"name": "web", "upstream": "10.77.0.2:80", "toxics": [{"type": "timeout"}]}]'
        self.suite(late=f'rehearse(HTTP, {silent}, golden="golden/late")')
        golden.with_suffix(".pcap").unlink()
        self.run_pytest(0, "--toxicap-update")
        self.suite(late='rehearse(HTTP, [], golden="golden/late")')
        self.differs("connection 0, down: chunk 0: none, and 186 bytes at 3.610 ms came")
        self.run_pytest(0, "--toxicap-update")
        self.suite(late=f'rehearse(HTTP, {silent.replace("timeout", "slow_close")[:-4]}, "attributes": {{"delay": 5}}}}]}}], golden="golden/late")')
        self.differs("connection 0, down: the end: fin at 3.686 ms, and fin at 8.686 ms came")

    def test_stale(self):
        """Golden files that no test compares with fail the run, if no test was left out."""
        self.suite(one='rehearse(HTTP, LATE, golden="golden/one")', two='rehearse(SHOP, LATE, golden="golden/two.v2")')
        self.run_pytest(0, "--toxicap-update")
        self.assertNotIn("stale", self.run_pytest(0, "--toxicap-stale"))
        for name in "notes.txt", "recording.pcap", "alone.txt":
            (self.folder / "golden" / name).write_text("scenario 0 records 1\n")
        (self.folder / "golden/notes.pcap").write_bytes(b"")
        (self.folder / "golden/notes.txt").write_text("of the files here\n")
        self.suite(one='rehearse(HTTP, LATE, golden="golden/one")')
        self.assertNotIn("two", self.run_pytest(0))
        told = self.run_pytest(1, "--toxicap-stale")
        self.assertIn("- golden/two.v2.pcap golden/two.v2.txt ", " ".join(told.split()))
        self.assertIn("toxicap: stale golden files, which no test compared with -", told)
        self.suite("test_more.py", skipped="pytest.skip()", passed="pass")
        not_looked_for = "toxicap: stale golden files were not looked for: "
        left_out = not_looked_for + "a test failed, or was skipped or deselected"
        self.assertIn(left_out, self.run_pytest(0, "--toxicap-stale"))
        self.assertIn(left_out, self.run_pytest(0, "--toxicap-stale", "-k", "passed"))
        (self.folder / "test_more.py").write_text('import pytest\npytest.importorskip("none_such")\n')
        self.assertIn(left_out, self.run_pytest(0, "--toxicap-stale"))
        self.assertIn(not_looked_for + "some modules of a folder were named; name folders", self.run_pytest(0, "--toxicap-stale", "test_suite.py"))

    @unittest.skipUnless(importlib.util.find_spec("xdist"), "pytest-xdist is not here")
    def test_workers(self):
        """What workers wrote is listed; what is stale, they do not know."""
        self.suite(one='rehearse(HTTP, LATE, golden="golden/one")', two='rehearse(SHOP, LATE, golden="golden/two")')
        told = self.run_pytest(0, "-n", "2", "--toxicap-update", "--toxicap-stale")
        self.assertIn(" golden/one.pcap golden/one.txt golden/two.pcap golden/two.txt toxicap: stale ", " ".join(told.split()))
        self.assertIn("toxicap: stale golden files were not looked for: tests ran in workers; run without -n", told)


if __name__ == "__main__":
    unittest.main()

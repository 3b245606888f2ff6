"""The fixtures of pytest, by runs of pytest in temporary folders: what they check and take, the closed loop, and both ways of reads."""
import importlib.util
import subprocess
import unittest

from test_golden import HTTP, TOP, Suites


def calls(count):
    """A capture of a session with this many requests `?`, each after the answer `!` before it."""
    lines = ["1.0 c>s SYN 1000 0", "1.0001 s>c SYN ACK 5000 1001"]
    for at in range(count):
        lines += [f"1.{2 * at + 1:03} c>s PSH ACK {1001 + at} {5001 + at} \"?\"", f"1.{2 * at + 2:03} s>c PSH ACK {5001 + at} {1002 + at} \"!\""]
    lines += [f"1.1 s>c FIN ACK {5001 + count} {1001 + count}", f"1.2 c>s FIN ACK {1001 + count} {5002 + count}"]
    made = subprocess.run(["awk", "-f", TOP / "tests/capture.awk"], input="\n".join(lines), stdout=subprocess.PIPE, text=True, check=True)
    return bytes.fromhex(made.stdout)


class Fixture(Suites):
    def test_strict(self):
        """A rehearsal that does nothing fails, and writes no golden file."""
        self.suite(
            port='rehearse(HTTP, [{"name": "web", "upstream": "10.77.0.2:8080"}], golden="golden/port")',
            field='rehearse(HTTP, [{"name": "web", "upstream": "10.77.0.2:80", "toxic": []}])',
            empty="rehearse(HTTP.read_bytes()[:24], [])",
        )
        told = self.run_pytest(1, "--toxicap-update")
        for line in [
            'scenario 0 proxy 0 "web" (10.77.0.2:8080): no connection meets it; servers of the capture: 10.77.0.2:80',
            "scenario 0 proxy 0: unknown field toxic (is it toxics?)",
            "capture: it has no connection and no record: the filter of the recording matched nothing, or it was stopped too early",
            "strict=False takes a rehearsal that does nothing",
        ]:
            self.assertIn(line, told)
        self.assertFalse((self.folder / "golden").exists())
        self.suite(port='rehearse(HTTP, [{"name": "web", "upstream": "10.77.0.2:8080", "x": 1}], golden="golden/port", strict=False)')
        self.run_pytest(0, "--toxicap-update")
        self.run_pytest(0)

    def test_toxics_without_effect(self):
        """They are warned of, at the test's line, and fail nothing."""
        idle = '[{"name": "web", "upstream": "10.77.0.2:80", "toxics": [{"type": "latency"}]}]'
        self.suite(idle=f"rehearse(HTTP, {idle}); rehearse(HTTP, {idle}, strict=False); rehearse(HTTP, LATE)")
        told = self.run_pytest(0)
        warning = 'toxicap: scenario 0 proxy 0 toxic 0 "latency_downstream": effect on 0 of 1 connection; on 1: its latency and jitter are 0'
        self.assertRegex(told, rf"/test_suite.py:6: UserWarning: {warning}\n")
        self.assertEqual(told.count("UserWarning"), 1)

    def test_arguments(self):
        """Paths count from the module's folder, also those of toxicap.rehearse; hosts may be a dict, and the capture an output."""
        (self.folder / "deep").mkdir()
        (self.folder / "deep/http.pcap").write_bytes(HTTP)
        (self.folder / "deep/late.json").write_text('[{"name": "web", "upstream": "web:80"}]')
        self.suite(
            "deep/test_suite.py",
            paths='rehearse(rehearse("http.pcap", "late.json", {"web": "10.77.0.2"}), pathlib.Path("late.json"), hosts=b"web=10.77.0.2")',
            same='assert rehearse("http.pcap", LATE) == toxicap.rehearse("http.pcap", LATE)[0] == MADE[0]',
        )
        with open(self.folder / "deep/test_suite.py", "a") as module:
            module.write('import toxicap\nMADE = toxicap.rehearse("http.pcap", LATE)\n')
        self.run_pytest(0, "--rootdir", "/")

    def test_closed(self):
        """Seven calls in turn, each a second late: in the open loop they took a second in all, and passed below two."""
        (self.folder / "calls.pcap").write_bytes(calls(7))
        body = """
    for closed in False, True:
        output = rehearse("calls.pcap", [{"name": "s", "upstream": "10.0.0.2:80", "toxics": [{"type": "latency", "attributes": {"latency": 1000}}]}], closed=closed)
        assert (output.parsed.connections[0].down.at or 0) // 10**6 == (7 if closed else 1)
        with toxicap.Dialer(output) as dialer, socket.create_connection(("any", 80), timeout=5) as client:
            for _ in range(7):
                client.send(b"?")
                assert client.recv(1) == b"!"
        assert int(dialer.clock.now) == 7
    with pytest.raises(ValueError, match="no connection meets it"):
        toxicap.closed_loop("calls.pcap", [{"name": "s", "upstream": "10.0.0.2:81"}])
    toxicap.closed_loop("calls.pcap", [{"name": "s", "upstream": "10.0.0.2:81"}], strict=False)"""
        self.suite(closed="import socket, toxicap" + body, strict='rehearse("calls.pcap", [{"name": "s", "upstream": "10.0.0.2:81"}], closed=True)')
        told = self.run_pytest(1)
        self.assertIn("no connection meets it; servers of the capture: 10.0.0.2:80", told)
        self.assertNotIn("test_closed", told)

    def test_both_ways_of_reads(self):
        """A client that drops what follows an answer in one read passed by chunks; the fixture `joins` has the test run joined too."""
        (self.folder / "calls.pcap").write_bytes(calls(2))
        (self.folder / "test_suite.py").write_text(
            "import socket, toxicap\ndef test_reads(rehearse, joins):\n"
            "    with toxicap.Dialer(rehearse('calls.pcap', []), joins=joins), socket.create_connection(('any', 80), timeout=5) as client:\n"
            "        client.send(b'??')\n"
            "        assert [client.recv(9), client.recv(9)] == [b'!', b'!']\n"
        )
        told = self.run_pytest(1)
        self.assertIn("test_reads[joined]", told)
        self.assertNotIn("test_reads[chunks]", told)

    @unittest.skipUnless(importlib.util.find_spec("hypothesis"), "hypothesis is not here")
    def test_under_hypothesis(self):
        """The fixture is none of a function, so that @given takes it."""
        (self.folder / "http.pcap").write_bytes(HTTP)
        (self.folder / "test_given.py").write_text(
            "import hypothesis, toxicap.strategies\n"
            "@hypothesis.settings(max_examples=5, deadline=None, database=None)\n"
            "@hypothesis.given(scenario=toxicap.strategies.scenarios(['10.77.0.2:80']))\n"
            "def test_each(rehearse, scenario): assert rehearse('http.pcap', scenario).capture\n"
        )
        self.run_pytest(0, "-W", "ignore::UserWarning")


if __name__ == "__main__":
    unittest.main()

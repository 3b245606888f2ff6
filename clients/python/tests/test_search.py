"""toxicap.search against rows that were worked out by hand (tests/clients/search.json) and known parsers."""
import importlib.util
import json
import os
import pathlib
import pty
import re
import subprocess
import sys
import tempfile
import types
import unittest
from unittest import mock

from toxicap import rehearse, reports
from toxicap.search import feed, feed_prefixes, least_seed, shrink

TOP = pathlib.Path(__file__).resolve().parents[3]

ROWS = json.loads((TOP / "tests/clients/search.json").read_text())
NO_RATE = b'[{"name":"web","upstream":"10.77.0.2:80","toxics":[{"type":"bandwidth","attributes":{"rate":0}}]}]'
GET = (TOP / "samples/http-get.pcap").read_bytes()


def sample(row):
    return (TOP / "samples" / (row["sample"] + ".pcap")).read_bytes()


def finds(row):
    """The predicate of a row: its expression is found in the report of one of the outputs."""
    return lambda outputs: any(re.search(row["finds"], report.decode()) for _, report in outputs)


def lines():
    """A right parser of lines: what is not ended yet is kept."""
    rest = bytearray()

    def take(payload):
        rest.extend(payload)
        *whole, rest[:] = rest.split(b"\n")
        return [bytes(line) for line in whole]

    return take


def forgetful(parse):
    """A wrong parser: it parses each payload as if it were whole."""
    return lambda: parse


class Search(unittest.TestCase):
    def test_rows(self):
        for row in ROWS:
            capture, hosts, texts = sample(row), row["hosts"].encode(), [json.dumps(scenario).encode() for scenario in row["scenarios"]]
            with self.subTest(row["row"]):
                self.assertEqual(least_seed(capture, texts, hosts, finds(row), row["below"], strict=False), row["seed"])
            if row.get("smallest"):
                with self.subTest(row["row"], smallest=True):
                    text, seed = shrink(capture, texts[0], finds(row), hosts, row["below"], strict=False)
                    self.assertEqual(json.loads(text), row["smallest"])
                    self.assertEqual(seed, row["seed"])

    def test_wrong_uses(self):
        def raises(line, call, *arguments):
            with self.subTest(line), self.assertRaises(ValueError) as raised:
                call(*arguments)
            self.assertEqual(getattr(raised.exception, "line", str(raised.exception)), line)

        def holds(outputs):
            return True

        for below in 0, -1, 2**64 + 1:
            raises(f"below {below} is not from 1 to 2^64", least_seed, GET, [b"[]"], b"", holds, below)
            raises(f"below {below} is not from 1 to 2^64", shrink, GET, b"[]", holds, b"", below)
        for seed in -1, 2**64:
            raises(f"the seed {seed} is not from 0 to 2^64 - 1", rehearse, GET, [b"[]"], b"", seed)
        raises("refused 10 NotJson scenario 1", least_seed, GET, [b"[]", b"["], b"", holds, 1)
        raises("refused 10 NotJson scenario 0", shrink, GET, b"[", holds)
        raises("refused 19 AttributeRange scenario 0 proxy 0 toxic 0", shrink, GET, NO_RATE, holds)
        raises("the scenario does not fail under the seeds below 3: there is nothing to shrink; a larger `below` tries more",
               shrink, GET, b"[]", lambda outputs: False, b"", 3)
        raises("the scenario `[]`, without toxics, fails too: there is nothing to shrink; make `fails` false for what was recorded",
               shrink, GET, json.dumps(ROWS[0]["scenarios"][0]).encode(), holds)
        with self.assertRaisesRegex(TypeError, "^scenario: a path, bytes or a list of dicts is expected"):
            shrink(GET, 5, holds)
        self.assertEqual(least_seed(GET, [b"[]"], b"", holds, 2**64), 0)

    def test_a_predicate_that_raises(self):
        """An exception is a failure, and shown; what pytest's `fail` raises is one too; what ends a run is none."""

        class Failed(BaseException):
            pass

        def raises(error):
            def predicate(outputs):
                if outputs[0].report.count(b" down 50/216/0 close"):
                    raise error

            return predicate

        scenario = json.dumps(ROWS[2]["scenarios"][1]).replace("20000", "500000").encode()
        limited = least_seed(GET, [scenario], b"", lambda outputs: b" down 50/" in outputs[0].report, 20)
        with self.assertLogs("toxicap") as shown:
            self.assertEqual(least_seed(GET, [scenario], b"", raises(AssertionError("cut")), 20), limited)
            smallest, seed = shrink(GET, scenario, raises(ValueError("refused 19 AttributeRange")), below=limited + 1)
        self.assertEqual(json.loads(smallest)[0]["toxics"], [{"type": "limit_data", "attributes": {"bytes": 50}}])
        told = [f"seed {limited}: the predicate raised AssertionError: cut", f"seed {seed}: the predicate raised ValueError: refused 19 AttributeRange"]
        self.assertEqual([record.getMessage() for record in shown.records], told)
        with mock.patch.dict(sys.modules, pytest=types.SimpleNamespace(fail=types.SimpleNamespace(Exception=Failed))), self.assertLogs("toxicap"):
            self.assertEqual(least_seed(GET, [scenario], b"", raises(Failed()), 20), limited)
        for error in KeyboardInterrupt, Failed:
            with self.assertRaises(error):
                least_seed(GET, [scenario], b"", raises(error()), 20)

    def test_a_predicate_with_a_fault(self):
        """Errors of programming end the search, where they were found as a seed before, unless they are asked for."""
        for error in NameError, AttributeError, TypeError, ImportError, ModuleNotFoundError:

            def predicate(outputs):
                raise error("at fault")

            for search in (lambda **more: least_seed(GET, [[]], b"", predicate, 9, **more), lambda **more: shrink(GET, [], predicate, **more)):
                with self.assertRaisesRegex(error, "^at fault$"):
                    search()
            with self.assertLogs("toxicap"):
                self.assertEqual(least_seed(GET, [[]], b"", predicate, 9, any_error=True), 0)
            with self.assertRaisesRegex(ValueError, f"fails too .{error.__name__}: at fault.: there is nothing"):
                shrink(GET, [], predicate, any_error=True)

    def test_strict(self):
        """A scenario that can do nothing is no scenario to search."""
        idle = [{"name": "web", "upstream": "10.77.0.2:8080"}]
        for search in least_seed, shrink:
            words = (GET, [idle], b"", bool, 9) if search is least_seed else (GET, idle, bool)
            with self.assertRaisesRegex(ValueError, "no connection meets it(.|\n)*strict=False takes"):
                search(*words)
        self.assertEqual(least_seed(GET, [idle], b"", bool, 9, strict=False), 0)

    def test_seeds_by_itself(self):
        """Without `below` a failing seed that is not 0 is found."""
        [row] = [row for row in ROWS if row["row"] == "one Redis session of three is late: the toxicity stays"]
        text, seed = shrink(sample(row), json.dumps(row["scenarios"][0]).encode(), finds(row), row["hosts"].encode())
        self.assertEqual((json.loads(text), seed), (row["smallest"], row["seed"]))

    def test_calls_of_the_predicate(self):
        """It is called once for equal outputs, and not for toxics that have no effect."""
        web, calls, counts = json.loads(NO_RATE)[0], [], []

        def is_cut(outputs):
            calls.append(outputs)
            return b" down 50/" in outputs[0].report

        for idle in 0, 3:
            late = [{"type": "latency", "name": f"idle {number}"} for number in range(2 * idle)]
            web["toxics"] = [*late[:idle], {"type": "limit_data", "attributes": {"bytes": 50}}, *late[idle:]]
            text, seed = shrink(GET, json.dumps([web, {"name": "idle", "upstream": "10.77.0.9:1"}]).encode(), is_cut, below=3, strict=False)
            self.assertEqual([proxy["toxics"] for proxy in json.loads(text)], [[{"type": "limit_data", "attributes": {"bytes": 50}}]])
            self.assertEqual(len(calls), len({outputs[0] for outputs in calls}))
            counts.append(len(calls))
            calls.clear()
        self.assertEqual(*counts)

    def test_progress(self):
        """After a second a terminal shows the seed, and nothing else does."""
        program = """import sys, time
from toxicap.search import least_seed
least_seed(open(sys.argv[1], "rb").read(), [b'[{"name":"a","upstream":"10.77.0.2:80","toxics":[{"type":"latency","attributes":{"jitter":99}}]}]'],
    b"", lambda outputs: time.sleep(0.6), 4)"""
        ours, theirs = pty.openpty()
        command = [sys.executable, "-B", "-c", program, str(TOP / "samples/http-get.pcap")]
        options = {"check": True, "timeout": 100}
        subprocess.run(command, stderr=theirs, **options)
        self.assertRegex(os.read(ours, 10000), rb"\rrehearsal [34]: seed [23] below 4\x1b\[K\r\x1b\[K$")
        told = []
        least_seed(GET, [[]], b"", bool, 1, show=told.append)
        self.assertEqual(told, ["rehearsal 1: seed 0 below 1"])
        self.assertEqual(subprocess.run(command, stderr=subprocess.PIPE, **options).stderr, b"")
        os.close(ours)
        os.close(theirs)


@unittest.skipUnless(importlib.util.find_spec("hypothesis"), "hypothesis is not here")
class Strategies(unittest.TestCase):
    def setUp(self):
        folder = tempfile.TemporaryDirectory()
        self.addCleanup(folder.cleanup)
        stored = mock.patch.dict(os.environ, HYPOTHESIS_STORAGE_DIRECTORY=folder.name)
        stored.start()
        self.addCleanup(stored.stop)

    def test_scenarios(self):
        """Each scenario is taken, each type occurs, and what fails is made smaller."""
        import hypothesis
        from toxicap.strategies import MOST, scenarios

        found, strategy = set(), scenarios(["10.77.0.2:80", "redis:6379"], toxics=8)
        shop = sample({"sample": "shop"})

        @hypothesis.settings(max_examples=50, deadline=None, database=None, suppress_health_check=list(hypothesis.HealthCheck))
        @hypothesis.given(strategy)
        def each_is_taken(scenario):
            reports(shop, [json.dumps(scenario).encode()], b"redis=10.77.0.3")
            found.update(toxic["type"] for proxy in scenario for toxic in proxy["toxics"])

        each_is_taken()
        self.assertEqual(found, set(MOST))
        smallest = hypothesis.find(strategy, lambda scenario: any(toxic["attributes"].get("bytes", 0) > 6 for toxic in scenario[1]["toxics"]))
        toxics = [toxic for proxy in smallest for toxic in proxy["toxics"]]
        self.assertIn({"bytes": 7}, [toxic["attributes"] for toxic in toxics])
        self.assertLess(len(toxics), 4)  # of up to 32: hypothesis leaves one over now and then

    def test_wrong_uses(self):
        from toxicap.strategies import scenarios

        for options in {"types": ["latencyy"]}, {"toxics": 9}:
            with self.assertRaises(ValueError):
                scenarios(["10.77.0.2:80"], **options)


class Prefixes(unittest.TestCase):
    def test_right_parsers(self):
        self.assertEqual(feed(lines, [b"+O", b"K\n:1", b"\n:2"]), [b"+OK", b":1"])
        for stream in b"", b"\n", b"+OK\n:1234\n", b"+OK\n:12":
            self.assertIsNone(feed_prefixes(lines, stream))

    def test_wrong_parsers(self):
        def in_numbers(payload):
            return [int(digits) for digits in re.findall(rb"[0-9]+", payload)]

        def to_line_feed(payload):
            return [payload[: payload.index(b"\n")]]

        self.assertEqual(feed_prefixes(forgetful(bytes.splitlines), b"+OK\n:1\n"), (1, [b"+", b"OK", b":1"]))
        self.assertEqual(feed_prefixes(forgetful(lambda payload: payload.split(b"\n")[:-1]), b"+OK\n"), (1, [b"OK"]))
        self.assertEqual(feed_prefixes(forgetful(in_numbers), b"7 12 "), (3, [7, 1, 2]))
        self.assertEqual(feed_prefixes(forgetful(bytes.splitlines), b"1\n"), (1, [b"1", b""]))
        size, error = feed_prefixes(forgetful(to_line_feed), b"+OK\n")
        self.assertEqual((size, type(error)), (1, ValueError))
        with self.assertRaises(ValueError):
            feed_prefixes(forgetful(to_line_feed), b"+OK")

    def test_key(self):
        """Messages are compared as the key gives them: here parts of a body come as they are."""
        self.assertEqual(feed_prefixes(forgetful(lambda payload: [payload]), b"body"), (1, [b"b", b"ody"]))
        self.assertIsNone(feed_prefixes(forgetful(lambda payload: [payload]), b"body", key=b"".join))
        self.assertEqual(feed_prefixes(forgetful(lambda payload: [payload[:2]]), b"body", key=b"".join), (1, [b"b", b"od"]))


if __name__ == "__main__":
    unittest.main()

"""Arguments of each kind, scenarios as Python makes them, reports as data, samples, and errors that name what is expected."""
import csv
import io
import json
import pathlib
import subprocess
import unittest

import toxicap
from toxicap import Output, delivered, parse_report, proxy, rehearse, reports, sample, toxic
from toxicap._known import KNOWN, REQUIRED

TOP = pathlib.Path(__file__).resolve().parents[3]

SHOP = TOP / "samples/shop.pcap"
SLOW = TOP / "examples/slow-database.json"
HOSTS = {"redis": "10.77.0.3"}
LINES = b"redis=10.77.0.3\n"


class Arguments(unittest.TestCase):
    def test_kinds(self):
        """Bytes, paths, lists of dicts and outputs give what bytes give."""
        capture, text = SHOP.read_bytes(), SLOW.read_bytes()
        expected, proxies = rehearse(capture, [text], LINES, 7), json.loads(text)
        for source in str(SHOP), SHOP, bytearray(capture), memoryview(capture), Output(capture, b""):
            self.assertEqual(rehearse(source, [text], LINES, 7), expected)
        for scenarios in text, SLOW, str(SLOW), proxies, [proxies], (tuple(proxies),), [SLOW], iter([text]), memoryview(text), [bytearray(text)]:
            self.assertEqual(rehearse(capture, scenarios, LINES, 7), expected)
        self.assertEqual(rehearse(capture, text, HOSTS, 7), expected)
        self.assertEqual(rehearse(expected[0], b"[]")[0].parsed.connections[1].down.delivered, expected[0].parsed.connections[1].down.delivered)
        self.assertEqual(reports(SHOP, [SLOW, [], b"[]"], HOSTS), reports(capture, [text, b"[]", b"[]"], LINES))
        self.assertEqual([rehearse(SHOP, []), len(rehearse(SHOP, [[]])), len(rehearse(SHOP, [[], proxies], HOSTS))], [[], 1, 2])

    def test_wrong_types(self):
        expected = "a path, bytes or a list of dicts"
        for message, *words in (
            ("capture: a path, bytes or an Output is expected, and this is 5, of type int", 5, []),
            ("capture: a path, bytes or an Output is expected, and this is None, of type NoneType", None, []),
            (f"scenarios: a list of scenarios, or one as {expected}, is expected, and this is {{}}, of type dict", b"", {}),
            (f"scenarios: a list of scenarios, or one as {expected}, is expected, and this is 5, of type int", b"", 5),
            (f"scenarios[1]: {expected} is expected, and this is 5, of type int", b"", [b"[]", 5]),
            (f"scenarios[0]: {expected} is expected, and this is {{}}, of type dict", b"", [{}, b"[]"]),
            ("scenarios[0]: a str is the path of a file; give JSON as bytes or as a list of dicts", b"", ["[]"]),
            ("scenarios: a str is the path of a file; give JSON as bytes or as a list of dicts", b"", ' [{"name": "web"}]'),
            ("scenarios[0]: Object of type set is not JSON serializable", b"", [[{"name": set()}]]),
            ("hosts: a dict or bytes is expected, and this is 'a=10.0.0.1', of type str", b"", [], "a=10.0.0.1"),
            ("seed: a whole number is expected, and this is 1.5, of type float", b"", [], b"", 1.5),
        ):
            for call in rehearse, reports:
                with self.subTest(message), self.assertRaises(TypeError) as raised:
                    call(*words)
                self.assertEqual(str(raised.exception), message)

    def test_files_that_are_not_there(self):
        for words in ("no.pcap", []), (SHOP, "no.json"), (SHOP, [pathlib.Path("no.json")]):
            with self.subTest(words), self.assertRaises(FileNotFoundError):
                rehearse(*words)


class Builders(unittest.TestCase):
    def test_toxics(self):
        self.assertEqual(toxic("latency", latency=100), {"type": "latency", "attributes": {"latency": 100}})
        made = {"type": "bandwidth", "name": "line", "stream": "upstream", "toxicity_ppm": 500000, "attributes": {"rate": 20}}
        self.assertEqual(toxic("bandwidth", rate=20, stream="upstream", toxicity=0.5, name="line"), made)
        for toxicity, member in ((0, {"toxicity": 0}), (1, {}), (1.0, {}), (0.1234567, {"toxicity_ppm": 123457}), (1e-9, {"toxicity_ppm": 0})):
            self.assertEqual(toxic("timeout", toxicity=toxicity), {"type": "timeout", **member, "attributes": {}})

    def test_all_are_taken(self):
        """Each type with the greatest numbers, and with the least ones, twice in each direction: no two have one name."""
        with open(TOP / "docs/toxics.tsv", encoding="utf-8") as table:
            rows = [row for row in csv.DictReader(table, delimiter="\t") if row["toxic"] != "any"]
        self.assertEqual([row["attribute"] for row in rows if row["default"] == "required"], [*REQUIRED])
        for end in "least", "greatest":
            ranges = {kind: {row["attribute"]: row[end] for row in rows if row["toxic"] == kind} for kind in KNOWN}
            self.assertEqual([*map(list, ranges.values())], [*KNOWN.values()])
            ranges["slicer"]["size_variation"] = 0
            for kind, attributes in ranges.items():
                attributes = {name: int(number) for name, number in attributes.items()}
                both = [toxic(kind, stream=stream, **attributes) for stream in ("upstream", "downstream", None, "upstream")]
                [output] = rehearse(SHOP, [proxy("10.77.0.2:80", *both)])
                self.assertEqual(output.parsed.connections[1].proxy, 0)

    def test_proxies(self):
        self.assertEqual(proxy("10.77.0.2:80"), {"name": "10.77.0.2:80", "upstream": "10.77.0.2:80", "toxics": []})
        self.assertEqual(proxy("a:1", name="web", enabled=False), {"name": "web", "upstream": "a:1", "enabled": False, "toxics": []})
        first = toxic("latency")
        names = [each.get("name") for each in proxy("a:1", first, first, toxic("latency", name="latency_downstream_2"), first)["toxics"]]
        self.assertEqual([names, first], [[None, "latency_downstream_3", "latency_downstream_2", "latency_downstream_4"], toxic("latency")])

    def test_wrong_uses(self):
        for kind, message, call in (
            (ValueError, "there is no toxic 'latncy': there are " + ", ".join(KNOWN), lambda: toxic("latncy")),
            (TypeError, "a toxic latency has no rate: it has latency, jitter, and stream, toxicity and name", lambda: toxic("latency", rate=1)),
            (TypeError, "a toxic slicer wants average_size", lambda: toxic("slicer")),
            (ValueError, "the toxicity 2 is not from 0 to 1", lambda: toxic("latency", toxicity=2)),
            (ValueError, "the toxicity '1' is not from 0 to 1", lambda: toxic("latency", toxicity="1")),
            (TypeError, "a toxic is a dict, as toxic() makes it, and this is 'latency'", lambda: proxy("a:1", "latency")),
        ):
            with self.subTest(message), self.assertRaises(kind) as raised:
                call()
            self.assertEqual(str(raised.exception), message)


class Data(unittest.TestCase):
    def test_reports(self):
        """What tools/report tells in JSON, of outputs with each kind of an end, a VLAN, and a proxy or none."""
        cut = proxy("10.77.0.3:6379", toxic("limit_data", bytes=100))
        scenarios = [[], [proxy("10.77.0.2:80", enabled=False)], [cut, proxy("10.77.0.2:80", toxic("reset_peer", timeout=2))]]
        vlan, torn = tagged(SHOP.read_bytes()), SHOP.read_bytes()[:9000]
        outputs = [*rehearse(SHOP, scenarios), *rehearse(vlan, scenarios[2]), *rehearse(torn, b"[]")]
        ends = set()
        for output in outputs:
            told = subprocess.run([TOP / "tools/report"], input=output.report, stdout=subprocess.PIPE, check=True).stdout
            scenario, connections, *lines = [json.loads(line) for line in told.splitlines()]
            parsed = output.parsed
            self.assertEqual({**parsed.counts._asdict(), "scenario": parsed.scenario, "line": "connections"}, {**scenario, **connections})
            found = [{**each._asdict(), "up": each.up._asdict(), "down": each.down._asdict()} for each in parsed.connections]
            self.assertEqual([{"line": "connection", "scenario": parsed.scenario, **each} for each in found], lines)
            ends |= {side.end for each in parsed.connections for side in (each.up, each.down)}
        self.assertEqual(ends, {"open", "fin", "close", "reset", "refused"})
        self.assertEqual(outputs[3].parsed.connections[0].vlan, 7)

    def test_what_an_output_knows(self):
        """Its capture, also by a path, so that it knows what was recorded; an output of stored files does not."""
        slow = [proxy("10.77.0.2:80", toxic("latency", latency=100))]
        for source in SHOP, SHOP.read_bytes(), rehearse(SHOP, [[]])[0]:
            [output] = rehearse(source, slow)
            self.assertEqual(output.untouched, rehearse(source, b"[]")[0])
            lines = delivered(output)[1]
            self.assertEqual([lines.number, lines.server, *lines.recorded()], [1, "10.77.0.2:80", *delivered(output.untouched)[1]])
            self.assertEqual([lines, delivered(output.capture)[1].recorded()], [delivered(output.capture)[1]] * 2)
        stored = Output(*output)
        with self.assertRaisesRegex(ValueError, "^this output was made of stored files, and does not know its capture"):
            stored.untouched
        self.assertEqual(delivered(stored, output.untouched)[1].recorded(), lines.recorded())
        with self.assertRaisesRegex(TypeError, "^this int is no capture: give an Output, or the bytes of one$"):
            delivered(5)

    def test_names(self):
        """What the package has is in `dir` and in `__all__`, also what is loaded later, and `closed_loop` stays a function."""
        import toxicap.closed_loop as module

        names = {"Dialer", "Loop", "Player", "closed_loop", "run", "streams"}
        self.assertEqual([names - set(toxicap.__all__), names - set(dir(toxicap))], [set(), set()])
        self.assertIs(module, toxicap.closed_loop)
        self.assertEqual(toxicap.closed_loop(SHOP, b"[]").recording, SHOP.read_bytes())
        with self.assertRaises(AttributeError):
            toxicap.none_such

    def test_no_reports(self):
        [report] = reports(SHOP, b"[]")
        for text, message in (
            (b"", "this is in no report of toxicap: ''"),
            (report.replace(b"fin", b"fin+"), "this is in no report of toxicap: '3042/3042/0 fin"),
            (report[: report.rindex(b"\n3 ") + 1], "the report is torn: it has 3 of 4 connections"),
            (report[:-1], "the report is torn: its last line has no line feed"),
        ):
            with self.subTest(message), self.assertRaises(ValueError) as raised:
                parse_report(text)
            self.assertEqual(str(raised.exception)[: len(message)], message)

    def test_samples(self):
        self.assertEqual([sample("shop.pcap"), sample("http-get.pcap")], [SHOP.read_bytes(), (TOP / "samples/http-get.pcap").read_bytes()])
        with self.assertRaises(ValueError) as raised:
            sample("x")
        self.assertEqual(str(raised.exception), "there is no sample 'x': there are http-get.pcap, shop.pcap")

    def test_bytes_of_a_line(self):
        [output] = rehearse(SHOP, b"[]")
        for up, down in delivered(output.capture):
            for line in up, down:
                self.assertEqual(line.data, b"".join(chunk for _, chunk in line.chunks))
        self.assertEqual(len(delivered(output.capture)[1][1].data), output.parsed.connections[1].down.delivered)


def tagged(capture):
    """The capture with a tag of VLAN 7 in each frame."""
    made, place = io.BytesIO(), 24
    made.write(capture[:24])
    while place < len(capture):
        length = int.from_bytes(capture[place + 8 : place + 12], "little")
        frame = capture[place + 16 : place + 16 + length]
        made.write(capture[place : place + 8] + (length + 4).to_bytes(4, "little") * 2 + frame[:12] + b"\x81\x00\x00\x07" + frame[12:])
        place += 16 + length
    return made.getvalue()


if __name__ == "__main__":
    unittest.main()

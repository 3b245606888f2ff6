"""Finds the planted bug of a small parser in three ways: find_bug.py CAPTURE, where samples/shop.pcap is the capture."""
import sys

from toxicap import delivered, proxy, rehearse, toxic
from toxicap.search import feed, feed_prefixes, least_seed, shrink

HOSTS = {"redis": "10.77.0.3"}
LATE, CUT = toxic("latency", latency=150, jitter=50), toxic("slicer", average_size=40, size_variation=20, delay=3000, toxicity=0.5)
SLOW = toxic("bandwidth", rate=20)
LINE = [proxy("10.77.0.2:80", SLOW, name="web"), proxy("redis:6379", LATE, SLOW, CUT, name="redis")]


def replies():
    """A new parser of Redis's replies: lines, and texts after a line with their length. It takes bytes, and gives the replies that are whole."""
    rest = bytearray()

    def take(payload):
        rest.extend(payload)
        whole = []
        while (end := rest.find(b"\r\n")) >= 0:
            start = 0
            if rest[:1] == b"$":
                start, end = end + 2, end + 2 + int(rest[1:end])
            if len(rest) < end:  # the planted bug: the two bytes after a text may not be there yet, so it has to be end + 2
                break
            whole.append(bytes(rest[start:end]))
            del rest[: end + 2]
        return whole

    return take


def received(outputs):
    """What the client of connection 2 gets, which asks for a basket of 3,000 bytes."""
    up, down = delivered(outputs[0])[2]
    return down


def differ(outputs):
    """Whether the parser gives other replies for the chunks than for all their bytes at once."""
    down = received(outputs)
    return feed(replies, [chunk for time, chunk in down.chunks]) != feed(replies, [down.data])


def main(capture):
    seed = least_seed(capture, [LINE], HOSTS, differ, below=1000)
    if seed is None:
        sys.exit("no seed below 1000 finds a bug")
    print("least seed", seed)
    scenario, seed = shrink(capture, LINE, differ, HOSTS, below=seed + 1)
    print("seed", seed, "of", scenario.decode())
    size, found = feed_prefixes(replies, received(rehearse(capture, [[]])).data)
    print("prefix of", size, "bytes, then replies of", *map(len, found), "bytes")


if __name__ == "__main__":
    main(sys.argv[1] if len(sys.argv) == 2 else sys.exit("usage: find_bug.py CAPTURE"))

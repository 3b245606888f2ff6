"""Plays the closed loop of a session whose answers queue: played.py TOOL CAPTURE SCENARIO FOLDER. A client waits for each answer of 100 bytes. It has all of
them at most 0.1 seconds before the closed loop has them, and at most a second after; by the open loop it would take seconds longer. If the machine is
busy, it has five tries."""
import pathlib
import socket
import subprocess
import sys
import time

from toxicap import delivered
from toxicap.player import Player


def played(output, untouched, questions):
    """How many seconds the client takes."""
    with Player(output, untouched, limit=60) as player, socket.create_connection(("127.0.0.1", player.port), 60) as client:
        begin = time.monotonic()
        for _ in range(questions):
            client.sendall(b"?")
            client.recv(100, socket.MSG_WAITALL)
        return time.monotonic() - begin


def main(tool, capture, scenario, folder):
    subprocess.run([tool, "--capture", capture, "--scenario", scenario, "--out", folder], check=True)
    output, untouched = (pathlib.Path(folder, name).read_bytes() for name in ("0000.pcap", "0001.pcap"))
    [(up, down)] = delivered(output)
    expected, found = down.chunks[-1][0] / 10**9, []
    while not found or len(found) < 5 and not -0.1 <= found[-1] - expected <= 1:
        found.append(played(output, untouched, len(up.data)))
    print("played" if -0.1 <= found[-1] - expected <= 1 else f"{found} seconds, and {expected} expected")


if __name__ == "__main__":
    main(*sys.argv[1:])

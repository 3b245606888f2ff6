"""Prints the steps of players, as the helper for Python has them: dump_steps.py FOLDER.., each with the output 0000.pcap, and 0001.pcap of the scenario
without toxics. For each a line `== FOLDER`, and for each step CONNECTION NEED CLOSED PAUSE DELAY, and the bytes in hexadecimal or the end."""
import pathlib, sys
from toxicap import delivered
from toxicap._steps import session

for folder in sys.argv[1:]:
    print('==', folder)
    output, untouched = (pathlib.Path(folder, name).read_bytes() for name in ('0000.pcap', '0001.pcap'))
    for lines in delivered(output, untouched):
        for need, closed, pause, delay, what in session(lines).steps:
            print(lines.number, need, ('open', 'closed')[closed], pause, delay, what if isinstance(what, str) else what.hex())

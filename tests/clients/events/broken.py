"""Captures that toxicap did not write, made of an output capture with eight records and of a recording in microseconds: broken.py OUTPUT RECORDING
FOLDER writes each into the folder, and prints what dump.py has to print of them all."""
import pathlib, sys

FAULT = 'no output capture of toxicap: '
HEADER, CUT, OTHER, STAMP = 'it has another file header', 'it is cut, or no TCP segment', "its headers are another's", 'its time is none, or falls back'
NOBODY, NONE, OPENING = '0 connections go on with it', 'toxicap writes no such segment', 'no opening follows its SYN'

output, recording = (pathlib.Path(name).read_bytes() for name in sys.argv[1:3])
folder = pathlib.Path(sys.argv[3])
places = [24]
while places[-1] < len(output):
    places.append(places[-1] + 16 + int.from_bytes(output[places[-1] + 8:places[-1] + 12], 'little'))
assert len(places) == 9
records = [output[start:end] for start, end in zip(places, places[1:])]  # SYN, SYN ACK, ACK, request, two chunks, two FINs


def broken(name, capture, why, number=None):
    path = folder / (name + '.pcap')
    path.write_bytes(capture)
    print('==', path)
    print(FAULT + why if number is None else f'{FAULT}record {number}: {why}')


def of(*numbers): return output[:24] + b''.join(records[number] for number in numbers)


def changed(number, place, new):
    """The output with other bytes at a place of a record: 0 is its stamp, 16 its frame, 30 its IPv4 header, 50 its TCP header, 70 its payload."""
    place += places[number]
    return output[:place] + new + output[place + len(new):]


for length in range(len(output)):
    if length < 24: broken(f'cut-{length}', output[:length], HEADER)
    elif length not in places: broken(f'cut-{length}', output[:length], CUT, max(n for n, place in enumerate(places) if place < length))
broken('cut-after-syn', of(0), OPENING, 0)
broken('cut-after-syn-ack', of(0, 1), OPENING, 0)
broken('recording', recording, HEADER)
broken('recording-under-our-header', output[:24] + recording[24:], OTHER, 0)
broken('pcapng', b'\x0a\x0d\x0d\x0a' + output[4:], HEADER)
broken('highest-byte-first', b'\xa1\xb2\xc3\xd4' + output[4:], HEADER)
broken('link-type-113', output[:20] + b'\x71' + output[21:], HEADER)
broken('unopened', of(3, 4, 5), NOBODY, 0)
broken('repeat', of(0, 1, 2, 3, 3), NOBODY, 4)
broken('gap', of(0, 1, 2, 3, 5), NOBODY, 4)
broken('out-of-order', of(0, 1, 2, 4, 3), STAMP, 4)
broken('opening-twice', of(0, 0, 1, 2), OPENING, 0)
broken('later-syn-ack', changed(1, 4, b'\xff'), STAMP, 2)
broken('second-of-ticks', changed(7, 4, b'\x40\x42\x0f\x00'), STAMP, 7)
broken('original-length', changed(3, 12, b'\xff'), CUT, 3)
broken('arp', changed(3, 28, b'\x08\x06'), OTHER, 3)
broken('identification', changed(3, 34, b'\x00\x01'), OTHER, 3)
broken('hops', changed(3, 38, b'\x3f'), OTHER, 3)
broken('udp', changed(3, 39, b'\x11'), OTHER, 3)
broken('padding', changed(3, 33, b'\x79'), OTHER, 3)
broken('options', changed(3, 62, b'\x60'), OTHER, 3)
broken('window', changed(3, 64, b'\xff\xfe'), OTHER, 3)
broken('another-peer', changed(3, 42, b'\x0a\x4d\x00\x09'), NOBODY, 3)
broken('acknowledges-too-much', changed(4, 58, b'\xff\xff\xff\xff'), NOBODY, 4)
broken('urgent-flag', changed(3, 63, b'\x38'), NONE, 3)
broken('fin-with-bytes', changed(3, 63, b'\x11'), NONE, 3)
broken('short-piece-without-psh', changed(3, 63, b'\x10'), NONE, 3)
broken('bare-acknowledgment', changed(6, 63, b'\x10'), NONE, 6)
broken('after-its-fin', of(0, 1, 2, 3, 4, 5, 6, 6), NOBODY, 7)

"""Has tools/fixtures verify random recipes, in the folder of a project: recipes.py FIXTURES COUNT SEED. Each ends by itself, with no traceback: with
status 0 or 1, or with status 2 and one line on standard error, and nothing on standard output. What is at fault is printed."""
import json
import random
import subprocess
import sys

FIXTURES, COUNT, rng = sys.argv[1], int(sys.argv[2]), random.Random(sys.argv[3])
CAPTURE, SCENARIO = 'captures/shop.pcap', 'scenarios/redis-down.json'
ODD = [None, True, 0, -1, 1.5, 10**30, float('nan'), '', ' ', '\0', '\ud800', '\udc80', '\x1b[2J', 'a\nb', '=', '--help', '..', '/', '/dev/null', '/dev/zero',
       '/proc/self/mem', 'none', 'x' * 300, [], {}, [[]], [{}], ['captures'], {'': ''}, {'redis': None}, {'=': '='}, {'redis\0': '1.1.1.1'}, {'redis': '\ud800'}]


def changed(value):
    """A value of a recipe with one part of it in another shape."""
    kind = rng.random()
    if isinstance(value, list) and value and kind < 0.6:
        return [*value[1:], rng.choice(ODD)]
    if isinstance(value, dict) and value and kind < 0.6:
        key = rng.choice(list(value))
        return {**value, key: changed(value[key])} if kind < 0.5 else {**value, str(rng.choice(ODD)): value[key]}
    return rng.choice(ODD)


for number in range(COUNT):
    recipe = {'captures': [CAPTURE], 'scenarios': [SCENARIO], 'hosts': {'redis': '10.77.0.3'}, 'seed': 0}
    text = json.dumps(changed(recipe)).encode()
    if rng.random() < 0.1: text = rng.choice([b'', b'[' * 100000, b'\xff', text[:-1], b'{"seed": ' + b'9' * 5000 + b'}', b'\xef\xbb\xbf' + text])
    with open('fixtures.json', 'wb') as file: file.write(text)
    ended = subprocess.run([FIXTURES, 'verify'], stdin=subprocess.DEVNULL, capture_output=True, timeout=100)
    lines = ended.stderr.decode().split('\n')
    is_fault = ended.returncode == 2 and ended.stdout == b'' and len(lines) == 2 and lines[0].startswith('fixtures: ') and lines[0].isprintable()
    if not is_fault and (ended.returncode not in (0, 1) or ended.stderr): print(f'  {text[:200]!r}: status {ended.returncode}: {ended.stderr.decode()}')

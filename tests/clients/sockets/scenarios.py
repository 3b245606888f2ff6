"""Writes random scenarios, the same each time: scenarios.py FOLDER COUNT."""
import json, pathlib, random, sys

RANGES = {
    'latency': {'latency': 2000, 'jitter': 400}, 'bandwidth': {'rate': 40}, 'slow_close': {'delay': 3000}, 'timeout': {'timeout': 300},
    'reset_peer': {'timeout': 300}, 'slicer': {'average_size': 700, 'delay': 20000}, 'limit_data': {'bytes': 6000}}
UPSTREAMS = '10.77.0.2:80', '10.77.0.3:6379', '10.0.0.2:6379', '10.0.0.2:7001', '10.0.0.2:7002', '10.0.0.2:7003'
drawn = random.Random(71)


def toxic():
    kind = drawn.choice([*RANGES, 'latency', 'slicer', 'bandwidth'])
    attributes = {name: drawn.randint(1, drawn.choice([3, most])) for name, most in RANGES[kind].items()}
    return {'type': kind, 'stream': drawn.choice(['downstream', 'upstream', 'downstream']), 'attributes': attributes}


for number in range(int(sys.argv[2])):
    proxies = [{'name': upstream, 'upstream': upstream, 'enabled': drawn.random() < 0.9, 'toxics': []} for upstream in UPSTREAMS]
    for proxy in proxies:
        proxy['toxics'] = [{'name': str(place), **toxic()} for place in range(drawn.randint(0, 3))]
    pathlib.Path(sys.argv[1], f'{number:03}.json').write_text(json.dumps(proxies))

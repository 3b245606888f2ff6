"""Facts about refusals and limits: docs/refusals.tsv with the code, the help, hints and the pages."""
import json
import re

from compared import TREE, between, constant, fact, numbers, rows_of, text_of
from toxic_facts import SCHEMA

LIMITS = {  # the constants that a refusal is about
    'ShortHeader': ['pcap_records/src/heading.rt FILE_HEADER_LEN'],
    'RecordTooLong': ['pcap_records/src/reader.rt PACKET_LIMIT'],
    'CaptureTooLong': ['pcap_records/src/heading.rt CAPTURE_LIMIT'],
    'TooMany': ['scenarios/src/proxies.rt PROXY_LIMIT', 'scenarios/src/toxics.rt TOXIC_LIMIT'],
    'TooManyScenarios': ['toxicap/src/reading.rt SCENARIO_LIMIT'],
    'BadToxicity': ['toxic_defs/src/limits.rt MILLION']}
PLACES = {'Nowhere': '-', 'At': 'at', 'Host': 'host', 'After': 'after'}
SCENARIO_FILES = {'scenario': 'scenario', 'proxies': 'scenario proxy', 'upstreams': 'scenario proxy', 'toxics': 'scenario proxy toxic'}


def of_scenario(refusal):
    return refusal['place'].startswith('scenario')


def of_fault_lines(refusals):
    """Numbers, names and places in the code and in the definition."""
    code, specs = text_of('crates/run_files/src/fault_lines.rt'), text_of('crates/run_files/specs/RunFault.antt')
    causes = re.findall(r'Cause::(\w+) => \((\d+), "(\w+)"\)', code)
    faults = re.findall(r'RunFault::(\w+)(?: \{ \w+ \})? => \((\d+), "(\w+)", (\w+)', code)
    for variant, _, name, *_ in causes + faults: fact(f'fault_lines.rt: the name of {variant}', variant == name, name)
    in_code = sorted((int(number), name) for _, number, name, *_ in causes + faults)
    in_specs = sorted((int(number), name) for number, name in re.findall(r'= \((\d+), codes "(\w+)"', specs))
    expected = [(int(each['number']), each['name']) for each in refusals]
    fact('fault_lines.rt: numbers and names', in_code == expected, set(in_code) ^ set(expected))
    fact('RunFault.antt: numbers and names', in_specs == expected, set(in_specs) ^ set(expected))
    places = {name: PLACES.get(place) for _, _, name, place in faults}
    where = {}
    for file, place in SCENARIO_FILES.items():
        for cause in re.findall(r'Cause::(\w+)', text_of(f'crates/scenarios/src/{file}.rt')): where.setdefault(cause, set()).add(place)
    for each in refusals:
        place = each['place']
        if of_scenario(each): found, expected = where.get(each['name']), {place.replace(' [toxic]', ''), place.replace('[toxic]', 'toxic')}
        else: found, expected = places.get(each['name']), place.split()[0]
        fact(f'the place of {each["name"]}', found == expected, found)


def of_errors(refusals):
    """The enums of faults: their variants, and the limits that their comments and texts tell."""
    scenario, run = text_of('crates/scenarios/src/error.rt'), text_of('crates/run_files/src/error.rt')
    causes = re.findall(r'^    (\w+),$', between(scenario, 'pub enum Cause {', '\n}\n'), re.M)
    faults = re.findall(r'^    (\w+)(?: \{[^}]*\})?,$', between(run, 'pub enum RunFault {', '\n}\n'), re.M)
    fact('scenarios/src/error.rt: its causes, in order', causes == [each['name'] for each in refusals if of_scenario(each)], causes)
    fact('run_files/src/error.rt: its faults', set(faults) == {each['name'] for each in refusals if not of_scenario(each)} | {'BadScenario'}, faults)
    for each in refusals:
        for limit in LIMITS.get(each['name'], []):
            value = constant(*limit.split())
            fact(f'{limit} is in the meaning of {each["name"]}', value in numbers(each['means']), value)
        said = re.search(r'((?:    ///.*\n)+)    #\[error\("([^"]*)"\)\]\n    ' + each['name'] + r'\b', scenario + run)
        fact(f'error.rt: {each["name"]}', said)
        if said: of_numbers(f'error.rt: {each["name"]}', each, said[1].replace('///', '') + re.sub(r'\{\w+\}', '', said[2]))


def of_numbers(what, refusal, text):
    """Whether a text about a refusal has no other numbers than its meaning has. Names, commands and links do not count."""
    text, means = (re.sub(r'`[^`]*`|\]\([^)]*\)|UTF-8|\bfrom 0\b|\bseven\b', ' ', each) for each in (text, refusal['means']))
    wrong = [number for number in numbers(text) if number not in numbers(means)]
    fact(f'{what}: no other number', not wrong, wrong)


def of_help_refusals(refusals, help_text):
    lines = re.findall(r'^ *(\d+) (\w+) +(.*)$', between(help_text, 'Refusals:\n', 'Documents:'), re.M)
    fact('--help: the refusals', [line[:2] for line in lines] == [(each['number'], each['name']) for each in refusals])
    for each, (_, _, text) in zip(refusals, lines):
        of_numbers(f'--help: {each["name"]}', each, text)
        fact(f'--help: the limit of {each["name"]}', each['name'] not in LIMITS or numbers(text), text)


def of_remedies(refusals):
    """What helps after a refusal: for each one something, and what the table has of it."""
    code = '\n'.join(map(text_of, ['crates/toxicap_program/src/remedies.rt', *(TREE / 'crates/hints/src').glob('*.rt')]))
    texts = ' '.join(re.findall(r'"((?:[^"\\]|\\.)*)"', code)).replace('\\"', '"').replace('{help}', '--help')
    handled = {'ShortHeader', 'NotJson', 'NotArray', 'BadToxicity'}  # by a last arm, or by the text of a scenario
    handled |= set(re.findall(r'RunFault::(\w+)', code)) - {'BadScenario'} | set(re.findall(r'Cause::(\w+)', code))
    expected = {each['name'] for each in refusals}
    fact('remedies: one for each refusal', expected == handled, expected ^ handled)
    for each in refusals:
        for part in each['remedy'].split('; '): fact(f'remedies: {each["name"]}', part in texts, part)
    proxies, toxics = (constant(*limit.split()) for limit in LIMITS['TooMany'])
    fact('remedies: how many scenarios', f'a run takes {constant(*LIMITS["TooManyScenarios"][0].split())}:' in texts)
    fact('remedies: how many proxies', f'it is the {proxies + 1}th: a scenario has at most {proxies} proxies' in texts)
    fact('remedies: size_variation is below average_size', 'less than "average_size" is expected' in texts)
    fact('remedies: how many toxics', f'a stream has at most {toxics} toxics' in texts)


def of_refusal_page(page, refusals):
    """The rows of a page whose first cell is the line of a refusal, and its remedies: items that begin with the numbers of those that they are for."""
    rows = [(re.fullmatch(r'`(\d+) (\w+)[^`]*`', row[0]), row[1:]) for row in rows_of(page)]
    found = [(line[1], line[2]) for line, _ in rows if line]
    fact(f'{page}: one row for each refusal, in order', found == [(each['number'], each['name']) for each in refusals], found)
    told_of = {each['number']: each for each in refusals}
    for line, rest in rows:
        if line and line[1] in told_of: of_numbers(f'{page}: {line[2]}', told_of[line[1]], ' '.join(rest))
    remedies = re.findall(r'^- \*\*(\d+(?:, \d+)*)\*\*: ((?:.*\n)(?:  .*\n)*)', text_of(page), re.M)
    found = [number for numbers_of, _ in remedies for number in numbers_of.split(', ')]
    fact(f'{page}: one remedy for each refusal', sorted(found) == sorted(told_of), found)
    for numbers_of, text in remedies:
        means = ' '.join(told_of[number]['means'] for number in numbers_of.split(', ') if number in told_of)
        of_numbers(f'{page}: the remedy of {numbers_of}', {'means': means}, text)


# ---- other limits

def of_schema_limits():
    schema = json.loads(text_of(SCHEMA))
    proxies, toxics = (constant(*limit.split()) for limit in LIMITS['TooMany'])
    fact(f'{SCHEMA}: how many proxies', schema['maxItems'] == proxies and numbers(schema['description']) == [proxies], schema['maxItems'])
    field = schema['$defs']['proxy']['properties']['toxics']
    fact(f'{SCHEMA}: how many toxics', [each['maxContains'] for each in field['allOf']] == [toxics] * 2, field['allOf'])
    fact(f'{SCHEMA}: how many toxics, in words', set(numbers(field['description'])) == {toxics}, field['description'])


def of_options(source):
    """The limits that `--help` tells of options, and those of a plan."""
    workers, cut = (constant('command_line/src/options.rt', name) for name in ('MOST_WORKERS', 'MOST_CUT'))
    scenarios, bytes_ = constant(*LIMITS['TooManyScenarios'][0].split()), constant(*LIMITS['CaptureTooLong'][0].split())
    for name, expected in (('WORKERS', [1, workers]), ('CUT', [1, cut]), ('SCENARIO', [scenarios]), ('CAPTURE', [bytes_])):
        found = numbers(between(source, f'const {name}: &str = "', '";'))
        fact(f'--help: the limits of {name}', found == expected, found)
    plan = [constant('job_matrix/src/plans.rt', name) for name in ('WORKER_LIMIT', 'CUT_LIMIT')]
    fact('job_matrix: a plan has the limits of the options', plan == [workers, cut], plan)

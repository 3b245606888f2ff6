"""Facts about toxics, their attributes and fields: docs/toxics.tsv with the code, the help, the schema, the tools and the pages."""
import ast
import json
import re

from compared import UNITS, between, constant, fact, numbers, rows_in, rows_of, table, text_of, units

BELOW = 'below average_size'


def most_of(attribute, where_below):
    """The greatest number of an attribute; where it is only below another attribute, the one that is told there."""
    return where_below if attribute['greatest'] == BELOW else int(attribute['greatest'])


def unit_of(attribute):
    return attribute['unit'].split()[0]


def of_code(toxics, ppm):
    names = ('GREATEST_ATTRIBUTE', 'GREATEST_RATE', 'GREATEST_LIMIT', 'MILLION')
    limits = {name: constant('toxic_defs/src/limits.rt', name) for name in names}
    specs = text_of('crates/toxic_defs/specs/Limits.antt')
    for name, value in limits.items(): fact(f'{name} in specs/Limits.antt', f'\n{name.lower()} = {value}\n' in specs, value)
    fact('the parts of a toxicity', limits['MILLION'] == constant('scenarios/src/toxic_types.rt', 'MILLION') == int(ppm))
    kinds, types = text_of('crates/toxic_defs/src/kinds.rt'), text_of('crates/scenarios/src/toxic_types.rt')
    variants = dict(re.findall(r'"(\w+)" => Some\(ToxicType::(\w+)\)', types))
    fact('toxic_types.rt: the types', list(variants) == list(toxics), list(variants))
    fits, absent = between(kinds, 'pub fn fits', '\n    }\n'), re.search(r'None => Some\((\d+)\)', between(types, 'fn attribute', '\n}\n'))[1]
    for name, attributes in toxics.items():
        variant = variants.get(name)
        fields = re.findall(r'(\w+): u64', between(kinds, f'    {variant} {{', '}'))
        fact(f'kinds.rt: the fields of {name}', fields == [each['attribute'] for each in attributes], fields)
        arm = re.search(rf'Kind::{variant} \{{[^}}]*\}}[^=]*=>(.*?)(?=\n            Kind::|\n        \}})', fits, re.S)
        for attribute in attributes: of_kind(name, attribute, arm[1] if arm else '', limits, absent)
        for field in fields: fact(f'toxic_types.rt reads {field}', f'attribute(toxic, "{field}")' in types)


def of_kind(name, attribute, arm, limits, absent):
    """Whether an attribute is in its range where the code says that its kind fits."""
    field, what = attribute['attribute'], f'kinds.rt: {name}, {attribute["attribute"]}'
    most = re.search(rf'\b{field} <=?\s+(\w+)', re.sub(r'\s+', ' ', arm))
    most = limits.get(most[1], most[1]) if most else None
    fact(f'{what}: the greatest', most == most_of(attribute, 'average_size'), most)
    least = '1' if re.search(rf'0 < {field}\b', arm) or re.search(rf'< {field}\b', arm) else '0'
    fact(f'{what}: the least', attribute['least'] == least, least)
    fact(f'{what}: the default', attribute['default'] == (absent if least == '0' else 'required'), absent)


def of_help(toxics, help_text):
    found, name = {}, ''
    for line in between(help_text, 'What it is\n', '\n\n').splitlines():
        row = re.match(r'  (\w+)? +(\w+) +(\d+) to ([\d^]+)(?: (ms|KB/s|bytes|us))? +(\d+|-) +\S', line)
        fact(f'--help: a row of the table of toxics: {line}', row)
        if not row: continue
        name = row[1] or name
        found[name, row[2]] = row
    expected = [(name, attribute['attribute']) for name, attributes in toxics.items() for attribute in attributes]
    fact('--help: the attributes', list(found) == expected, list(found))
    for attribute in sum(toxics.values(), []):
        row, what = found.get((attribute['toxic'], attribute['attribute'])), f'--help: {attribute["toxic"]}, {attribute["attribute"]}'
        if not row: continue
        fact(f'{what}: range', numbers(f'{row[3]} {row[4]}') == [int(attribute['least']), most_of(attribute, 10**9)], row[0])
        fact(f'{what}: default', row[6].replace('-', 'required') == attribute['default'], row[6])
        fact(f'{what}: unit', UNITS[(row[5] or 'bytes').split('/')[0]] == unit_of(attribute), row[5])
    fact('--help: size_variation is below average_size', 'size_variation is below average_size' in help_text)


SCHEMA = 'examples/scenario.schema.json'


def of_schema(toxics, any_toxic):
    parts = json.loads(text_of(SCHEMA))['$defs']
    fields = parts['toxic']['properties']
    fact(f'{SCHEMA}: the types', fields['type']['enum'] == list(toxics), fields['type']['enum'])
    for attribute in any_toxic: of_field(f'{SCHEMA}: {attribute["attribute"]}', fields.get(attribute['attribute'], {}), attribute)
    for name, attributes in toxics.items():
        own = parts.get(name, {}).get('properties', {})
        fact(f'{SCHEMA}: the attributes of {name}', list(own) == [each['attribute'] for each in attributes], list(own))
        required = [each['attribute'] for each in attributes if each['default'] == 'required']
        fact(f'{SCHEMA}: what {name} requires', parts.get(name, {}).get('required', []) == required, required)
        for attribute in attributes: of_field(f'{SCHEMA}: {name}, {attribute["attribute"]}', own.get(attribute['attribute'], {}), attribute)


def of_field(what, field, attribute):
    """Whether a field of the schema has the range of an attribute, also in words."""
    least, most = int(attribute['least']), most_of(attribute, 10**9 - 1)
    fact(f'{what}: range', (field.get('minimum'), field.get('maximum')) == (least, most), field)
    default = int(attribute['default']) if attribute['default'].isdigit() else None
    fact(f'{what}: default', field.get('default') == default, field)
    text = re.sub(r'\(not \w+\)', '', field.get('description', ''))
    fact(f'{what}: its range in words', {least, most} <= set(numbers(text)), text)
    fact(f'{what}: no other limit in words', not [number for number in numbers(text) if number > 1000 and number != most], text)
    unit = unit_of(attribute)
    if unit in ('milliseconds', 'microseconds'): fact(f'{what}: its unit in words', set(units(text.lower())) == {unit}, text)


def of_tools(toxics):
    """What else holds a list of attributes, and a million."""
    expected = {name: [each['attribute'] for each in attributes] for name, attributes in toxics.items()}
    found = re.search(r'^ATTRIBUTES = (\{.*?\})$', text_of('tests/tools/changed.py'), re.S | re.M)
    fact('tests/tools/changed.py: the attributes of toxics', found and ast.literal_eval(found[1]) == expected)
    fact('clients/python/toxicap/_explain.py: a million', '\nMILLION = 1000000\n' in text_of('clients/python/toxicap/_explain.py'))


def attribute_texts(row, names):
    """What a row says after each attribute in backquotes, up to the next one or a semicolon; one without a range shares that of the next."""
    text = ' | '.join(row)
    places = sorted((text.find(f'`{name}`'), name) for name in names if f'`{name}`' in text)
    ends = [place for place, _ in places[1:]] + [len(text)]
    found, shared = {}, ''
    for (place, name), end in reversed(list(zip(places, ends))):
        own = text[place + len(name) + 2:end].split(';')[0]
        if not numbers(own) and 'below' not in own: own += shared
        found[name] = shared = own
    return found


def of_page(page, toxics):
    rows = rows_of(page)
    for name, attributes in toxics.items():
        names = [each['attribute'] for each in attributes]
        found = [attribute_texts(row[1:], names) for row in rows if f'`{name}`' in row[0]]
        found = [texts for texts in found if any(numbers(text) for text in texts.values())]
        fact(f'{page}: one row with the ranges of {name}', len(found) == 1, len(found))
        for attribute in attributes if found else []:
            of_range(f'{page}: {name}, {attribute["attribute"]}', attribute, found[0].get(attribute['attribute'], ''))


def of_range(what, attribute, text):
    """Whether a text of a page has the range and the unit of an attribute, and no others."""
    found, least = numbers(re.sub(r'`[^`]*`', '', text)), int(attribute['least'])
    own = {least, 1000, most_of(attribute, least)}
    if attribute['greatest'] == BELOW: fact(f'{what}: below average_size', 'below' in text, text)
    else:
        fact(f'{what}: the greatest', int(attribute['greatest']) in found, text)
        fact(f'{what}: the least', least in found or least == 0 and re.search(r'\bup to\b|\bat most\b', text), text)
    fact(f'{what}: no other limit', not [number for number in found if number >= 1000 and number not in own], text)
    fact(f'{what}: no other unit', not set(units(text)) - {unit_of(attribute), 'bytes'}, text)
    fact(f'{what}: its unit', unit_of(attribute) in units(text) + ['bytes'], text)


# ---- fields of proxies and toxics

FILES_OF = {'proxy': ['proxies'], 'toxic': ['toxics', 'toxic_types']}  # the files of crates/scenarios/src that read their fields
FIELD_READ = re.compile(r'\b(?:required_\w+|optional_\w+|is_\w+_or_absent|field)\(\s*(?:value|toxic),\s*"(\w+)"')
SECTIONS = {'docs/use/scenarios.md': ('The toxics',), 'docs/use/rules.md': ('Scenario files',)}
OTHER_WORDS = {'upstream', 'downstream', 'true', 'false', 'null', 'serde_json', 'max', 'fin', 'close', 'refused'}


def tables_under(page, head):
    """The tables of a page whose head is that pattern, each as its rows, these as their cells."""
    found = re.findall(rf'^{head}\n\|[-| ]+\|\n((?:\|.*\n)*)', text_of(page), re.M)
    return [rows_in(rows.splitlines()) for rows in found]


def section_of(page, head):
    """The text of a section of a page, whose heading begins so."""
    found = re.search(rf'^## {head}\b.*?(?=^## |\Z)', text_of(page), re.S | re.M)
    fact(f'{page}: a section {head}', found)
    return found[0] if found else ''


def in_backquotes(text):
    return re.findall(r'`([^`]*)`', text)


def of_fields():
    """The tables of fields in docs/use/rules.md, first of a proxy, then of a toxic."""
    parts, page = json.loads(text_of(SCHEMA))['$defs'], 'docs/use/rules.md'
    tables = tables_under(page, r'\| Field \| Value \|')
    fact(f'{page}: a table of fields for each of {list(FILES_OF)}', len(tables) == len(FILES_OF), len(tables))
    for (what, files), rows in zip(FILES_OF.items(), tables):
        known = set(parts[what]['properties'])
        read = set(FIELD_READ.findall(' '.join(text_of(f'crates/scenarios/src/{file}.rt') for file in files)))
        fact(f'{SCHEMA}: the fields of a {what} are those that the code reads', known == read, known ^ read)
        shown = [name for row in rows for name in in_backquotes(row[0])]
        fact(f'{page}: the fields of a {what}', sorted(shown) == sorted(known), set(shown) ^ known or shown)
        required = [name for row in rows for name in in_backquotes(row[0]) if re.search(r'\brequired\b', row[1])]
        fact(f'{page}: what a {what} requires', sorted(required) == sorted(parts[what]['required']), required)


def of_attribute_names(page, toxics):
    """The types in a page's table of attributes, the attributes of each, and their defaults, the last one of four cells each."""
    tables = tables_under(page, r'\| Type \| Attributes?\b.*')
    fact(f'{page}: one table of attributes', len(tables) == 1, len(tables))
    rows = [(name, row[1:]) for table in tables for row in table for name in in_backquotes(row[0])]
    fact(f'{page}: the types in the table of attributes', sorted(name for name, _ in rows) == sorted(toxics), [name for name, _ in rows])
    for name, cells in rows:
        defaults, shown = cells[3::4], in_backquotes(' '.join(cells))
        if cells[1:]: fact(f'{page}: the defaults of {name}', defaults == [each['default'] for each in toxics.get(name, [])], defaults)
        fact(f'{page}: the attributes of {name}', shown == [each['attribute'] for each in toxics.get(name, [])], shown)


def of_rules(toxics):
    """The items of docs/use/rules.md that say what each toxic does with its attributes, its frame classes (the program sums them up, too), and where
    it says ranges to be."""
    page = 'docs/use/rules.md'
    items = re.findall(r'^- `(\w+)`: (.*(?:\n  .*)*)', section_of(page, 'Toxics'), re.M)
    fact(f'{page}: an item for each toxic', sorted(name for name, _ in items) == sorted(toxics), [name for name, _ in items])
    known = {each['attribute'] for attributes in toxics.values() for each in attributes}
    for name, text in items:
        shown = {word for code in in_backquotes(text) for word in re.findall(r'\w+', code)} & known
        own = {each['attribute'] for each in toxics.get(name, [])}
        fact(f'{page}: the attributes of {name}', shown == own, shown ^ own)
    classes = re.findall(r'^    (\w+)', between(text_of('crates/frame_headers/src/classes.rt'), "pub enum Class<'a> {", '\n}\n'), re.M)
    shown = [row[0] for rows in tables_under(page, r'\| Class \| [^|]* \|') for row in rows if row[0]]
    fact(f'{page}: the frame classes, in order', shown == classes, shown)
    counted = re.findall(r'\(counts\.(\w+), "(\w+)"\)', text_of('crates/toxicap_program/src/summary.rt'))
    fact('summary.rt: the frame classes, in order', [word for _, word in counted] == [name.lower() for name in classes if name != 'Segment'], counted)
    fact('summary.rt: the count of each', all(name.replace('_', '') == word for name, word in counted), counted)
    passed_over = {name.lower() for name in classes} - {'segment'} | {'unopened'}
    for hints, head in (('clients/python/toxicap/_known.py', 'PASSED_OVER = {'), ('clients/go/explain.go', 'passedOver = map[string]string{')):
        named = set(re.findall(r'^\s+"(\w+)":', between(text_of(hints), head, '\n}\n'), re.M))
        fact(f'{hints}: a hint for each frame class', named == passed_over, named ^ passed_over)
    fact(f'{page}: the ranges of attributes are in docs/use/scenarios.md', '[range](scenarios.md#the-toxics)' in section_of(page, 'Scenario files'))


def of_field_words(page, toxics):
    """Whether each word in backquotes of the sections about scenarios is a field, an attribute, a type, or another word of theirs."""
    parts = json.loads(text_of(SCHEMA))['$defs']
    known = OTHER_WORDS | {name for what in FILES_OF for name in parts[what]['properties']} | set(toxics)
    known |= {each['attribute'] for attributes in toxics.values() for each in attributes}
    for section in SECTIONS[page]:
        wrong = {word for word in in_backquotes(section_of(page, section)) if re.fullmatch(r'[A-Za-z]\w*', word)} - known
        fact(f'{page}, {section}: words that are no field', not wrong, wrong)

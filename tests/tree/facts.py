#!/usr/bin/env python3
"""The facts that several files tell, against the two tables that hold them: docs/toxics.tsv (the attributes of toxics, with units and ranges) and
docs/refusals.tsv (numbers, names, places, meanings, and what the program prints on a terminal after them, parts of it with a semicolon between).

Compared with them are the code of the crates, the text of `--help`, what the program prints on a terminal, the tables of docs/use/scenarios.md and
docs/use/refusals.md, the schema of scenario files, and the tools that hold a list of attributes; in docs/use/rules.md the fields of proxies and
toxics with the schema and with those that the code reads, what each toxic does with its attributes, and the frame classes with the code; whether the
names that the pages for developers tell are there, and the command that installs the gate's tools. A row of a table is found by the name in
backquotes in its first cell; a number may be written as 10^9, 1000000000 or 1,000,000,000. An argument is the folder of another copy of the
repository. The last line is `N passed, M failed`."""
import re
import subprocess
import sys

sys.dont_write_bytecode = True  # no folder __pycache__ beside the scripts
from compared import TREE, fact, table, text_of, told
from toxic_facts import SECTIONS, of_attribute_names, of_code, of_field_words, of_fields, of_help, of_page, of_rules, of_schema, of_tools
from refusal_facts import of_errors, of_fault_lines, of_help_refusals, of_options, of_refusal_page, of_remedies, of_schema_limits
from name_facts import of_names, of_places


def main():
    rows, refusals = table('docs/toxics.tsv'), table('docs/refusals.tsv')
    any_toxic, toxics = [each for each in rows if each['toxic'] == 'any'], {}
    for each in rows:
        if each['toxic'] != 'any': toxics.setdefault(each['toxic'], []).append(each)
    for name, attributes in toxics.items():
        does = [bool(each['does']) for each in attributes]
        fact(f'docs/toxics.tsv: what {name} does stands once', does == [True] + [False] * (len(attributes) - 1))
    source = text_of('crates/command_line/src/texts.rt')
    help_text = source.replace('\\\n', '').replace('\\"', '"').replace('\\\\', '\\')
    version = re.search(r' VERSION: &str = "(.*)";', source)[1]
    for client, head in (('python/toxicap/__init__.py', '__version__'), ('rust/Cargo.toml', 'version')):
        fact(f'clients/{client}: the version', f'\n{head} = "{version}"\n' in text_of(f'clients/{client}'))
    of_code(toxics, any_toxic[1]['greatest'])
    of_help(toxics, help_text)
    of_schema(toxics, any_toxic)
    of_tools(toxics)
    of_fault_lines(refusals)
    of_errors(refusals)
    of_help_refusals(refusals, help_text)
    of_remedies(refusals)
    of_refusal_page('docs/use/refusals.md', refusals)
    of_page('docs/use/scenarios.md', toxics)
    of_attribute_names('docs/use/scenarios.md', toxics)
    for page in SECTIONS: of_field_words(page, toxics)
    of_rules(toxics)
    of_fields()
    of_schema_limits()
    of_options(source)
    of_names()
    of_places()
    command = subprocess.run([TREE / '.ci/tools', '--print'], capture_output=True, text=True).stdout
    fact('contributing.md: the command of .ci/tools', command and command in text_of('docs/internals/contributing.md'), command)
    print(f'{sum(told)} passed, {len(told) - sum(told)} failed')
    sys.exit(0 if all(told) else 1)


main()

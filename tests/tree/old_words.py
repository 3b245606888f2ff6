#!/usr/bin/env python3
"""The words that `answer_before` stands on, against those of d578439, the last commit before captures in nanoseconds and frames with a tag.

`old_answers_are_kept` says that captures of then are answered by `answer_before`. Here it is seen that `answer_before` is the `answer` of then: from
it all words of crates/*/specs are followed that its text names, and theirs, and each has to stand in that commit with the same text, in the same crate,
its names those of the same crates. A word of a file `..Before.antt` stands there without its last `_before`, in any crate. Comments and layout
do not count. Two records have one field more today, `vlan`, and have to be those of then without it. How many words there are, and how many of them are
frozen, is fixed here, so that none is lost. Words of the library and types of the code, which the specs name too, are not compared. Where that commit
is not there, as in a shallow clone, nothing is."""
import pathlib, re, shutil, subprocess, sys

TREE, COMMIT = pathlib.Path(__file__).resolve().parents[2], 'd578439'
START = ('old_answers', 'AnswersBefore', 'answer_before')
WORDS, FROZEN = 307, 55
RECORDS = [('frame_headers', 'Frame', 'SegmentFields'), ('segment_writer', 'WrittenSegments', 'WrittenConnection')]
NAME = re.compile(r"[A-Za-z_][A-Za-z0-9_'-]*")
ELSEWHERE = re.compile(r'(std|byteorder)\.|pcap_records\.specs\.Endian\.|\w+\.specs\.declared\.')


def git(*words):
    return subprocess.run(['git', '-C', TREE, *words], capture_output=True, text=True, check=True).stdout


def words_of(text):
    """The words that a file declares, each with its text, and the modules that its other names come from."""
    words, modules, word = {}, {}, None
    for line in re.sub(r'(^|(?<= ))-- .*', '', text, flags=re.M).split('\n'):
        use = re.match(r'(?:pub )?use Rattle\.([\w.]+?)(?:\.\{(.*)\})?$', line)
        declared = re.match(r"(?:abbrev |unfoldable )?(?:pub )?(?:record |data )?([^\s:]+)", line)
        if use:
            for name in (use[2] or use[1].split('.')[-1]).split(', '): modules[name] = use[1].split('.')
            word = None
        elif line[:1] not in ('', ' '):
            word = declared[1]
            words.setdefault(word, '')
        if word and line.strip(): words[word] += ' '.join(line.split()) + '\n'
    return words, modules


def specs(files, text_of):
    found = {}
    for path in files:
        place = re.fullmatch(r'crates/(\w+)/specs/(\w+)\.antt', path)
        if place and place[2] != 'Lib': found[place[1], place[2]] = words_of(text_of(path))
    return found


def followed(now):
    """The words that the first one stands on, with their texts, and the names that are no words of the specs."""
    todo, found, others = [START], {}, set()
    while todo:
        crate, file, word = place = todo.pop()
        if place in found: continue
        words, modules = now[crate, file]
        if word not in words:  # a constructor of a type that stands there, or brought in there and handed on
            types = [each for each in words if f'\n{word} :' in words[each]]
            todo += [(crate, file, each) for each in types]
            if not types and len(modules[word]) == 3: todo.append((modules[word][0], modules[word][2], word))
            elif not types: others.add('.'.join(modules[word] + [word]))
            continue
        found[place] = words[word]
        text = words[word]
        for name in set(re.findall(r'(?<![.\w])' + NAME.pattern + r'(?! = )', text)):  # fields are no words
            module = modules.get(name, [])
            if name in words: todo.append((crate, file, name))
            elif len(module) == 3 and (module[0], module[2]) in now:
                inside = re.findall(name + r'\.(\w+)', text) if name == module[2] else [name]
                todo += [(module[0], module[2], each) for each in inside]
            elif module: others.add('.'.join(module + [name]))
    return found, others


def home(name, crate, file, tree):
    """The crate whose specs have a name, also if another file hands it on, or else the module that it comes from; nothing for a variable."""
    words, modules = tree.get((crate, file), ((name,), {}))
    module = modules.get(name)
    if module: return home(name, module[0], module[2], tree) if len(module) == 3 and module[1] == 'specs' else module
    return crate if name in words else None


def as_then(text, frozen):
    """A text in the words of then: without the last `_before` of each frozen word, and without the field of a VLAN that there is not."""
    text = NAME.sub(lambda name: name[0].removesuffix('_before') if name[0] in frozen else name[0], text)
    return text.replace('vlan = None;\n', '').replace('vlan = None; ', '')


def is_there():
    if not shutil.which('git'): return False
    return subprocess.run(['git', '-C', TREE, 'cat-file', '-e', COMMIT + '^{commit}'], capture_output=True).returncode == 0


def faults():
    """What is at fault with each word, and last with the words as a whole; nothing where it is as it was."""
    now = specs([str(path.relative_to(TREE)) for path in TREE.glob('crates/*/specs/*.antt')], lambda path: (TREE / path).read_text())
    then = specs(git('ls-tree', '-r', '--name-only', COMMIT).split('\n'), lambda path: git('show', f'{COMMIT}:{path}'))
    found, others = followed(now)
    frozen = {word for _, file, word in found if file.endswith('Before')}
    for (crate, file, word), text in sorted(found.items()):
        is_frozen, old = file.endswith('Before'), word.removesuffix('_before') if file.endswith('Before') else word
        text = as_then(text, frozen)
        if (crate, file, word) in RECORDS: text = text.replace('pub vlan : Option ℕ\n', '', 1)
        homes = [home(name, crate, file, now) for name in NAME.findall(text)]
        same = [place for place, (words, _) in then.items() if words.get(old) == text and (is_frozen or place[0] == crate and all(
            was in (None, here) for was, here in zip((home(name, *place, then) for name in NAME.findall(text)), homes)))]
        yield '' if same else f'{crate}/specs/{file}: {word} is not that of {COMMIT}'
    counts = (len(found), len(frozen), len([record for record in RECORDS if record in found]))
    yield '' if counts == (WORDS, FROZEN, len(RECORDS)) else '%d words, %d of them frozen, %d records with a field more' % counts
    yield ', '.join(name + ' is no word of specs' for name in sorted(others) if not ELSEWHERE.match(name))


def main():
    if not is_there():
        print(f'skipped: old words (commit {COMMIT} is not here)\n1 skipped\n0 passed, 0 failed')
        return
    told = list(faults())
    failed = [fault for fault in told if fault]
    for fault in failed: print('failed:', fault)
    print(f'{len(told) - len(failed)} passed, {len(failed)} failed')
    sys.exit(1 if failed else 0)


main()

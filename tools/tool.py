"""What the tools beside toxicap share: how they read a command line, run toxicap, read and write files, and end. To be imported where
sys.dont_write_bytecode is set, so that no folder __pycache__ comes beside them."""
import argparse
import contextlib
import io
import os
import shutil
import signal
import stat
import subprocess
import sys
import tempfile

ENDS = signal.SIGINT, signal.SIGTERM, signal.SIGHUP  # the signals that ask for an end
READ = set()  # which files were read: their devices and inode numbers
NOTES = []  # what `note` was given


def printable(text):
    """A text whose letters are all printable: as it is, or escaped."""
    return ''.join(letter if letter.isprintable() else ascii(letter)[1:-1] for letter in text)


NAME = printable(os.path.basename(sys.argv[0]))


class Fault(Exception):
    """Why a tool stops, as a line, and its status."""

    def __init__(self, line, status=2):
        super().__init__(line)
        self.status = status


class Parser(argparse.ArgumentParser):
    """A command line. The words that its messages repeat are escaped."""

    def __init__(self, about, **words):
        super().__init__(NAME, description=about, formatter_class=argparse.RawDescriptionHelpFormatter, allow_abbrev=False, **words)

    def error(self, message):
        """Tells a fault of the command line, and ends the tool."""
        super().error(printable(message))


# ---- toxicap


def program():
    """The path of toxicap: what TOXICAP names by a path or as a command, else the one of the path, else that of the release which this file lies in."""
    named = os.environ.get('TOXICAP')
    released = os.path.normpath(os.path.join(os.path.realpath(__file__), '../../../../bin/toxicap'))  # this is share/toxicap/tools/tool.py there
    found = shutil.which(named or 'toxicap') or (None if named else shutil.which(released))
    if not found:
        raise Fault(f'there is no program {named or "toxicap"}: put it on the path, or name it in TOXICAP')
    return found


def toxicap(*words, names=()):
    """What a run of toxicap prints. A refusal is a Fault with its line and what helps, in which files get other names: pairs (file, name)."""
    hinting = {**os.environ, 'TOXICAP_HINTS': '1'}
    ended = subprocess.run([program(), *words], stdin=subprocess.DEVNULL, capture_output=True, text=True, errors='replace', env=hinting)
    if ended.returncode:
        line, hint = (ended.stderr.split('\n') + [''])[:2]
        for file, name in names:
            hint = hint.replace(str(file), str(name))
        raise Fault(line + hint.replace('toxicap: ', ': ', 1) or f'{program()} ended with status {ended.returncode}')
    return ended.stdout


# ---- files


def opened(path):
    """A file that is open to be read. What is written later does not replace it."""
    return marked(open(path, 'rb'))


def marked(file):
    """An open file, which what is written later does not replace."""
    READ.add(identity(os.fstat(file.fileno())))
    return file


def identity(state):
    """What a file is known by, whatever path leads to it."""
    return state.st_dev, state.st_ino


def content(path):
    """All bytes of a file."""
    with opened(path) as file:
        return file.read()


def check(folder, names):
    """Stops the tool if files of these names can't be put into a folder."""
    for name in names:
        path = os.path.join(folder, name)
        with contextlib.suppress(FileNotFoundError):
            state = os.stat(path)
            if not stat.S_ISREG(state.st_mode) or not os.access(path, os.W_OK):
                raise Fault(f'{path} is no file that may be replaced: move it away')
            if identity(state) in READ:
                raise Fault(f'{path} is an input, which is not replaced: choose another folder')


def store(folder, files):
    """Puts files into a folder, by name. All are written beside it first, so each comes whole, and none if one can't be written. As with --out of toxicap
    a link is replaced and what it leads to stays, and nothing else is replaced but files that may be written and were not read."""
    check(folder, files)
    work = tempfile.mkdtemp(prefix='toxicap.', suffix='.unfinished', dir=folder)
    try:
        for name, data in files.items():
            with open(os.path.join(work, name), 'xb') as file:
                file.write(data)
        heed(signal.SIG_IGN)
        for name in files:
            os.replace(os.path.join(work, name), os.path.join(folder, name))
    finally:
        shutil.rmtree(work, ignore_errors=True)


# ---- ends


def heed(handler):
    """Has a handler take the signals that ask for an end, except those that whoever started the tool has it ignore."""
    for number in ENDS:
        if signal.getsignal(number) != signal.SIG_IGN:
            signal.signal(number, handler)


def clean_up_at_ends():
    """Has folders of the tool removed too if a signal asks for an end. A tool without folders is better ended at once."""
    heed(stop)


def stop(number, _):
    """Ends the tool by a signal, with what is left to do on the way."""
    heed(signal.SIG_IGN)
    sys.exit(128 + number)


def note(line):
    """Tells a line on standard error, after standard output has taken all."""
    NOTES.append(line)


def say(line):
    """Tells a line on standard error, if that takes it."""
    with contextlib.suppress(AttributeError, OSError):
        sys.stderr.write(f'{NAME}: {printable(line)}\n')
        sys.stderr.flush()


def hand_over(held, output):
    """Copies what was held to standard output."""
    state = os.fstat(output.fileno())
    if stat.S_ISREG(state.st_mode) and identity(state) in READ:
        raise Fault('standard output is an input: write to another file')
    held.seek(0)
    shutil.copyfileobj(held, output.buffer)
    output.flush()


def status_of(main, held, encoding):
    """Runs the main function of a tool; gives its status."""
    if signal.getsignal(signal.SIGINT) is signal.default_int_handler:
        signal.signal(signal.SIGINT, signal.SIG_DFL)
    try:
        if sys.stdout is None:
            raise Fault('standard output is closed')
        output, sys.stdout = sys.stdout, io.TextIOWrapper(held(), encoding or sys.stdout.encoding, 'backslashreplace')
        try:
            status = main() or 0
        except SystemExit as end:
            status = end.code or 0
        except OSError as error:
            error.filename = error.filename or 'a file of TMPDIR, or beside an output'
            raise
        sys.stdout.flush()
        if status < 128:
            hand_over(sys.stdout.buffer, output)
            for line in NOTES:
                say(line)
        return status
    except Fault as fault:
        say(str(fault))
        return fault.status
    except OSError as error:
        say(f'{error.filename or "standard output"}: {error.strerror}')
    except SystemExit as end:
        return end.code
    return 2


def run(main, held=io.BytesIO, encoding=None):
    """Runs the main function of a tool, and ends the process with the status that it gives. What it prints is held, by `held`, and goes to standard
    output after it has ended well: whole, or not at all. A Fault, or an OSError, is a line on standard error; without a status of its own it is 2."""
    os._exit(status_of(main, held, encoding))  # nothing is left to be written

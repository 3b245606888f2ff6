"""Runs a script of Python that kills itself right before its step number N that changes files or starts a program, from 1:

    python3 tests/tools/killed.py N SCRIPT [WORD..]

Where it has fewer steps it ends as without. N 0 kills nothing, and hides what the C library has."""
import ctypes
import os
import runpy
import signal
import sys

STEPS = {'ctypes.dlsym', 'os.mkdir', 'os.remove', 'os.rename', 'os.rmdir', 'shutil.rmtree', 'subprocess.Popen', 'tempfile.mkdtemp'}
left = int(sys.argv[1])


def count_step(event, arguments):
    """Counts an event down, where it is a step."""
    global left
    is_written = event == 'open' and isinstance(arguments[1], str) and arguments[1][0] in 'wxa'
    if event in STEPS or is_written:
        left -= 1
        if left == 0:
            os.kill(os.getpid(), signal.SIGKILL)


if left == 0:
    ctypes.CDLL = lambda name: object()
else:
    sys.addaudithook(count_step)
sys.argv = sys.argv[2:]
runpy.run_path(sys.argv[0], run_name='__main__')

"""The program toxicap: `python -m toxicap --help`."""
import os
import pathlib
import signal
import sys


def main() -> None:
    """Puts the program in the place of this process, with the same arguments. What Python ignores and a program would keep ignoring, as the end of a
    pipe, is as in a shell again."""
    for number in signal.SIGPIPE, signal.SIGXFSZ:
        signal.signal(number, signal.SIG_DFL)
    os.execv(pathlib.Path(__file__).with_name("toxicap-static"), ["toxicap", *sys.argv[1:]])


if __name__ == "__main__":
    main()

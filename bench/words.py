"""The words of a command line, as the tools of this folder read them."""

import argparse
import inspect
import os
import subprocess
import sys
from functools import cache

CRATES = {"roster": "roster_cli", "roster-desk": "roster_desk"}


class Words(argparse.ArgumentParser):
    """Refuses what it doesn't know in one sentence, with status 2. --help prints the tool's docstring."""

    def __init__(self, doc):
        super().__init__(add_help=False, allow_abbrev=False)
        self.doc = inspect.cleandoc(doc)

    def read(self):
        if "--help" in sys.argv[1:]:
            print(self.doc)
            sys.exit()
        return self.parse_args()

    def error(self, message):
        sys.stderr.write(f"bench/{os.path.basename(sys.argv[0])}: {message}; --help tells what it takes.\n")
        sys.exit(2)


def number(least, most=10**9):
    """A reader of numbers from the least to the most."""

    def read(word):
        if not (word.isascii() and word.isdigit() and least <= int(word) <= most):
            raise argparse.ArgumentTypeError(f"'{word}' is no number from {least} to {most}")
        return int(word)

    return read


def numbers_from(least, most):
    """A reader of two numbers from the least to the most with a dash between them, as 4-40."""

    def read(word):
        first, dash, last = word.partition("-")
        if not dash:
            raise argparse.ArgumentTypeError(f"'{word}' are no two numbers with '-' between them")
        numbers = [number(least, most)(it) for it in (first, last)]
        if numbers[0] > numbers[1]:
            raise argparse.ArgumentTypeError(f"'{word}' ends below its begin")
        return numbers

    return read


def one_of(*numbers):
    """A reader of one of these numbers."""

    def read(word):
        if word not in map(str, numbers):
            raise argparse.ArgumentTypeError(f"'{word}' is none of {', '.join(map(str, numbers))}")
        return int(word)

    return read


@cache
def built(name, variable):
    """The program of the name that the environment's variable names, or the proved build of the sources that are here."""
    if os.environ.get(variable):
        return os.environ[variable]
    root = os.path.dirname(os.path.dirname(os.path.abspath(__file__)))
    asks = ["bash", "-c", '. "$1"; take_program "$2"; is_proved', "bench", f"{root}/roster", name]
    if subprocess.run(asks, check=False).returncode != 0:
        tool = os.path.basename(sys.argv[0])
        sys.exit(f"bench/{tool}: there is no proved build of the sources that are here; ./{name} makes it.")
    return f"{root}/crates/{CRATES[name]}/out/{CRATES[name]}"

"""The two proved programs, and what they say of books and reports."""

import hashlib
import os
import subprocess
import sys

# The top of a checkout, or the folder lib/roster of a package.
ABOVE = os.path.dirname(os.path.dirname(os.path.realpath(__file__)))
NAMES = {"roster": ("ROSTER", "roster_cli"), "roster-desk": ("DESK", "roster_desk")}


def fail(why, status=2):
    print(f"error: {why}", file=sys.stderr)
    sys.exit(status)


def sum_of(path):
    """The SHA-256 sum of a file."""
    with open(path, "rb") as it:
        return hashlib.sha256(it.read()).hexdigest()


def script(name):
    """The script of a checkout or of a package that runs the proved program."""
    return f"{ABOVE}/{name}" if os.path.isdir(f"{ABOVE}/crates") else f"{ABOVE}/../../bin/{name}"


def program(name):
    """The path of a proved program: that which the environment names as ROSTER or DESK, or the one that is built or
    packed here. In a checkout without a proved build the script makes it first."""
    variable, crate = NAMES[name]
    if variable in os.environ:
        return os.environ[variable]
    if not os.path.isdir(f"{ABOVE}/crates"):
        place = f"{ABOVE}/{name}"
    else:
        subprocess.run([script(name), "--version"], stdout=subprocess.DEVNULL, check=False)
        place = f"{ABOVE}/crates/{crate}/out/{crate}"
    if not os.access(place, os.X_OK):
        fail(f"there is no proved {name}", 4)
    return place


def version(name):
    """What tells which build a program is: its sources, definitions, sum and toolchain."""
    if NAMES[name][0] in os.environ:
        return f"program {sum_of(os.environ[NAMES[name][0]])}"
    return subprocess.run([script(name), "--version"], capture_output=True, text=True, check=False).stdout


def answer(words, book=b""):
    """What a program answers, and its status."""
    done = subprocess.run(words, input=book, capture_output=True, check=False)
    return done.stdout, done.returncode


class Report:
    """What a report or a plan says. Who has which pairing, cost, bound, and what is open."""

    def __init__(self, text):
        self.word, self.cost, self.bound, self.open, self.lines = "", None, None, [], {}
        for line in text.splitlines():
            words = line.split()
            if not words:
                continue
            if words[0] in ("ROSTER", "PLAN"):
                self.word = words[0]
            elif words[0] == "COST":
                self.cost = int(words[1])
            elif words[0] == "BOUND":
                self.bound = int(words[1])
            elif words[0] == "CREW":
                self.lines[words[1]] = [it for it in words[7:] if it != "-"]
            elif words[0] == "OPEN":
                self.open = [it for it in words[1:] if it != "-"]

    def is_whole(self):
        return self.word != "" and self.cost is not None


def wrong_with(roster, desk, book, report):
    """Why the roster of a report isn't a legal one of its cost, as the proved programs judge it; nothing if it is."""
    said, status = answer([desk, "assigns", report])
    if status:
        return "its report can't be read"
    with open(book, "rb") as it:
        records = [line for line in it.read().splitlines() if not line.startswith((b"assign,", b'"assign",'))]
    said, status = answer([roster, "check"], b"\n".join([*records, *said.splitlines()]) + b"\n")
    if status:
        return "a check refuses its report"
    with open(report, encoding="utf-8") as it:
        told = Report(it.read())
    lines = [line.split() for line in said.decode().splitlines()]
    if ["COST", str(told.cost)] not in lines:
        return "a check tells another cost"
    broken = [line[1] for line in lines if line[0] == "CREW" and line[2:] != ["OK"]]
    return f"{broken[0]} breaks a rule" if broken else ""

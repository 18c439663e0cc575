"""Each book of a folder solved or planned, side by side, by an engine that exists; each roster checked here."""

import argparse
import contextlib
import fcntl
import glob
import json
import os
import shutil
import signal
import subprocess
import sys
import tarfile
import tempfile
import time

import engines
from books import FILES, Result, books_of, need_folder, place_of, sizes_of, write_whole
from programs import NAMES, fail, program, sum_of, version, wrong_with
from tables import has_tables, make_books

HERE = os.path.dirname(os.path.realpath(__file__))


def words_of(words):
    at = argparse.ArgumentParser(
        prog="roster-airline run",
        description="Solves each book of the folder if its persons have few enough legal sets, and plans the others. What comes of "
        "BOOK.csv lies in out/BOOK. A run that was broken off goes on with what is missing. With --month the folder has tables of a crew "
        "system, and a book of each base and rank is made of them first.",
    )
    at.add_argument("folder", metavar="FOLDER", help="has the books: files that end in .csv; or tables")
    at.add_argument("--month", metavar="YYYY-MM", help="of the tables: its books are made in FOLDER/books/YYYY-MM")
    at.add_argument("--weight", type=int, metavar="UNITS", help="of the books that are made: what each minute costs by which a target is missed")
    at.add_argument("--effort", type=int, choices=range(10), default=5, metavar="N", help="of plans, from 0 to 9 (5)")
    at.add_argument("--engine", choices=("parallel", "slurm"), default="parallel", help="GNU parallel or Slurm (parallel)")
    at.add_argument("--hosts", metavar="FILE", help="a line for each host that GNU parallel reaches by ssh; ':' is this machine")
    at.add_argument("--jobs", type=engines.jobs, metavar="N", help="so many books at a time on each host (one for each processor)")
    at.add_argument("--workers", type=int, metavar="N", help="threads of each book (1, but of the last ones on this machine all)")
    at.add_argument("--quiet", action="store_true", help="tells no progress")
    return at.parse_args(words)


class Run:
    """A run over the books of a folder."""

    def __init__(self, given):
        self.given, self.folder = given, os.path.abspath(given.folder)
        self.names = books_of(self.folder)
        self.engine = engines.ENGINES[given.engine](given)
        self.programs = {name: program(name) for name in NAMES}
        self.sums = {name: sum_of(path) for name, path in self.programs.items()}
        self.versions = {name: version(name) for name in NAMES}
        self.done, self.took, self.told = {}, {}, 0.0
        os.makedirs(f"{self.folder}/out", exist_ok=True)
        # Held as long as this runs.
        self.lock = open(f"{self.folder}/out/joblog", "ab")  # noqa: SIM115
        try:
            fcntl.flock(self.lock, fcntl.LOCK_EX | fcntl.LOCK_NB)
        except BlockingIOError:
            fail(f"another run has {self.folder}", 4)
        self.clean()
        # A name that no other run has: what a killed one still has going on finds its own folder gone.
        self.work = tempfile.mkdtemp(prefix=".roster-", dir=f"{self.folder}/out")

    def clean(self):
        """Takes away what isn't whole, of this run and of those that were killed."""
        for path in glob.glob(f"{glob.escape(self.folder)}/out/.*"):
            shutil.rmtree(path, ignore_errors=True)

    def missing(self):
        """The books of which there is no whole result yet."""
        found = []
        for name in self.names:
            result = Result(self.folder, name)
            if result.is_of(sum_of(f"{self.folder}/{name}.csv"), self.sums, self.given.effort):
                self.done[name] = result
            else:
                found.append(name)
                if result.report:
                    self.took[name] = result.manifest["seconds"]
        return found

    def longest_first(self, names):
        """The books in the order in which they begin: those that an earlier run didn't do, the largest first, and then the
        others, by what they took. So none that takes long is left to the end."""

        def place(name):
            path = f"{self.work}/books/{name}.csv"
            persons, pairings = sizes_of(path)
            return name in self.took, -self.took.get(name, persons * pairings), -os.path.getsize(path)

        return sorted(names, key=place)

    def lay_out(self, names):
        """Puts what a host needs into one folder: the programs, the job and the books."""
        os.makedirs(f"{self.work}/books")
        for name, path in self.programs.items():
            shutil.copy(path, f"{self.work}/{name}")
        shutil.copy(f"{HERE}/job", f"{self.work}/job")
        for name in names:
            shutil.copy(f"{self.folder}/{name}.csv", f"{self.work}/books")
        lines = [f"{name} {self.engine.workers(len(names) - at)}\n" for at, name in enumerate(self.longest_first(names))]
        write_whole(f"{self.work}/names", "".join(lines))

    def take(self):
        """Takes over each archive that is there."""
        for file in sorted(os.listdir(self.work)):
            if file.endswith(".tar") and not file.startswith(".") and file[:-4] in self.names:
                name = file[:-4]
                with contextlib.suppress(tarfile.TarError, ValueError, KeyError):
                    self.take_one(name, f"{self.work}/{file}")
                os.remove(f"{self.work}/{file}")

    def take_one(self, name, archive):
        """Unpacks an archive, judges its roster and puts the result in its place, whole."""
        new = f"{self.folder}/out/.{name}.new"
        shutil.rmtree(new, ignore_errors=True)
        os.makedirs(new)
        with tarfile.open(archive) as tar:
            members = {it.name: it for it in tar.getmembers() if it.isfile()}
            outcome, status, seconds, host = tar.extractfile(members["outcome"]).read().decode().splitlines()[:4]
            for each in {*FILES, "said"} & set(members):
                with open(f"{new}/{each}", "wb") as it:
                    shutil.copyfileobj(tar.extractfile(members[each]), it)
        # The book as the job had it: it may be another one by now.
        book = f"{self.work}/books/{name}.csv"
        why = ""
        if outcome in ("solved", "planned"):
            why = wrong_with(self.programs["roster"], self.programs["roster-desk"], book, f"{new}/report.txt")
        elif outcome == "failed":
            why = f"a program ended with status {status}"
        manifest = {
            "outcome": "failed" if why else outcome,
            "why": why,
            "book": sum_of(book),
            "programs": self.sums,
            "versions": self.versions,
            "effort": self.given.effort,
            "command": self.command_of(outcome, name),
            "host": host,
            "seconds": int(seconds),
            "files": {it: sum_of(f"{new}/{it}") for it in FILES if os.path.isfile(f"{new}/{it}")},
        }
        write_whole(f"{new}/manifest.json", json.dumps(manifest, indent=2) + "\n")
        shutil.rmtree(place_of(self.folder, name), ignore_errors=True)
        os.replace(new, place_of(self.folder, name))
        self.done[name] = Result(self.folder, name)

    def command_of(self, outcome, name):
        """What gets the bytes of the report again."""
        if outcome == "planned":
            return f"roster-desk plan --effort {self.given.effort} {name}.csv"
        return f"roster solve < {name}.csv" if outcome == "solved" else f"roster-desk fault {name}.csv"

    def tell(self, is_last=False):
        """Tells how far it is: on a terminal, one line; elsewhere only the last one."""
        now = time.monotonic()
        if self.given.quiet:
            return
        if not is_last and (now - self.told < 1 or not sys.stderr.isatty()):
            return
        self.told = now
        reports = [it.report for it in self.done.values() if it.report]
        slowest = max(self.done.values(), key=lambda it: it.manifest["seconds"], default=None)
        failed = sum(it.manifest["outcome"] == "failed" for it in self.done.values())
        refused = sum(it.manifest["outcome"] == "refused" for it in self.done.values())
        line = f"{len(self.done)} of {len(self.names)} books, {refused} refused, {failed} failed"
        line += f", {sum(len(it.open) for it in reports)} pairings open"
        if slowest:
            line += f", slowest {slowest.name} {slowest.manifest['seconds']} s"
        print(f"\r\033[K{line}" if sys.stderr.isatty() else line, end="\n" if is_last else "", file=sys.stderr, flush=True)

    def status(self):
        """0 if each book has a roster, 1 if one was refused, 4 if one failed or is missing."""
        outcomes = [it.manifest["outcome"] for it in self.done.values()]
        if "failed" in outcomes or len(self.done) < len(self.names):
            return 4
        return 1 if "refused" in outcomes else 0

    def go(self):
        """Has all that is missing done, and takes it. The status, or 130 if it was broken off."""
        try:
            left = self.missing()
            if left:
                self.lay_out(left)
                self.engine.start(self.work)
                while self.engine.goes_on():
                    time.sleep(0.1)
                    self.take()
                    self.tell()
                self.take()
        except BaseException as end:
            # Nothing breaks off what ends the jobs.
            for each in (signal.SIGINT, signal.SIGTERM, signal.SIGHUP):
                signal.signal(each, signal.SIG_IGN)
            self.engine.stop()
            if not isinstance(end, KeyboardInterrupt):
                raise
            self.take()
            self.tell(is_last=True)
            return 130
        finally:
            self.engine.clean()
            self.clean()
            self.lock.close()
        self.tell(is_last=True)
        for name in self.names:
            why = self.done[name].why() if name in self.done else "no result came back"
            if why:
                print(f"{name}: {why}", file=sys.stderr)
        return self.status()


def main(words):
    given = words_of(words)
    need_folder(given.folder)
    if given.workers not in (None, *range(1, engines.MOST_WORKERS + 1)):
        fail(f"--workers is from 1 to {engines.MOST_WORKERS}")
    if (given.month is not None) != has_tables(given.folder) or (given.weight is not None and given.month is None):
        fail("--month is for a folder with bases.csv, crew.csv, pairings.csv and duties.csv, and --weight goes with it")
    has_all = True
    if given.month is not None:
        given.folder, has_all = make_books(os.path.abspath(given.folder), given.month, given.weight)
    status = Run(given).go()
    return status if has_all else status or 1

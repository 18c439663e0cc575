"""A base that is too large for a book, planned group by group: each group of persons with a share of the pairings is a book
of its own. Groups are drawn anew in each round, which begins with what there is, so no round makes the roster dearer."""

import argparse
import csv
import io
import os
import random
import shutil
import sys
import tempfile

import running
from books import MOST_PAIRINGS, MOST_PERSONS, write_whole
from engines import jobs
from programs import Report, fail
from tables import records_of


class Book:
    """The records of a book that may be larger than a book may be."""

    def __init__(self, path, rows):
        self.rows = rows
        if not self.rows or self.rows[0][0] != "period" or len(self.rows[0]) != 2:
            fail(f"{path} doesn't begin with a month", 1)
        self.month = self.rows[0][1]
        self.base, self.penalty, self.begins, self.duties, self.given = {}, {}, {}, {}, {}
        for at, row in enumerate(self.rows, 1):
            try:
                self.take(row)
            except (IndexError, ValueError, KeyError):
                fail(f"{path}, record {at}: {','.join(row)[:80]}: roster-desk fault tells more of a part of the book", 1)
        self.persons = [row[1] for row in self.rows if row[0] == "crew"]
        self.pairings = [row[1] for row in self.rows if row[0] == "pairing"]

    def take(self, row):
        if row[0] in ("crew", "pairing"):
            self.base[row[0], row[1]] = row[2]
            if row[0] == "pairing":
                self.penalty[row[1]] = int(row[3])
        elif row[0] == "duty":
            self.duties[row[1]] = row[2], row[3]
            if row[2] == "P":
                self.begins.setdefault(row[3], row[5])
        elif row[0] == "assign" and row[2] != "-":
            # Both are there.
            self.given[row[1]] = row[2]
            self.base["pairing", row[1]], self.base["crew", row[2]]

    def part(self, persons, pairings, given):
        """The book of these persons and pairings, with what each of them has to begin with."""
        persons, pairings = set(persons), set(pairings)
        bases = {self.base["crew", it] for it in persons}
        owners = {"P": pairings, "C": persons}
        duties = {it for it, (kind, owner) in self.duties.items() if owner in owners.get(kind, ())}

        def stays(row):
            return {
                "period": lambda: True,
                "weight": lambda: True,
                "base": lambda: row[1] in bases,
                "crew": lambda: row[1] in persons,
                "pairing": lambda: row[1] in pairings,
                "duty": lambda: row[1] in duties,
                "sector": lambda: row[1] in duties,
                "leave": lambda: row[1] in persons,
                "cost": lambda: row[1] in persons and row[2] in pairings,
            }.get(row[0], lambda: False)()

        kept = [row for row in self.rows if stays(row)]
        return kept + [["assign", it, given[it]] for it in self.pairings if it in pairings and it in given]


class Split:
    """A roster of the whole, and how it gets better in rounds."""

    def __init__(self, book, given):
        self.book, self.options, self.given = book, given, dict(book.given)
        self.draw = random.Random(20240601)
        # Each person's lines of a report, as the groups tell them.
        self.lines, self.locked = {}, {}

    def groups(self):
        """Groups of persons of one base, drawn anew: half of the rounds at random, half by who begins something about the
        same time."""
        by_base = {}
        for it in self.book.persons:
            by_base.setdefault(self.book.base["crew", it], []).append(it)
        first = {}
        if self.draw.random() < 0.5 and self.given and self.book.begins:
            since = self.draw.choice(sorted(self.book.begins.values()))
            for pairing, person in self.given.items():
                begins = self.book.begins.get(pairing, "")
                if begins >= since:
                    first[person] = min(first.get(person, "~"), begins)
        found = []
        for base, persons in by_base.items():
            self.draw.shuffle(persons)
            persons.sort(key=lambda it: first.get(it, "~"))
            pairings = sum(self.book.base["pairing", it] == base for it in self.book.pairings)
            number = max(-(-len(persons) // self.options.persons), -(-pairings // (MOST_PAIRINGS * 3 // 4)))
            if not first:
                found += [persons[at::number] for at in range(number)]
            else:
                size = -(-len(persons) // number)
                found += [persons[at : at + size] for at in range(0, len(persons), size)]
        return [it for it in found if it]

    def shares(self, groups):
        """What each group has, and a part of what is open at its base, as far as a book has room."""
        of_person = {person: at for at, group in enumerate(groups) for person in group}
        shares = [[] for _ in groups]
        for pairing, person in self.given.items():
            shares[of_person[person]].append(pairing)
        left = [it for it in self.book.pairings if it not in self.given]
        if len(left) == len(self.book.pairings):
            # At first in order of time, so that each group has some of each day.
            left.sort(key=lambda it: self.book.begins.get(it, ""))
        else:
            self.draw.shuffle(left)
        for pairing in left:
            base = self.book.base["pairing", pairing]
            room = [at for at, group in enumerate(groups) if self.book.base["crew", group[0]] == base and len(shares[at]) < MOST_PAIRINGS]
            if room:
                shares[min(room, key=lambda at: len(shares[at]) / len(groups[at]))].append(pairing)
        return shares

    def round(self, folder):
        """Plans each group from what it has, and takes what comes of it."""
        shutil.rmtree(folder, ignore_errors=True)
        os.makedirs(folder)
        groups = self.groups()
        for at, (persons, pairings) in enumerate(zip(groups, self.shares(groups))):
            write_book(f"{folder}/group-{at + 1:03}.csv", self.book.part(persons, pairings, self.given))
        run = running.Run(running.words_of([folder, *self.options.words]))
        status = run.go()
        if status == 1:
            name = next(name for name, it in run.done.items() if it.manifest["outcome"] == "refused")
            with open(f"{folder}/out/{name}/fault.txt", encoding="utf-8", errors="replace") as it:
                fail(f"the book of a group is refused:\n{it.read().rstrip()}", 1)
        if status:
            sys.exit(status)
        for result in run.done.values():
            self.take(f"{folder}/out/{result.name}/report.txt")

    def take(self, path):
        """Takes what a group's report gives."""
        with open(path, encoding="utf-8") as it:
            text = it.read()
        report = Report(text)
        for line in text.splitlines():
            words = line.split()
            if words[:1] == ["CREW"]:
                self.lines[words[1]] = line
            elif words[:1] == ["LOCKED"]:
                self.locked[words[1]] = line
        for pairing in report.open:
            self.given.pop(pairing, None)
        for person, pairings in report.lines.items():
            self.given.update(dict.fromkeys(pairings, person))
        self.costs[path] = report.cost

    def report(self):
        """The report of the whole: no bound, since none of a group is one of the whole."""
        held = [it for line in self.lines.values() for it in line.split()[7:] if it != "-"]
        left = [it for it in self.book.pairings if it not in self.given]
        if sorted(held + left) != sorted(self.book.pairings):
            fail("a pairing isn't there just once", 4)
        shown = set()
        for path in self.costs:
            with open(path, encoding="utf-8") as it:
                shown.update(Report(it.read()).open)
        cost = sum(self.costs.values()) + sum(self.book.penalty[it] for it in left if it not in shown)
        lines = [f"PLAN {self.book.month}", f"COST {cost}"]
        lines += [self.lines[it] for it in self.book.persons]
        lines += [f"OPEN {' '.join(left) or '-'}"]
        lines += [self.locked[it] for it in self.book.persons if it in self.locked]
        return cost, "".join(f"{it}\n" for it in lines)

    def go(self, folder):
        """All rounds. After each the file `report.txt` of the folder has the best roster so far."""
        text = ""
        for at in range(self.options.rounds):
            self.costs, self.locked = {}, {}
            self.round(f"{folder}/round")
            cost, text = self.report()
            write_whole(f"{folder}/report.txt", text)
            left = sum(it not in self.given for it in self.book.pairings)
            told = f"round {at + 1}: cost {cost}, {left} open, each of {len(self.costs)} groups checked by roster check"
            print(told, file=sys.stderr, flush=True)
        return text


def words_of(words):
    at = argparse.ArgumentParser(
        prog="roster-airline split",
        description="Plans a base that is too large for a book, group by group, and writes one report of it. It has no bound.",
    )
    at.add_argument("book", metavar="BOOK", help="as a book, with more persons and pairings than one may have; or a folder with tables")
    at.add_argument("--month", metavar="YYYY-MM", help="of the tables")
    at.add_argument("--base", metavar="B", help="only this base of the tables")
    at.add_argument("--rank", metavar="R", help="only this rank of the tables")
    at.add_argument("--weight", type=int, metavar="UNITS", help="of the tables: what each minute costs by which a target is missed")
    at.add_argument("--rounds", type=int, default=8, metavar="N", help="how often groups are drawn and planned (8)")
    at.add_argument("--persons", type=int, default=50, metavar="N", help="at most so many a group, up to 128 (50)")
    at.add_argument("--effort", type=int, choices=range(10), default=1, metavar="N", help="of each group's plan (1)")
    at.add_argument("--into", metavar="FOLDER", help="keeps the rounds, and report.txt after each; for Slurm one that all nodes have")
    at.add_argument("--engine", choices=("parallel", "slurm"), default="parallel")
    at.add_argument("--hosts", metavar="FILE", help="as for run")
    at.add_argument("--jobs", type=jobs, metavar="N", help="as for run")
    given = at.parse_args(words)
    if given.rounds < 1 or not 1 <= given.persons <= MOST_PERSONS:
        fail("--rounds is at least 1, and --persons from 1 to 128")
    if os.path.isdir(given.book) != (given.month is not None):
        fail("--month is for a folder with tables")
    if given.month is None and (given.base, given.rank, given.weight) != (None, None, None):
        fail("--base, --rank and --weight go with --month")
    given.words = ["--quiet", "--effort", str(given.effort), "--engine", given.engine]
    for name in ("hosts", "jobs"):
        if getattr(given, name) is not None:
            given.words += [f"--{name}", str(getattr(given, name))]
    return given


def book_of(given):
    """The book of a file, or of the tables of a folder."""
    if given.month is not None:
        rows = records_of(os.path.abspath(given.book), given.month, given.base, given.rank, given.weight)
    else:
        try:
            with open(given.book, encoding="utf-8-sig", newline="") as it:
                rows = [row for row in csv.reader(it) if row]
        except UnicodeDecodeError as error:
            fail(f"{given.book}: {error}", 1)
    return Book(given.book, rows)


def write_book(path, rows):
    """Writes records as a book."""
    text = io.StringIO(newline="")
    csv.writer(text, lineterminator="\n").writerows(rows)
    write_whole(path, text.getvalue())


def main(words):
    given = words_of(words)
    split = Split(book_of(given), given)
    if given.into:
        os.makedirs(given.into, exist_ok=True)
        if given.month is not None:
            write_book(f"{given.into}/book.csv", split.book.rows)
        text = split.go(given.into)
    else:
        with tempfile.TemporaryDirectory(prefix="roster-split-") as folder:
            text = split.go(folder)
    sys.stdout.write(text)
    sys.stdout.flush()
    return 0

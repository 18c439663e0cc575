"""A folder of tables of a crew system, and the books of a month that roster-desk makes of them."""

import csv
import glob
import io
import os
import re
import subprocess
import sys
import tempfile

from books import MOST_PAIRINGS, MOST_PERSONS, write_whole
from programs import fail, program

NEEDED = ("bases.csv", "crew.csv", "pairings.csv", "duties.csv")
# The kinds of a book's records, in an order in which each names only what comes before.
KINDS = ("period", "weight", "base", "crew", "leave", "pairing", "duty", "sector", "cost")
# By which a mistake is told that is only one of size.
OF_SIZE = ", its rows: has "


def has_tables(folder):
    """Whether the folder has the tables that each folder of tables has."""
    return all(os.path.isfile(f"{folder}/{name}") for name in NEEDED)


class Sheet:
    """A table of a folder, which can be written again with another rank in some of its rows."""

    def __init__(self, folder, name):
        self.name = name
        with open(f"{folder}/{name}", encoding="utf-8-sig", errors="surrogateescape", newline="") as it:
            text = it.read()
        text = text.lstrip("\r\n")
        head = re.split("[\\r\\n]", text, maxsplit=1)[0]
        self.separator = max(",;\t", key=head.count)
        self.rows = list(csv.reader(io.StringIO(text, newline=""), delimiter=self.separator))
        self.columns = {cell.strip().upper(): at for at, cell in enumerate(self.rows[0] if self.rows else [])}
        self.rank_at = self.columns.get("RANK", len(self.rows[0]) if self.rows else 0)

    def cell(self, row, column):
        at = self.columns.get(column, len(row))
        return row[at].strip() if at < len(row) else ""

    def has(self, row, base, rank):
        """Whether the row is of the base and the rank, or of any if none is named."""
        its = self.cell(row, "BASE")
        return its != "" and base in (None, its) and rank in (None, self.cell(row, "RANK"))

    def parts(self, base, rank, most):
        """Where the rows of the base and the rank are, in parts of rows that stand for so many records at most."""
        parts, size = [[]], 0
        for at, row in enumerate(self.rows[1:], 1):
            if self.has(row, base, rank):
                count = self.cell(row, "COUNT")
                copies = int(count) if count.isdecimal() else 1
                if size + copies > most:
                    parts.append([])
                    size = 0
                parts[-1].append(at)
                size += copies
        return parts

    def write(self, folder, places, rank):
        """Writes the table into the folder, with this rank in the rows at the places."""
        text = io.StringIO(newline="")
        to = csv.writer(text, delimiter=self.separator, lineterminator="\n")
        places = {0: "RANK", **dict.fromkeys(places, rank)}
        for at, row in enumerate(self.rows):
            if at in places:
                row = row + [""] * (self.rank_at + 1 - len(row))
                row[self.rank_at] = places[at]
            to.writerow(row)
        with open(f"{folder}/{self.name}", "w", encoding="utf-8", errors="surrogateescape", newline="") as it:
            it.write(text.getvalue())


def book_of(folder, month, base, rank, weight):
    """What roster-desk answers that is asked for the book of a base and a rank."""
    words = ["book", f"--month={month}"]
    words += [f"--{word}={value}" for word, value in (("base", base), ("rank", rank), ("weight", weight)) if value is not None]
    if not all(map(str.isprintable, words)):
        fail(f"{folder}/crew.csv: a base or a rank that can't be shown", 1)
    return subprocess.run([program("roster-desk"), *words, folder], capture_output=True, text=True, check=False)


def is_too_large(book):
    """Whether nothing else is wrong with the tables than that a book can't have all of them."""
    mistakes = [line for line in book.stderr.splitlines() if line.startswith("error: ")]
    return book.returncode == 1 and bool(mistakes) and all(OF_SIZE in line for line in mistakes)


def end(told, status):
    print(told.rstrip("\n"), file=sys.stderr)
    sys.exit(status)


def records_of(folder, month, base, rank, weight):
    """The records of the book of a base and a rank; of one that is too large, those of the books of its parts together.
    A part has its persons and pairings by a rank of its own."""
    whole = book_of(folder, month, base, rank, weight)
    if whole.returncode and not is_too_large(whole):
        end(whole.stderr, whole.returncode)
    print("".join(f"{line}\n" for line in whole.stderr.splitlines() if OF_SIZE not in line), end="", file=sys.stderr)
    if not whole.returncode:
        return list(csv.reader(io.StringIO(whole.stdout, newline="")))
    crew, pairings = Sheet(folder, "crew.csv"), Sheet(folder, "pairings.csv")
    ranks = {sheet.cell(row, "RANK") for sheet in (crew, pairings) for row in sheet.rows}
    own = next(name for name in (f"PART{at}" for at in range(len(ranks) + 1)) if name not in ranks)
    records = {}
    with tempfile.TemporaryDirectory(prefix="roster-tables-") as room:
        for path in glob.glob(f"{glob.escape(folder)}/*.csv"):
            if os.path.basename(path) not in (crew.name, pairings.name):
                os.symlink(path, f"{room}/{os.path.basename(path)}")
        for persons in crew.parts(base, rank, MOST_PERSONS):
            crew.write(room, persons, own)
            for flown in pairings.parts(base, rank, MOST_PAIRINGS):
                pairings.write(room, flown, own)
                part = book_of(room, month, base, own, weight)
                if part.returncode:
                    end(part.stderr.replace(f"{room}/", f"{folder}/"), part.returncode)
                records.update(dict.fromkeys(map(tuple, csv.reader(io.StringIO(part.stdout, newline="")))))
    return sorted(map(list, records), key=lambda record: KINDS.index(record[0]))


def name_of(base, rank):
    """The name of a book's file: letters, digits, - and _."""
    text = f"{base}-{rank}" if rank else base
    return "".join(it if it.isascii() and (it.isalnum() or it in "-_") else "-" for it in text)


def make_books(folder, month, weight):
    """Writes the book of each base and rank of the folder into its folder books/MONTH, which is given, and whether all
    of them are there: one that is too large is told and passed over. Nothing is written if there is a mistake in the
    tables, which roster-desk tells."""
    crew = Sheet(folder, "crew.csv")
    parts = list(dict.fromkeys((crew.cell(row, "BASE"), crew.cell(row, "RANK")) for row in crew.rows[1:] if crew.cell(row, "BASE")))
    if not parts:
        # What is wrong with the table, if anything is.
        end(book_of(folder, month, None, None, weight).stderr or f"error: {folder}/crew.csv has no person with a base", 1)
    names = [name_of(*part) for part in parts]
    if len(set(names)) < len(names):
        fail("two bases and ranks of crew.csv would have a book of one name", 1)
    made, told = {}, []
    for name, (base, rank) in zip(names, parts):
        book = book_of(folder, month, base, rank or None, weight)
        told += [line for line in book.stderr.splitlines() if line not in told]
        if is_too_large(book):
            told.append(f"{name} is too large for a book: roster-airline split takes it")
        elif book.returncode:
            end("\n".join(told), book.returncode)
        else:
            made[name] = book.stdout
    print("\n".join(told), end="\n" if told else "", file=sys.stderr)
    if not made:
        sys.exit(1)
    return keep(f"{folder}/books/{month}", made), len(made) == len(parts)


def keep(place, made):
    """Writes the books into the folder, and takes away those of bases and ranks that are there no more."""
    os.makedirs(place, exist_ok=True)
    for path in glob.glob(f"{glob.escape(place)}/*.csv"):
        if os.path.basename(path)[:-4] not in made:
            os.remove(path)
    for name, text in made.items():
        write_whole(f"{place}/{name}.csv", text)
    return place

"""The folder of an airline: its books, and what came of them."""

import csv
import glob
import json
import os
import sys

from programs import Report, fail, sum_of

# A refused book may be anything.
csv.field_size_limit(sys.maxsize)
# What a book may have.
MOST_PERSONS, MOST_PAIRINGS = 128, 512
# Files of a result that a manifest has the sums of.
FILES = ("report.txt", "chart.html", "table.csv", "persons.csv", "limits.txt", "fault.txt")


def need_folder(path):
    """No path is the folder in which the command is given: a script whose variable has nothing means another one."""
    if not path:
        fail("FOLDER wants a path")


def books_of(folder):
    """The names of the folder's books, in order."""
    if not os.path.isdir(folder):
        fail(f"there is no folder {folder}")
    names = sorted(os.path.basename(it)[:-4] for it in glob.glob(f"{glob.escape(folder)}/*.csv"))
    if not names:
        fail(f"{folder} has no books: files that end in .csv")
    for name in names:
        if not all(it.isalnum() or it in "-_." for it in name) or name.startswith((".", "-")):
            fail(f"the book {name}.csv has a name that has more than letters, digits, '-', '_' and '.'")
    return names


def place_of(folder, name):
    """Where what came of a book is kept."""
    return f"{folder}/out/{name}"


class Result:
    """What came of a book, if it is whole: the manifest, and what the report says."""

    def __init__(self, folder, name):
        self.name, self.manifest, self.report = name, None, None
        self.at = at = place_of(folder, name)
        try:
            with open(f"{at}/manifest.json", encoding="utf-8") as it:
                manifest = json.load(it)
            if all(sum_of(f"{at}/{file}") == told for file, told in manifest["files"].items()):
                self.manifest = manifest
                if manifest["outcome"] in ("solved", "planned"):
                    with open(f"{at}/report.txt", encoding="utf-8") as it:
                        self.report = Report(it.read())
        except (OSError, ValueError, KeyError, TypeError):
            self.manifest = None

    def why(self):
        """Why a book has no roster: what failed, or the first fault of one that is refused."""
        if self.manifest["outcome"] != "refused":
            return self.manifest["why"]
        with open(f"{self.at}/fault.txt", encoding="utf-8", errors="replace") as it:
            return it.readline().strip()

    def is_of(self, book, programs, effort):
        """Whether it is whole and came of this book, by these programs and with this effort."""
        return (
            self.manifest is not None
            and self.manifest["outcome"] != "failed"
            and self.manifest["book"] == book
            and self.manifest["programs"] == programs
            and (self.manifest["outcome"] != "planned" or self.manifest["effort"] == effort)
        )


def penalties_of(path):
    """The penalty of each pairing of a book."""
    with open(path, encoding="utf-8", errors="replace", newline="") as it:
        return {row[1]: int(row[3]) for row in csv.reader(it) if row[:1] == ["pairing"] and len(row) > 3 and row[3].isdigit()}


def sizes_of(path):
    """How many persons and pairings a book has."""
    with open(path, encoding="utf-8", errors="replace", newline="") as it:
        kinds = [row[0] for row in csv.reader(it) if row]
    return kinds.count("crew"), kinds.count("pairing")


def write_whole(path, text):
    """Writes a file that is whole at each moment."""
    with open(f"{path}.part", "w", encoding="utf-8") as it:
        it.write(text)
        it.flush()
        os.fsync(it.fileno())
    os.replace(f"{path}.part", path)

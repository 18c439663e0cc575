"""One page, or a table, of what came of the books of a folder."""

import argparse
import csv
import html
import os
import re
import sys

from books import Result, books_of, need_folder, penalties_of, place_of, sizes_of
from programs import fail
from tables import has_tables

COLUMNS = ("BOOK", "OUTCOME", "CREW", "PAIRINGS", "OPEN", "PENALTIES", "COST", "BOUND", "GAP", "NEAREST", "SECONDS", "HOST", "WHY")
SUMS = ("CREW", "PAIRINGS", "OPEN", "PENALTIES", "COST", "BOUND", "GAP", "SECONDS")
STYLE = """body { font: 15px/1.4 sans-serif; margin: 1.5em; color: #1b1f24; }
table { border-collapse: collapse; } th, td { padding: .25em .7em; text-align: right; border-bottom: 1px solid #d5d9de; }
th:first-child, td:first-child, th.t, td.t { text-align: left; } tr.failed td { background: #fbe3df; }
tr.refused td { background: #fdf3d2; } tfoot td { font-weight: bold; border-top: 2px solid #1b1f24; } pre { background: #f3f4f6; padding: .6em; }
"""


# How many limits are told of a book.
NEAREST = 3


def nearest(folder, name):
    """The limits of which somebody has used most, as `limits` tells them, or nothing."""
    try:
        with open(f"{place_of(folder, name)}/limits.txt", encoding="utf-8") as it:
            lines = it.read().splitlines()
    except OSError:
        return ""
    used = [(share, line.split(":")[0]) for line in lines if (share := share_of(line)) is not None]
    used.sort(key=lambda it: -it[0])
    return ", ".join(f"{what} {share:.0%}" for share, what in used[:NEAREST])


def share_of(line):
    """Of a line as `ANNA DUTY7: 55:00 of duty in the 7 days to 2024-03-10 of 60:00, 5:00 left` how much is used. Flight
    of the month and before it are two times."""
    times = [60 * int(hours) + int(minutes) for hours, minutes in re.findall(r"(?<= )(\d+):(\d\d)\b", line)]
    return sum(times[:-2]) / max(times[-2], 1) if len(times) > 2 else None


def row_of(folder, name):
    """What is told of a book, by column."""
    result, book = Result(folder, name), f"{folder}/{name}.csv"
    crew, pairings = sizes_of(book)
    row = dict.fromkeys(COLUMNS, "") | {"BOOK": name, "CREW": crew, "PAIRINGS": pairings}
    if result.manifest is None:
        return row | {"OUTCOME": "missing"}
    row |= {"OUTCOME": result.manifest["outcome"], "SECONDS": result.manifest["seconds"], "HOST": result.manifest["host"]}
    row["WHY"] = result.why()
    if result.report:
        report, penalties = result.report, penalties_of(book)
        bound = report.cost if report.word == "ROSTER" else report.bound
        row |= {"OUTCOME": report.word, "OPEN": len(report.open), "PENALTIES": sum(penalties.get(it, 0) for it in report.open)}
        row |= {"COST": report.cost, "BOUND": bound, "GAP": report.cost - bound, "NEAREST": nearest(folder, name)}
    return row


def sums_of(rows):
    return {it: sum(row[it] for row in rows if row[it] != "") for it in SUMS}


def cell(row, column):
    """A cell of the page. A book with a roster links its chart and its report."""
    value, name = html.escape(str(row[column])), html.escape(row["BOOK"])
    is_text = ' class="t"' if column in ("OUTCOME", "NEAREST", "HOST", "WHY") else ""
    if row["COST"] != "" and column == "BOOK":
        value = f'<a href="out/{name}/chart.html">{name}</a>'
    if row["COST"] != "" and column == "OUTCOME":
        value = f'<a href="out/{name}/report.txt">{value}</a>'
    return f"<td{is_text}>{value}</td>"


def page(rows):
    """The page: what failed and why on top, then a row for each book, and the sums."""
    bad = [row for row in rows if row["COST"] == ""]
    parts = ['<!DOCTYPE html>\n<html lang="en">\n<head>\n<meta charset="utf-8">\n<title>Rosters of an airline</title>\n']
    parts += [f"<style>\n{STYLE}</style>\n</head>\n<body>\n<h1>Rosters of {len(rows)} books</h1>\n"]
    parts += ["<h2>Without a roster</h2>\n<table>\n" if bad else ""]
    parts += [f'<tr class="{row["OUTCOME"]}">{"".join(cell(row, it) for it in ("BOOK", "OUTCOME", "WHY"))}</tr>\n' for row in bad]
    parts += ["</table>\n<h2>All books</h2>\n" if bad else "", "<table>\n<thead>\n<tr>"]
    parts += [f'<th{" class=" + chr(34) + "t" + chr(34) if it in ("OUTCOME", "NEAREST", "HOST", "WHY") else ""}>{it}</th>' for it in COLUMNS]
    parts += ["</tr>\n</thead>\n<tbody>\n"]
    parts += [f'<tr class="{row["OUTCOME"]}">{"".join(cell(row, it) for it in COLUMNS)}</tr>\n' for row in rows]
    sums = dict.fromkeys(COLUMNS, "") | {"BOOK": "all"} | sums_of(rows)
    parts += [f'</tbody>\n<tfoot>\n<tr>{"".join(f"<td>{sums[it]}</td>" for it in COLUMNS)}</tr>\n</tfoot>\n</table>\n']
    return "".join([*parts, "</body>\n</html>\n"])


def main(words):
    at = argparse.ArgumentParser(prog="roster-airline overview", description="Writes one page of HTML of what came of the folder's books.")
    at.add_argument("folder", metavar="FOLDER")
    at.add_argument("--csv", action="store_true", help="a table in place of a page")
    given = at.parse_args(words)
    need_folder(given.folder)
    folder = os.path.abspath(given.folder)
    if has_tables(folder):
        fail(f"{given.folder} has tables: its books lie in {given.folder}/books/YYYY-MM")
    rows = [row_of(folder, name) for name in books_of(folder)]
    if given.csv:
        to = csv.DictWriter(sys.stdout, COLUMNS, lineterminator="\n")
        to.writeheader()
        to.writerows(rows)
    else:
        sys.stdout.write(page(rows))
    sys.stdout.flush()
    return 0

"""Books made of tables, for tests/desk.

`book_of` reads the tables of a folder a second time, on `csv` and `zoneinfo`, and gives the bytes of the book. By it the
example's books are judged, and those of the same tables written in other ways. Tables with mistakes have to be told,
each mistake with its file, line and column, and folders that are broken at random come to no surprise.
"""

import csv
import io
import os
import re
import shutil
from datetime import date, datetime, timedelta, timezone
from zoneinfo import ZoneInfo

ZONES = "/usr/share/zoneinfo"
TABLES = ("bases", "stations", "crew", "pairings", "duties", "sectors", "activities", "leave", "wishes", "flown")
FORM = "%Y-%m-%dT%H:%MZ"


# ---- the second reading


class Folder:
    """The tables of a folder, row by row, as they should be."""

    def __init__(self, folder):
        self.rows = {}
        for table in TABLES:
            path = f"{folder}/{table}.csv"
            self.rows[table] = []
            if os.path.exists(path):
                with open(path, encoding="utf-8", newline="") as file:
                    self.rows[table] = list(csv.DictReader(file))
        self.zones = {row.get("BASE") or row["STATION"]: row["ZONE"] for row in self.rows["stations"] + self.rows["bases"]}
        self.base = {row["PERSON"]: row["BASE"] for row in self.rows["crew"]}

    def at(self, station, text):
        """The instant of a text, by the clocks of the station if it has no offset."""
        read = datetime.fromisoformat(text.replace("Z", "+00:00"))
        return read if read.tzinfo else read.replace(tzinfo=ZoneInfo(self.zones[station]))

    def midnight(self, station, day):
        return datetime(day.year, day.month, day.day, tzinfo=ZoneInfo(self.zones[station]))

    def window(self, station, first):
        """From 35 days before the month to 14 behind it."""
        after = next_month(first)
        return self.midnight(station, first - timedelta(days=35)), self.midnight(station, after + timedelta(days=14))


def next_month(first):
    return date(first.year + first.month // 12, first.month % 12 + 1, 1)


def rule_of(zone):
    """The rule of a zone: the last line of its file."""
    with open(f"{ZONES}/{zone}", "rb") as file:
        return file.read().splitlines()[-1].decode()


def shown(at):
    return at.astimezone(timezone.utc).strftime(FORM)


def minutes(text):
    hours, colon, rest = text.partition(":")
    return int(hours) * 60 + int(rest) if colon else int(text or 0)


def leaves_of(tables, person, first):
    """When the person is away in the window, as pairs of instants: what touches is one."""
    base = person["BASE"]
    begin, end = tables.window(base, first)

    def day(text, more):
        return tables.midnight(base, date.fromisoformat(text) + timedelta(days=more)) if len(text) == 10 else tables.at(base, text)

    away = [(day(row["FROM"], 0), day(row["TO"], 1)) for row in tables.rows["leave"] if row["PERSON"] == person["PERSON"]]
    if person.get("FROM"):
        away.append((begin, day(person["FROM"], 0)))
    if person.get("TO"):
        away.append((day(person["TO"], 1), end))
    joined = []
    for start, stop in sorted((max(start, begin), min(stop, end)) for start, stop in away):
        if start < stop and joined and start <= joined[-1][1]:
            joined[-1] = (joined[-1][0], max(stop, joined[-1][1]))
        elif start < stop:
            joined.append((start, stop))
    return joined


def carried_of(tables, person, first):
    """What was flown before in the year, and in the eleven months before."""
    year = eleven = 0
    for row in tables.rows["flown"]:
        month = date.fromisoformat(row["MONTH"] + "-01")
        before = (first.year - month.year) * 12 + first.month - month.month
        if row["PERSON"] == person:
            year += minutes(row["FLIGHT"]) if before > 0 and month.year == first.year else 0
            eleven += minutes(row["FLIGHT"]) if 1 <= before <= 11 else 0
    return year, eleven


def copies(row):
    count = int(row.get("COUNT") or 1)
    return [f"-{n + 1}" if count > 1 else "" for n in range(count)]


def pairing_records(tables, taken):
    """The records of the pairings of the book, and the time from the first report to the last release of each."""
    duties, records, spans = [], [], {}
    for place, pairing in enumerate(tables.rows["pairings"]):
        own = [row for row in tables.rows["duties"] if row["PAIRING"] == pairing["PAIRING"]]
        times = [(place, tables.at(row["STATION"], row["REPORT"]), tables.at(row.get("END") or row["STATION"], row["RELEASE"]), row) for row in own]
        duties += sorted(times, key=lambda duty: duty[1])
    for name, pairing in taken.items():
        for copy in copies(pairing):
            records.append(["pairing", name + copy, pairing["BASE"], pairing.get("PENALTY") or "1000"])
            for i, (of, report, release, row) in enumerate(duties):
                if tables.rows["pairings"][of] is not pairing:
                    continue
                begin, end = spans.get(name, (report, release))
                spans[name] = (min(begin, report), max(end, release))
                own = (row.get("DUTY") or f"D{i + 1}") + copy
                records.append(["duty", own, "P", name + copy, row["STATION"], shown(report), shown(release)])
                sectors = [(tables.at(it["FROM"], it["OFF"]), tables.at(it["TO"], it["ON"]), it.get("KIND") or "O") for it in tables.rows["sectors"] if it["PAIRING"] == name]
                records += [["sector", own, kind, shown(off), shown(on)] for off, on, kind in sorted(sectors) if report <= off < release]
    return records, spans


def cost_records(tables, persons, taken, spans):
    """The records of the wishes."""
    costs = {}
    for row in tables.rows["wishes"]:
        for name in taken if row["PERSON"] in persons else ():
            base = tables.base[row["PERSON"]]
            if row["PAIRING"]:
                is_about = row["PAIRING"] == name
            else:
                day = date.fromisoformat(row["DATE"])
                begin, end = tables.midnight(base, day), tables.midnight(base, day + timedelta(days=1))
                is_about = base == taken[name]["BASE"] and spans[name][0] < end and begin < spans[name][1]
            if is_about:
                place = (list(tables.base).index(row["PERSON"]), list(taken).index(name))
                costs[place] = costs.get(place, 0) + int(row["UNITS"])
    names, pairings = list(tables.base), list(taken)
    return [["cost", names[k], pairings[p] + copy, str(costs[k, p])] for k, p in sorted(costs) for copy in copies(taken[pairings[p]])]


def book_of(folder, month, bases=(), rank=None):
    """The book of the month."""
    tables = Folder(folder)
    first = date.fromisoformat(month + "-01")

    def is_asked(row):
        return (not bases or row["BASE"] in bases) and (rank is None or row.get("RANK") == rank)

    records = [["period", month]]
    records += [["base", row["BASE"], rule_of(row["ZONE"])] for row in tables.rows["bases"] if not bases or row["BASE"] in bases]
    persons = {row["PERSON"]: row for row in tables.rows["crew"] if is_asked(row)}
    for name, row in persons.items():
        year, eleven = carried_of(tables, name, first)
        records.append(["crew", name, row["BASE"], str(minutes(row.get("TARGET") or "0")), str(year), str(eleven)])
    for name, row in persons.items():
        records += [["leave", name, shown(start), shown(stop)] for start, stop in leaves_of(tables, row, first)]
    for i, row in enumerate(tables.rows["activities"]):
        if row["PERSON"] in persons:
            start, stop = (tables.at(row["STATION"], row[end]) for end in ("FROM", "TO"))
            begin, end = tables.window(tables.base[row["PERSON"]], first)
            if begin <= start and stop <= end:
                records.append(["duty", f"{row['CODE']}-{i + 1}", "C", row["PERSON"], row["STATION"], shown(start), shown(stop)])
    taken = {}
    for row in tables.rows["pairings"]:
        name = row["PAIRING"]
        reports = [tables.at(duty["STATION"], duty["REPORT"]) for duty in tables.rows["duties"] if duty["PAIRING"] == name]
        local = min(reports).astimezone(ZoneInfo(tables.zones[row["BASE"]]))
        if is_asked(row) and (local.year, local.month) == (first.year, first.month):
            taken[name] = row
    made, spans = pairing_records(tables, taken)
    records += made + cost_records(tables, persons, taken, spans)
    out = io.StringIO(newline="")
    csv.writer(out, lineterminator="\n").writerows(records)
    return out.getvalue().encode()


# ---- the tables of the example, written in other ways


class Tables:
    """The tables of a folder as lists of cells, to be changed and written to another folder."""

    def __init__(self, folder):
        self.rows = {}
        for table in TABLES:
            path = f"{folder}/{table}.csv"
            if os.path.exists(path):
                with open(path, encoding="utf-8", newline="") as file:
                    self.rows[table] = list(csv.reader(file))

    def write(self, folder, separator=",", quoting=csv.QUOTE_MINIMAL, end="\n", before=b""):
        shutil.rmtree(folder, ignore_errors=True)
        os.makedirs(folder)
        for table, rows in self.rows.items():
            out = io.StringIO(newline="")
            csv.writer(out, delimiter=separator, quoting=quoting, lineterminator=end).writerows(rows)
            with open(f"{folder}/{table}.csv", "wb") as file:
                file.write(before + out.getvalue().encode())
        return folder

    def each(self, change):
        """The tables with each row changed: `change` is given the row, and whether it is a header row."""
        self.rows = {table: [change(row, i == 0) for i, row in enumerate(rows)] for table, rows in self.rows.items()}
        return self

    def timed(self, told):
        """The tables with each local time written as `told` says, by the station whose clocks it is of."""
        zones = {row[0]: ZoneInfo(row[1]) for table in ("bases", "stations") for row in self.rows[table][1:]}
        stations = {"REPORT": "STATION", "RELEASE": "END", "OFF": "FROM", "ON": "TO"}
        for rows in self.rows.values():
            head = rows[0]
            for row in rows[1:]:
                for i, cell in enumerate(row):
                    if re.fullmatch(r"\d{4}-\d\d-\d\d \d\d:\d\d", cell):
                        station = row[head.index(stations.get(head[i], "STATION"))]
                        row[i] = told(datetime.fromisoformat(cell).replace(tzinfo=zones[station]))
        return self


def offset_text(at):
    """The time with its offset, as 2024-06-11T10:00+02:00."""
    return at.isoformat(timespec="minutes")


def other_ways(folder, out):
    """The tables of the folder in other ways: the name of each, the folder, and what standard error is told."""
    yield "semicolons", Tables(folder).write(out, separator=";"), b""
    yield "tabs", Tables(folder).write(out, separator="\t"), b""
    yield "quotes", Tables(folder).write(out, quoting=csv.QUOTE_ALL), b""
    yield "line ends of two bytes", Tables(folder).write(out, end="\r\n"), b""
    yield "a byte order mark", Tables(folder).write(out, before=b"\xef\xbb\xbf"), b""
    yield "a byte order mark and quotes", Tables(folder).write(out, quoting=csv.QUOTE_ALL, before=b"\xef\xbb\xbf"), b""
    yield "empty cells at the ends of rows", Tables(folder).each(lambda row, _: row + ["", " "]).write(out), b""
    yield "no cells at the ends of rows", Tables(folder).each(lambda row, _: row[: max((i for i, cell in enumerate(row) if cell), default=0) + 1]).write(out), b""
    yield "columns in another order", Tables(folder).each(lambda row, _: row[::-1]).write(out), b""
    yield "small letters", Tables(folder).each(lambda row, is_head: [cell.lower() for cell in row] if is_head else row).write(out), b""
    yield "blanks round cells", Tables(folder).each(lambda row, _: [f" {cell}  " for cell in row]).write(out), b""
    yield "other columns", Tables(folder).each(lambda row, is_head: ["NOTE" if is_head else "x", *row, "id" if is_head else "7"]).write(out), b"".join(
        f"{table}.csv: passed over NOTE, id\n".encode() for table in TABLES
    )
    spaced = Tables(folder)
    spaced.rows = {table: [row for rest in rows for row in (rest, ["", ""])] for table, rows in spaced.rows.items()}
    yield "rows without anything", spaced.write(out), b""
    yield "times in UTC", Tables(folder).timed(shown).write(out), b""
    yield "times with offsets", Tables(folder).timed(offset_text).write(out), b""
    rules = Tables(folder)
    for table in ("bases", "stations"):
        rules.rows[table][1:] = [[name, rule_of(zone)] for name, zone in rules.rows[table][1:]]
    yield "rules in place of zones", rules.write(out), b""


def examples(tests, run, desk, example):
    """The books of the example, and of its tables in other ways."""
    for month in ("2024-06", "2024-07"):
        for rank in ("CP", "CC"):
            warned = run(desk, "warn", "-", book=made(run, desk, example, month, (), rank, "--weight", "1").stdout)
            tests.told(f"warnings of {month}, {rank}", warned.stdout != b"NO WARNING\n" and f"told {warned.stdout}")
    for month in ("2024-06", "2024-07", "2024-08"):
        for bases, rank in (((), "CP"), ((), "CC"), (("ZRH",), "CP"), (("LIS",), "CC"), (("LIS", "ZRH"), "CP")):
            tests.told(f"tables of {month}, {rank} of {bases or 'all'}", wrong_book(run, desk, example, month, bases, rank))
    for name, folder, told in other_ways(example, f"{tests.folder}/other"):
        tests.told(f"tables with {name}", wrong_book(run, desk, folder, "2024-06", (), "CC", told, of=example))


def made(run, desk, folder, month, bases=(), rank=None, *more):
    words = [word for base in bases for word in ("--base", base)] + (["--rank", rank] if rank else [])
    return run(desk, "book", "--month", month, *words, *more, folder)


def wrong_book(run, desk, folder, month, bases, rank, told=b"", of=None):
    """What is wrong with the book of the tables."""
    book = made(run, desk, folder, month, bases, rank)
    if book.returncode != 0:
        return f"status {book.returncode}: {book.stderr.decode()}"
    if book.stdout != book_of(of or folder, month, bases, rank):
        return "another book"
    if book.stderr != told:
        return f"told {book.stderr}"
    if not run(desk, "fault", "-", book=book.stdout).stdout.startswith(b"NO FAULT"):
        return "a book with a fault"
    return None


# ---- tables with mistakes

TINY = {
    "bases": "BASE,ZONE\nZRH,Europe/Zurich\n",
    "stations": "STATION,ZONE\nLHR,Europe/London\n",
    "crew": "PERSON,BASE,RANK,TARGET,FROM,TO\nANA,ZRH,CP,40:00,,\n",
    "pairings": "PAIRING,BASE,RANK,PENALTY,COUNT\nP1,ZRH,CP,500,1\n",
    "duties": "PAIRING,STATION,REPORT,END,RELEASE\nP1,ZRH,2024-06-11 08:00,ZRH,2024-06-11 16:00\n",
    "sectors": "PAIRING,DUTY,FROM,TO,OFF,ON,KIND\nP1,,ZRH,LHR,2024-06-11 09:00,2024-06-11 10:00,O\n",
    "activities": "PERSON,CODE,STATION,FROM,TO\nANA,SIM,ZRH,2024-06-20 08:00,2024-06-20 12:00\n",
    "leave": "PERSON,FROM,TO\nANA,2024-06-24,2024-06-26\n",
    "wishes": "PERSON,PAIRING,DATE,UNITS\nANA,P1,,10\n",
    "flown": "PERSON,MONTH,FLIGHT\nANA,2024-05,60:00\n",
}
NAME = "a name of 1 to 16 ASCII letters, digits, _ and -"
CLOCKS = "the name of a zone as Europe/Zurich, or a rule as CET-1CEST,M3.5.0,M10.5.0/3"
HOURS = "hours and minutes as 75:30, or minutes, 60000 at most"
INSTANT = "an instant as 2024-06-11T08:00Z, or a local time as 2024-06-11 10:00"
WHEN = "a date as 2024-06-11, an instant as 2024-06-11T08:00Z, or a local time as 2024-06-11 10:00"
SKIPPED = "another time, or an offset as in 2024-06-11T10:00+02:00: the clocks skip this one"
TWICE = "an offset, as in 2024-06-11T10:00+02:00: the clocks show this time twice"
NO_CLOCKS = "a time with Z or an offset, as 2024-06-11T10:00+02:00: neither bases.csv nor stations.csv has clocks for it"
# What stands in a cell of the second line of a table, and what is wanted there.
CELLS = [
    ("bases", "BASE", "Z\u00fcrich", f"{NAME}, as Zrich"),
    ("bases", "BASE", "", NAME),
    ("bases", "BASE", "ABCDEFGHIJKLMNOPQ", f"{NAME}, as ABCDEFGHIJKLMNOP"),
    ("bases", "ZONE", "Europe/Nowhere", CLOCKS),
    ("bases", "ZONE", "../../../etc/passwd", CLOCKS),
    ("bases", "ZONE", "Europe", CLOCKS),
    ("bases", "ZONE", "", CLOCKS),
    ("stations", "STATION", "L HR", f"{NAME}, as L-HR"),
    ("stations", "ZONE", "GMT+", CLOCKS),
    ("crew", "PERSON", "ANA MARIA", f"{NAME}, as ANA-MARIA"),
    ("crew", "BASE", "GVA", "a base of bases.csv with its clocks"),
    ("crew", "TARGET", "40:60", HOURS),
    ("crew", "TARGET", "60001", HOURS),
    ("crew", "TARGET", "-1", HOURS),
    ("crew", "FROM", "2024-06-31", "a date as 2024-06-11"),
    ("crew", "TO", "11.06.2024", "a date as 2024-06-11"),
    ("pairings", "PAIRING", "P/1", f"{NAME}, as P-1"),
    ("pairings", "BASE", "", "a base of bases.csv with its clocks"),
    ("pairings", "PENALTY", "5.5", "a whole number"),
    ("pairings", "PENALTY", "-5", "a number from 0 to 1000000000"),
    ("pairings", "COUNT", "10", "a number from 0 to 9"),
    ("duties", "PAIRING", "P2", "a pairing of pairings.csv"),
    ("duties", "STATION", "", NAME),
    ("duties", "REPORT", "2024-06-11 8:00", INSTANT),
    ("duties", "REPORT", "11.06.2024 08:00", INSTANT),
    ("duties", "REPORT", "2024-06-31 08:00", INSTANT),
    ("duties", "REPORT", "2024-06-11 08:00:30", "a time of whole minutes"),
    ("duties", "REPORT", "1969-06-11 08:00", "a time of the years 1970 to 9998"),
    ("duties", "REPORT", "2024-03-31 02:30", SKIPPED),
    ("duties", "REPORT", "2024-10-27 02:30", TWICE),
    ("sectors", "ON", "2024-03-31 01:30", SKIPPED),
    ("sectors", "PAIRING", "P9", "a pairing of pairings.csv, in one of whose duties the sector begins"),
    ("sectors", "DUTY", "D9", "a duty of duties.csv"),
    ("sectors", "KIND", "X", "O for an operated sector, or P for a positioning one"),
    ("activities", "PERSON", "BOB", "a person of crew.csv"),
    ("activities", "CODE", "SIM 1", f"{NAME}, as SIM-1"),
    ("activities", "FROM", "", INSTANT),
    ("leave", "PERSON", "", "a person of crew.csv"),
    ("leave", "FROM", "24.6.", WHEN),
    ("leave", "TO", "2024-06-31", WHEN),
    ("wishes", "PERSON", "ana", "a person of crew.csv"),
    ("wishes", "PAIRING", "P9", "a pairing of pairings.csv"),
    ("wishes", "PAIRING", "", "either a pairing or a DATE"),
    ("wishes", "UNITS", "", "a whole number"),
    ("wishes", "UNITS", "1e3", "a whole number"),
    ("flown", "PERSON", "BOB", "a person of crew.csv"),
    ("flown", "MONTH", "2024-13", "a month as 2024-06"),
    ("flown", "MONTH", "06/2024", "a month as 2024-06"),
    ("flown", "FLIGHT", "60h", HOURS),
]
# Rows more, with the line, the column and the cell that are told, and what is wanted.
ROWS = [
    ("bases", "ZRH,Europe/Zurich", "BASE", "ZRH", "each name once"),
    ("stations", "LHR,Europe/London", "STATION", "LHR", "each name once"),
    ("crew", "ANA,ZRH,CP,,,", "PERSON", "ANA", "each name once"),
    ("crew", "BOB,ZRH,CP,,2024-06-20,2024-06-19", "TO", "2024-06-19", "a date that isn't before FROM"),
    ("crew", "BOB,ZRH,FO,,,", "RANK", "FO", "persons of one rank, as --rank takes them: a book is of one rank"),
    ("pairings", "P1,ZRH,CP,,", "PAIRING", "P1", "each name once for each rank"),
    ("pairings", "P2,ZRH,CP,,", "PAIRING", "P2", "a pairing with a duty in duties.csv"),
    ("flown", "ANA,2024-05,1:00", "MONTH", "2024-05", "each month of a person once"),
    ("leave", "ANA,2024-07-01,2024-07-02,x", "behind the last column", "x", "no such cell; one with the separator in it stands in double quotes"),
]
# Header rows, with the column and the cell that are told, and what is wanted.
HEADS = [
    ("bases", "BASE,CLOCKS", "ZONE", "", "a column of this name in the header row"),
    ("crew", "NAME,BASE", "PERSON", "", "a column of this name in the header row"),
    ("duties", "PAIRING,STATION,REPORT,RELEASE,REPORT", "REPORT", "REPORT", "each column once"),
    ("flown", "", "FLIGHT", "", "a column of this name in the header row"),
    ("leave", "\0\1\xff", "PERSON", "", "a column of this name in the header row"),
]
# The last cell isn't closed: it would have all rows below. A quote within a cell, and what follows a closing one, is data.
UNCLOSED = [
    ('PERSON,FROM,TO,NOTE\nANA,2024-06-24,2024-06-26,"of\nANA,2024-07-01,2024-07-02,\n', 2, r"of\nANA,2024-07-01,2024-07-02,\n"),
    ('PERSON,FROM,TO\nANA,2024-06-24,2024-06-26\nANA,2024-07-01,"2024-07-02', 3, "2024-07-02"),
    ('PERSON;FROM;TO\nANA;2024-06-24;2024-06-26;"', 2, ""),
    ('\ufeff"PERSON', 1, "PERSON"),
]
CLOSED = [
    'PERSON,FROM,TO,NOTE\nANA,2024-06-24,2024-06-26,12" and "more\n',
    'PERSON,FROM,TO,NOTE\nANA,2024-06-24,2024-06-26,"of" the "crew\n',
    'PERSON,FROM,TO,NOTE\nANA,2024-06-24,2024-06-26,"a ""quote\nof two lines"\n',
    '\ufeff"PERSON","FROM","TO"\n"ANA","2024-06-24","2024-06-26"',
]


def tiny(folder, **changed):
    """A folder with the tiny tables, some of them changed; one that is None isn't there."""
    shutil.rmtree(folder, ignore_errors=True)
    os.makedirs(folder)
    for table, text in {**TINY, **changed}.items():
        if text is not None:
            with open(f"{folder}/{table}.csv", "w", encoding="utf-8", newline="") as file:
                file.write(text)
    return folder


def with_cell(table, column, cell):
    """The table with another cell in its second line."""
    head, row = csv.reader(TINY[table].splitlines())
    row[head.index(column)] = cell
    out = io.StringIO()
    csv.writer(out, lineterminator="\n").writerows([head, row])
    return out.getvalue()


def sentence(folder, table, line, column, has, wanted):
    return f"error: {folder}/{table}.csv, line {line}, {column}: has {has or 'nothing'}; wanted {wanted}".encode()


def untold(book, *told):
    """What is wrong with an answer that has to tell these sentences, and to write no book."""
    lines = book.stderr.splitlines()
    if book.returncode != 1:
        return f"status {book.returncode}"
    if book.stdout:
        return "standard output"
    return next((f"not {line} but {book.stderr.decode()}" for line in told if line not in lines), None)


def mistakes(tests, run, desk):
    """Each kind of mistake, alone."""
    folder = f"{tests.folder}/tiny"
    tests.told("tables without a mistake", wrong_book(run, desk, tiny(folder), "2024-06", (), "CP"))
    cases = [(table, with_cell(table, column, cell), 2, column, cell, wanted) for table, column, cell, wanted in CELLS]
    cases += [(table, TINY[table] + row + "\n", 3, column, cell, wanted) for table, row, column, cell, wanted in ROWS]
    cases += [(table, head + TINY[table][TINY[table].index("\n") :], 1, column, cell, wanted) for table, head, column, cell, wanted in HEADS]
    for table, text, line, column, cell, wanted in cases:
        book = made(run, desk, tiny(folder, **{table: text}), "2024-06")
        tests.told(f"{cell!r} in {column} of {table}", untold(book, sentence(folder, table, line, column, cell, wanted)))
    # What has no place of its own: the clocks of a station that no table has, and times that a record can't have.
    elsewhere = [
        ("duties", "STATION", "CDG", "REPORT", "2024-06-11 08:00", NO_CLOCKS),
        ("sectors", "OFF", "2024-06-12 09:00", "PAIRING", "P1", "a pairing of pairings.csv, in one of whose duties the sector begins"),
        ("sectors", "OFF", "2024-06-11 16:00", "PAIRING", "P1", "a pairing of pairings.csv, in one of whose duties the sector begins"),
        ("duties", "RELEASE", "2024-06-11 07:00", "RELEASE", "2024-06-11 07:00", "an instant after REPORT"),
    ]
    for table, column, cell, told, has, wanted in elsewhere:
        book = made(run, desk, tiny(folder, **{table: with_cell(table, column, cell)}), "2024-06")
        tests.told(f"{cell!r} in {column} of {table}", untold(book, sentence(folder, table, 2, told, has, wanted)))
    book = made(run, desk, tiny(folder, duties=with_cell("duties", "REPORT", "2024-06-11 09:30")), "2024-06")
    tests.told("a sector that begins before its duty", untold(book, sentence(folder, "sectors", 2, "PAIRING", "P1", elsewhere[1][-1])))
    records = [
        ("sectors", "ON", "2024-06-11 16:00"),
        ("activities", "TO", "2024-06-20 07:00"),
        ("leave", "TO", "2024-06-23"),
        ("wishes", "UNITS", "1000000001"),
    ]
    for table, column, cell in records:
        book = made(run, desk, tiny(folder, **{table: with_cell(table, column, cell)}), "2024-06")
        begin = f"error: {folder}/{table}.csv, line 2, ".encode()
        tests.told(f"{cell!r} in {column} of {table}", untold(book), not book.stderr.startswith(begin) and f"told {book.stderr}")
    quotes(tests, run, desk, folder)
    not_asked(tests, run, desk, folder)
    ranks(tests, run, desk, folder)
    far_dates(tests, run, desk, folder)
    once(tests, run, desk, folder)
    leavers(tests, run, desk, folder)
    too_many(tests, run, desk, folder)
    no_files(tests, run, desk, folder)


def quotes(tests, run, desk, folder):
    """Cells in quotes that aren't closed, and a table that is no UTF-8."""
    for text, line, cell in UNCLOSED:
        book = made(run, desk, tiny(folder, leave=text), "2024-06")
        tests.told(f"the leave {text!r}", untold(book, sentence(folder, "leave", line, "a cell in quotes", cell, "a double quote at its end")))
    wanted = made(run, desk, tiny(folder), "2024-06").stdout
    for text in CLOSED:
        book = made(run, desk, tiny(folder, leave=text), "2024-06")
        tests.told(f"the leave {text!r}", book.returncode != 0 and f"status {book.returncode}: {book.stderr}", book.stdout != wanted and "another book")
    for code in ("utf-16", "utf-16-be"):
        with open(f"{tiny(folder)}/crew.csv", "wb") as file:
            file.write(("\ufeff" if code != "utf-16" else "").encode(code) + TINY["crew"].encode(code))
        told = sentence(folder, "crew", 1, "BASE", "", "a column of this name in the header row, as UTF-8 text: the file is UTF-16")
        tests.told(f"a table in {code}", untold(made(run, desk, folder, "2024-06"), told))


def not_asked(tests, run, desk, folder):
    """What is asked for and isn't there."""
    tiny(folder)
    for words, told in (
        (((("GVA",), None)), sentence(folder, "bases", 1, "BASE", "", "the base GVA, which is asked for")),
        ((((), "FO")), sentence(folder, "crew", 1, "RANK", "", "a person of the rank FO, which is asked for")),
    ):
        tests.told(f"tables of {words}", untold(made(run, desk, folder, "2024-06", *words), told))
    for month in ("2024-6", "2024-13", "1970-12", "9998-01", "june", ""):
        book = made(run, desk, folder, month)
        wanted = b"error: --month wants a month of the years 1971 to 9997, as 2024-06\n"
        tests.told(f"the month {month!r}", book.returncode != 2 and f"status {book.returncode}", book.stdout and "standard output", book.stderr != wanted and f"told {book.stderr}")


def ranks(tests, run, desk, folder):
    """A book is of one rank: its persons and its pairings."""
    two = {"pairings": TINY["pairings"] + "P2,ZRH,FO,500,1\n", "duties": TINY["duties"] + "P2,ZRH,2024-06-13 08:00,ZRH,2024-06-13 16:00\n"}
    told = sentence(folder, "pairings", 3, "RANK", "FO", "pairings of the persons' rank, as --rank takes them: a book is of one rank")
    tests.told("a pairing of another rank", untold(made(run, desk, tiny(folder, **two), "2024-06"), told))
    tests.told("of two ranks one", wrong_book(run, desk, tiny(folder, **two), "2024-06", (), "CP"))
    bare = {"pairings": "PAIRING,BASE\nP1,ZRH\n"}
    told = sentence(folder, "pairings", 2, "RANK", "", "the ranks of pairings, by which --rank takes them")
    tests.told("pairings without ranks", untold(made(run, desk, tiny(folder, **bare), "2024-06", (), "CP"), told))
    tests.told("persons of one rank, pairings without", wrong_book(run, desk, tiny(folder, **bare), "2024-06", (), None))
    tests.told("pairings of one rank, persons without", wrong_book(run, desk, tiny(folder, crew="PERSON,BASE\nANA,ZRH\n"), "2024-06", (), None))


def far_dates(tests, run, desk, folder):
    """Dates that no book reaches, as 9999-12-31 of a leave without an end. The window is from 27 April to 14 July."""
    begin, end = "2024-04-26T22:00Z", "2024-07-14T22:00Z"
    for table, row, wanted in (
        ("leave", "ANA,2024-06-29,9999-12-31", [("2024-06-28T22:00Z", end)]),
        ("leave", "ANA,2024-06-29,9998-12-31", [("2024-06-28T22:00Z", end)]),
        ("leave", "ANA,0001-01-01,2024-06-02", [(begin, "2024-06-02T22:00Z")]),
        ("leave", "ANA,1970-01-01,2024-06-02", [(begin, "2024-06-02T22:00Z")]),
        ("leave", "ANA,0001-01-01,9999-12-31", [(begin, end)]),
        ("leave", "ANA,9999-01-01,9999-12-31", []),
        ("leave", "ANA,1960-01-01,1969-12-31", []),
        ("crew", "ANA,ZRH,CP,,1969-12-31,9999-12-31", []),
        ("crew", "ANA,ZRH,CP,,9999-01-01,", [(begin, end)]),
        ("crew", "ANA,ZRH,CP,,,1969-12-31", [(begin, end)]),
    ):
        changed = {"leave": None, table: TINY[table].splitlines()[0] + f"\n{row}\n", "activities": None}
        book = made(run, desk, tiny(folder, **changed), "2024-06")
        found = [tuple(line.split(",")[2:]) for line in book.stdout.decode().splitlines() if line.startswith("leave,")]
        tests.told(f"leave of {row}", book.returncode != 0 and f"status {book.returncode}: {book.stderr}", found != wanted and f"told {found}")


def once(tests, run, desk, folder):
    """A cell is told once, and of wishes what they come to together."""
    lines = made(run, desk, tiny(folder, crew=with_cell("crew", "PERSON", "Zo\u00eb")), "2024-06").stderr.decode().splitlines()
    tests.told("a name that is told", sum("crew.csv, line 2, PERSON: " in line for line in lines) != 1 and f"told {lines}")
    wishes = TINY["wishes"] + 2 * "ANA,P1,,999999999\n"
    told = sentence(folder, "wishes", 2, "UNITS", "2000000008", "a number from -1000000000 to 1000000000")
    tests.told("wishes that are too much together", untold(made(run, desk, tiny(folder, wishes=wishes), "2024-06"), told))


def leavers(tests, run, desk, folder):
    """What was carried of persons who have left is passed over."""
    carried = {
        "activities": "PERSON,CODE,STATION,FROM,TO\nBOB,2024-05,ZRH,2024-05-30T08:00Z,2024-05-30T12:00Z\n",
        "sectors": "PERSON,OFF,ON,KIND\nBOB,2024-05-30T09:00Z,2024-05-30T10:00Z,O\n",
        "leave": "PERSON,FROM,TO\nBOB,2024-06-01T00:00Z,2024-06-03T00:00Z\n",
        "flown": "PERSON,MONTH,FLIGHT\nBOB,2024-05,600\n",
    }
    tiny(folder, **{f"carried-{table}": text for table, text in carried.items()})
    tests.told("carried rows of who has left", wrong_book(run, desk, folder, "2024-06", (), "CP"))


def too_many(tests, run, desk, folder):
    """More mistakes than are told, and more rows than a book may have records."""
    crew = TINY["crew"] + "".join(f"C{i},GVA,CP,,,\n" for i in range(120))
    book = made(run, desk, tiny(folder, crew=crew), "2024-06")
    tests.told("120 mistakes", untold(book, b"error: 20 more mistakes"), len(book.stderr.splitlines()) != 101 and f"{len(book.stderr.splitlines())} lines")
    limits = [
        ("bases", TINY["bases"] + "".join(f"B{i},UTC0\n" for i in range(16)), "17", "16 records of base"),
        ("crew", TINY["crew"] + "".join(f"C{i},ZRH,CP,,,\n" for i in range(128)), "129", "128 records of crew"),
    ]
    for table, text, has, most in limits:
        told = sentence(folder, table, 1, "its rows", has, f"{most} at most: --base and --rank take a part")
        tests.told(f"{has} rows of {table}", untold(made(run, desk, tiny(folder, **{table: text}), "2024-06"), told))
    pairings = TINY["pairings"] + "".join(f"Q{i},ZRH,CP,,9\n" for i in range(57))
    duties = TINY["duties"] + "".join(f"Q{i},ZRH,2024-06-11 08:00,ZRH,2024-06-11 16:00\n" for i in range(57))
    book = made(run, desk, tiny(folder, pairings=pairings, duties=duties), "2024-06")
    tests.told("514 pairings", untold(book, sentence(folder, "pairings", 1, "its rows", "514", "512 records of pairing at most: --base and --rank take a part")))
    # A base that isn't asked for doesn't count.
    tests.told("17 bases of which one is asked for", wrong_book(run, desk, tiny(folder, bases=limits[0][1]), "2024-06", ("ZRH",), None))


def no_files(tests, run, desk, folder):
    """Files that aren't there."""
    needed = ("bases", "crew", "pairings", "duties")
    for table in TINY:
        book = made(run, desk, tiny(folder, **{table: None}), "2024-06")
        told = f"error: {folder}/{table}.csv can't be opened\n".encode()
        if table in needed:
            tests.told(f"no {table}.csv", book.returncode != 4 and f"status {book.returncode}", book.stdout and "standard output", book.stderr != told and f"told {book.stderr}")
        elif table not in ("stations",):
            tests.told(f"no {table}.csv", wrong_book(run, desk, folder, "2024-06", (), None))
    os.mkdir(f"{tiny(folder, leave=None)}/leave.csv")
    book = made(run, desk, folder, "2024-06")
    tests.told("a folder in place of a table", book.returncode != 4 and f"status {book.returncode}", book.stderr != f"error: {folder}/leave.csv can't be read\n".encode() and f"told {book.stderr}")
    os.symlink("/nowhere", f"{tiny(folder, leave=None)}/leave.csv")
    book = made(run, desk, folder, "2024-06")
    tests.told("a link that leads nowhere", book.returncode != 4 and f"status {book.returncode}", book.stderr != f"error: {folder}/leave.csv can't be opened\n".encode() and f"told {book.stderr}")
    # Whoever gave a table another name is told.
    for name in ("Leave.csv", "a b.CSV", "line\nend.csv", "notes.txt"):
        with open(f"{tiny(folder) if name == 'Leave.csv' else folder}/{name}", "w", encoding="utf-8") as file:
            file.write(TINY["leave"])
    told = b"".join(f"{name}: passed over, since no table has this name\n".encode() for name in ("Leave.csv", "a b.CSV", r"line\nend.csv"))
    tests.told("other files", wrong_book(run, desk, folder, "2024-06", (), None, told))
    book = made(run, desk, f"{folder}/none", "2024-06")
    told = "".join(f"error: {folder}/none/{table}.csv can't be opened\n" for table in needed).encode()
    tests.told("no folder", book.returncode != 4 and f"status {book.returncode}", book.stderr != told and f"told {book.stderr}")


# ---- the roster that a book begins with, and the cost of a missed target


def starts(tests, run, roster, desk, example):
    """A book that gives the roster of a report."""
    book = made(run, desk, example, "2024-06", (), "CP").stdout
    report = run(desk, "plan", "-", book=book)
    path = f"{tests.folder}/report.txt"
    with open(path, "wb") as file:
        file.write(report.stdout)
    given = made(run, desk, example, "2024-06", (), "CP", "--start", path)
    assigns = run(desk, "assigns", path).stdout
    tests.told(
        "a book that begins with a roster",
        given.returncode != 0 and f"status {given.returncode}",
        sorted(given.stdout.splitlines()) != sorted(book.splitlines() + assigns.splitlines()) and "another book",
        run(roster, "check", book=given.stdout).stdout.count(b" OK\n") != book.count(b"\ncrew,") and "a roster that isn't legal",
    )
    weighed = made(run, desk, example, "2024-06", (), "CP", "--weight", "7")
    tests.told("a book with a weight", weighed.stdout != book + b"weight,7\n" and "another book")
    for weight in ("-1", "1000000001", "a"):
        refused = made(run, desk, example, "2024-06", (), "CP", "--weight", weight)
        tests.told(f"the weight {weight}", refused.returncode != 2 and f"status {refused.returncode}")
    # A report of a book with more pairings, of another month, and none at all.
    fewer = made(run, desk, example, "2024-06", ("ZRH",), "CP", "--start", path)
    there = {line.split(b",")[1] for line in fewer.stdout.splitlines() if line.startswith(b"crew,")}
    left = [line.split(b",")[2] for line in assigns.splitlines() if line.split(b",")[2] not in there]
    told = [line.split()[-1] for line in fewer.stderr.splitlines() if line.startswith(b"not in the book: person ")]
    tests.told(
        "a report with other persons",
        fewer.returncode != 0 and f"status {fewer.returncode}",
        not left and "all are there",
        not set(left) <= set(told) and f"told {fewer.stderr}",
        there & set(told) and "one who is there",
        sorted(fewer.stdout.splitlines()[-1:])[0][:7] != b"assign," and "no roster",
    )
    later = made(run, desk, example, "2024-07", (), "CP", "--start", path)
    tests.told("a report of another month", b", line 1: the book is of another month\n" not in later.stderr and f"told {later.stderr}", later.stdout and "standard output")
    none = made(run, desk, example, "2024-06", (), "CP", "--start", f"{tests.folder}/none.txt")
    tests.told("a report that isn't there", none.returncode != 4 and f"status {none.returncode}", none.stdout and "standard output")


# ---- tables of made-up months


def rounds(tests, run, desk, root, seed):
    """The tables of a book give the book again, but for the names of its fixed duties."""
    words = ("1,12,30", "2,8,30", "4,16,60")[seed % 3]
    book = run(f"{root}/bench/month", words, str(seed)).stdout
    folder = f"{tests.folder}/rounds"
    shutil.rmtree(folder, ignore_errors=True)
    run(f"{root}/bench/tables", folder, book=book)
    weight = re.search(rb"weight,(\d+)", book)
    again = made(run, desk, folder, "2024-03", (), None, *(["--weight", weight[1].decode()] if weight else []))
    tests.told(f"the book of the tables of bench/month {words} {seed}", again.returncode != 0 and f"status {again.returncode}: {again.stderr}", same_records(book) != same_records(again.stdout) and "another book")


def same_records(book):
    """The records in one order, without the names of fixed duties."""
    rows = [line.split(b",") if b'"' not in line else [line] for line in book.splitlines()]
    return sorted([*row[:1], b"", *row[2:]] if row[:1] == [b"duty"] and row[2] == b"C" else row for row in rows)


# ---- folders that are broken at random

CELLS_AT_RANDOM = ["", "-", "0", "-1", "99999999999999", "1e9", "\u00e4", "ANNA", "ZRH", "LIS", "CP", "2024-06", "2024-06-11", "2024-06-11 08:00", "2024-03-31 02:30", "2024-10-27 02:30", "9999-12-31T23:59Z", "0000-00-00 00:00", "2024-06-11T08:00+99:99", "75:30", "Europe/Zurich", "UTC0", "Europe", "<+03>-3", "x" * 300, '"', "\0", "9", "O", "P"]


def break_rows(rows, draw):
    """Breaks the rows of a table in one way."""
    way = draw.randrange(8)
    i = draw.randrange(len(rows))
    if way <= 2 and rows[i]:
        rows[i][draw.randrange(len(rows[i]))] = draw.choice(CELLS_AT_RANDOM)
    elif way == 3:
        rows.append(list(rows[i]))
    elif way == 4 and len(rows) > 1:
        del rows[i]
    elif way == 5:
        rows[i].append(draw.choice(CELLS_AT_RANDOM))
    elif way == 6 and rows[i]:
        del rows[i][draw.randrange(len(rows[i]))]
    else:
        draw.shuffle(rows[i])


def break_bytes(path, draw):
    """Breaks the bytes of a file in one way."""
    with open(path, "rb") as file:
        text = bytearray(file.read())
    at = draw.randrange(len(text) + 1)
    way = draw.randrange(5)
    if way == 0:
        del text[at:]
    elif way == 1:
        text[at:at] = bytes(draw.randrange(256) for _ in range(draw.randrange(1, 20)))
    elif way == 2 and at < len(text):
        text[at] = draw.choice(b'",;\t\r\n\0\xff -0Z')
    elif way == 3:
        del text[at : at + draw.randrange(1, 30)]
    else:
        text = bytearray(draw.choice([b"", b"\n", b'"', b"\xef\xbb\xbf", b"PK\x03\x04" + bytes(range(256)), b"a,b\n" * 999]))
    with open(path, "wb") as file:
        file.write(text)


def broken_tables(tests, run, desk, example, count, draw):
    """Folders that are broken at random: a book without a fault, or a mistake that is told."""
    books = 0
    for number in range(count):
        folder = f"{tests.folder}/broken"
        tables = Tables(example)
        for _ in range(draw.choice((0, 1, 1, 1, 2, 5))):
            break_rows(tables.rows[draw.choice(TABLES)] or [[""]], draw)
        tables.write(folder, separator=draw.choice(",,,;\t"), end=draw.choice(("\n", "\n", "\r\n", "\r")))
        if draw.random() < 0.3:
            break_bytes(f"{folder}/{draw.choice(TABLES)}.csv", draw)
        words = [(), draw.choice((None, "CP", "CC", "CP", "CC", "CP", "CC", "CP"))]
        book = made(run, desk, folder, draw.choice(("2024-06", "2024-06", "2024-07", "2031-12")), *words)
        books += book.returncode == 0
        wrong = wrong_of_broken(run, desk, book)
        tests.told(f"broken tables {number}", wrong)
        if wrong:
            shutil.copytree(folder, f"/tmp/broken-tables-{number}", dirs_exist_ok=True)
    return books


def wrong_of_broken(run, desk, book):
    if book.returncode == 0:
        found = run(desk, "fault", "-", book=book.stdout)
        return not found.stdout.startswith(b"NO FAULT") and "a book with a fault"
    if book.returncode != 1:
        return f"status {book.returncode}: {book.stderr}"
    if book.stdout:
        return "standard output"
    lines = book.stderr.decode().splitlines()
    told = [line for line in lines if line.startswith("error: ")]
    if not told or len(told) > 101 or any(not line.startswith("error: ") and ": passed over " not in line for line in lines):
        return f"told {book.stderr}"
    return None


# ---- the walk


def walk(tests, run, roster, desk, root):
    """The walk of the example: books without a fault and a warning, and a roster that is repaired and legal."""
    out = f"{tests.folder}/walk"
    walked = run(f"{root}/examples/tables/walk.sh", out, env={**os.environ, "DESK": desk})
    is_clean = walked.stdout.startswith(b"NO FAULT\n") and walked.stdout.endswith(b"NO WARNING\n" * 2)
    tests.told("the walk", walked.returncode != 0 and f"status {walked.returncode}: {walked.stderr}", not is_clean and f"told {walked.stdout}")
    june, published, changed, repaired, called = (read(f"{out}/{name}") for name in ("june.csv", "june.txt", "changed.csv", "rest.txt", "called.txt"))
    tests.told("the walk: DORA is on leave", b"leave,DORA,2024-06-11T22:00Z,2024-06-16T22:00Z" not in set(changed.splitlines()) - set(june.splitlines()) and "no leave")
    tests.told("the walk: the roster of June", not is_legal(run, roster, june, given_by(published)) and "it isn't legal")
    # What has begun stays with who had it, and all that follows is as the repair gives it.
    given = given_by(published)
    tests.told("the walk: DORA had a pairing", given[b"NYC-12"] != b"DORA" and "she hadn't")
    given |= given_by(repaired)
    tests.told("the walk: the roster as it was repaired", not is_legal(run, roster, changed, given) and "it isn't legal", given[b"NYC-12"] == b"DORA" and "DORA is ill")
    tests.told("the walk: whom to call", b"DORA changes on 2024-06-12 2024-06-14 2024-06-15" not in called.splitlines() and f"told {called}", not called.endswith(b" persons change\n") and "no count")
    july, planned = read(f"{out}/july.csv"), read(f"{out}/july.txt")
    tests.told("the walk: the roster of July", not is_legal(run, roster, july, given_by(planned)) and "it isn't legal")
    # ANNA is back from New York with NYC-18 on 21 June. She has flown 205, 330 and 990 minutes, and 7431 before.
    tests.told("the walk: what July has of June", b",C,ANNA,JFK,2024-06-20T20:30Z,2024-06-21T06:05Z\n" not in july and "no duty", b"crew,ANNA,ZRH,1680,8956,8956\n" not in july and "other minutes")


def read(path):
    with open(path, "rb") as file:
        return file.read()


def given_by(report):
    """Who has which pairing by a report."""
    crew = [line.split() for line in report.splitlines() if line.startswith(b"CREW ")]
    return {pairing: words[1] for words in crew for pairing in words[7:] if pairing != b"-"}


def is_legal(run, roster, book, given):
    """Whether the roster is legal in the book."""
    assigns = b"".join(b"assign,%s,%s\n" % it for it in given.items())
    crew = [line for line in run(roster, "check", book=book + assigns).stdout.splitlines() if line.startswith(b"CREW ")]
    return crew and all(line.endswith(b" OK") for line in crew)


def shown_rows(tests, root):
    """The rows that docs/TABLES.md shows are those of the example."""
    block = read(f"{root}/docs/TABLES.md").decode().split("```text\n")[1].split("```")[0]
    shown = {cells for line in block.splitlines() for cells in re.split("  +", line.strip()) if cells}
    rows = {f"{table}.csv": read(f"{root}/examples/tables/{table}.csv").decode().splitlines() for table in TABLES}
    tests.told("the tables of docs/TABLES.md", set(rows) - shown and f"not {sorted(set(rows) - shown)}")
    strange = shown - set(rows) - {row for of in rows.values() for row in of}
    tests.told("the rows of docs/TABLES.md", strange and f"not {sorted(strange)}")


def shown_columns(tests, run, desk, root):
    """A book of the other rows that docs/TABLES.md shows, beside the example's persons, pairings and activities."""
    folder = f"{tests.folder}/shown"
    shutil.copytree(f"{root}/examples/tables", folder)
    tables = {it.split(".csv\n")[0]: it.split(".csv\n")[1] for it in read(f"{root}/docs/TABLES.md").decode().split("```text\n")[2].split("```")[0].strip().split("\n\n")}
    for table, text in tables.items():
        old = read(f"{folder}/{table}.csv").decode() if table == "crew" else ""
        with open(f"{folder}/{table}.csv", "w", encoding="utf-8") as file:
            file.write(old + text.partition("\n")[2] + "\n" if old else text + "\n")
    with open(f"{folder}/pairings.csv", "w", encoding="utf-8") as file:
        file.write("PAIRING,BASE,RANK,PENALTY,COUNT\nLON-03,ZRH,CP,800,\n")
    os.remove(f"{folder}/wishes.csv")
    book = made(run, desk, folder, "2024-06", ("ZRH",), "CP")
    tests.told("the columns of docs/TABLES.md", sorted(tables) != ["crew", "duties", "sectors"] and "other tables", (book.returncode or book.stderr) and f"status {book.returncode}: {book.stderr}")
    lines = book.stdout.splitlines()
    wanted = b"duty,LON-AM,P,LON-03,ZRH,2024-06-03T04:15Z,2024-06-03T10:25Z", b"sector,LON-AM,O,2024-06-03T05:15Z,2024-06-03T07:00Z", b"sector,SIM-1,P,2024-06-05T06:30Z,2024-06-05T07:30Z"
    tests.told("the records of docs/TABLES.md", *(it not in lines and f"no {it}" for it in wanted), not any(it.startswith(b"leave,KIM,2024-06-15T22:00Z,") for it in lines) and "KIM is there to the end")


def all_tables(tests, run, roster, desk, root):
    example = f"{root}/examples/tables"
    shown_rows(tests, root)
    shown_columns(tests, run, desk, root)
    examples(tests, run, desk, example)
    mistakes(tests, run, desk)
    starts(tests, run, roster, desk, example)
    for seed in range(1, 4):
        rounds(tests, run, desk, root, seed)
    walk(tests, run, roster, desk, root)

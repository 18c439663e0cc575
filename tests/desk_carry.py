"""Months that follow one another, for tests/desk.

A month is made and rostered by `solve`, and `carry` writes the next month's book, to which pairings are added. So it
goes for one month or two. The last book gets a roster at random, and each rule is judged twice, by the second solver:
over the duties of that book, and over all duties of all months in one piece, with nothing cut off. What `roster check`
says has to be what the first of the two says, and the minutes of flight those that this test adds up itself. What `book`
makes of the tables that `carry --into` writes has to be the same.
"""

import importlib.machinery
import importlib.util
import os
import random
import subprocess
import sys
from datetime import datetime, timedelta

from desk_repair import at, book_of, given_by, text

SIZES = ("1,4,14", "2,6,20", "1,3,12", "1,5,12")
# The first months, so that the cut lies at ends of all lengths, at a new year, and where clocks change.
FIRST = ((2024, 3), (2023, 12), (2024, 1), (2024, 2), (2023, 2), (2024, 4), (2023, 9), (2023, 11))


def second_solver(folder):
    """The second solver as a module."""
    loader = importlib.machinery.SourceFileLoader("second", f"{folder}/tools/second")
    module = importlib.util.module_from_spec(importlib.util.spec_from_loader("second", loader))
    loader.exec_module(module)
    return module


def month_after(year, month):
    return (year + month // 12, month % 12 + 1)


def rows_of(book):
    """The records of a book, of which one field at most, a zone, has commas."""
    rows = []
    for line in book.decode().splitlines():
        head, quoted, tail = line.partition('"')
        rows.append(head.rstrip(",").split(",") + ([f'"{tail}'] if quoted else []))
    return rows


def shifted(rows, days):
    """The records so many days later."""
    by = timedelta(days=days)
    out = []
    for row in rows:
        first = {"duty": 5, "sector": 3, "leave": 2}.get(row[0], len(row))
        out.append(row[:first] + [text(at(field) + by) for field in row[first:]])
    return out


def made_month(folder, size, seed, year, month):
    """A made-up month: that of March 2024 at another time, of which some pairings reach out of it at the end."""
    made = subprocess.run([sys.executable, f"{folder}/bench/month", size, str(seed)], capture_output=True, check=True)
    draw = random.Random(seed)
    first = datetime(year, month, 1)
    rows = shifted(rows_of(made.stdout), (first - datetime(2024, 3, 1)).days)
    rows[0] = ["period", f"{year:04}-{month:02}"]
    end = datetime(*month_after(year, month), 1)
    by = {}
    for row in rows:
        if row[0] == "duty" and row[2] == "P" and row[3] not in by:
            day = (at(row[5]) - first).days
            last = (end - first).days - 1 - draw.randrange(3)
            by[row[3]] = timedelta(days=last - day) if draw.random() < 0.3 or day > last else timedelta()
    duties = {row[1]: by[row[3]] for row in rows if row[0] == "duty" and row[2] == "P"}
    out = []
    for row in rows:
        if row[0] in ("duty", "sector") and row[1] in duties:
            place = 5 if row[0] == "duty" else 3
            row = row[:place] + [text(at(field) + duties[row[1]]) for field in row[place:]]
        out.append(row)
    return out


def crowded(rows, draw, year, month):
    """The month with much duty at its end and after it for some, near all limits, and leave across its end for others."""
    end = datetime(*month_after(year, month), 1)
    out = list(rows)
    for person in [row[1] for row in rows if row[0] == "crew"]:
        busy = [(at(row[-2]), at(row[-1])) for row in rows if row[0] == "leave" and row[1] == person or row[0] == "duty" and row[2:4] == ["C", person]]
        kind = draw.random()
        if kind < 0.3:
            begin, over = end - timedelta(days=draw.randint(0, 3)), end + timedelta(days=draw.randint(1, 10))
            if not any(first < over and begin < last for first, last in busy):
                out.append(["leave", person, text(begin), text(over)])
        elif kind < 0.8:
            share = draw.choice((0.6, 0.75, 0.85))
            for day in range(-28, draw.randint(0, 12)):
                report = end + timedelta(days=day, minutes=draw.randrange(240, 480))
                release = report + timedelta(minutes=draw.randrange(420, 660))
                if draw.random() > share or any(first < release and report < last for first, last in busy):
                    continue
                name = f"H{len(out)}"
                out.append(["duty", name, "C", person, "B0", text(report), text(release)])
                out.append(["sector", name, "O", text(report + timedelta(minutes=60)), text(report + timedelta(minutes=draw.randrange(200, 420)))])
    return out


def pairings_of(rows, word):
    """The records of the pairings, under other names."""
    names = {row[1] for row in rows if row[0] == "duty" and row[2] == "P"}
    out = []
    for row in rows:
        if row[0] == "pairing":
            out.append([row[0], word + row[1], *row[2:]])
        elif row[0] == "duty" and row[1] in names:
            out.append([row[0], word + row[1], "P", word + row[3], *row[4:]])
        elif row[0] == "sector" and row[1] in names:
            out.append([row[0], word + row[1], *row[2:]])
    return out


def add_duties(second, whole, book, given):
    """Puts the duties of a book and its roster to those of each person in one piece, each once."""
    for person in book.persons.values():
        duties, leaves = whole.setdefault(person.name, ({}, {}))
        held = [duty for name, owner in given.items() if owner == person.name for duty in book.pairings[name].duties]
        for duty in person.fixed_duties + held:
            copy = second.Duty(0, None, duty.station, duty.report, duty.release)
            copy.sectors = duty.sectors
            duties[duty.report, duty.release] = copy
        for begin, end in person.leaves:
            leaves[begin, end] = (begin, end)


def in_one_piece(second, person, pairings, whole):
    """The person's line with all duties of all months."""
    line = second.Line(person, pairings)
    duties, leaves = whole[person.name]
    own = [duty for pairing in pairings for duty in pairing.duties]
    alone = [duty for duty in person.fixed_duties if (duty.report, duty.release) not in duties]
    line.duties = sorted([*duties.values(), *alone, *own], key=lambda duty: (duty.report, duty.release, duty.row))
    other = second.Person(person.name, person.row, person.base, person.target, person.year, person.eleven)
    other.leaves = list(leaves.values())
    line.person = other
    return line


def drawn(second, book, draw):
    """A roster at random: each pairing goes to somebody of its base, or to nobody."""
    given = {}
    for pairing in book.pairings.values():
        crew = [person.name for person in book.persons.values() if person.base is pairing.base]
        if draw.random() < 0.6:
            given[pairing.name] = draw.choice(crew)
    return given


def ledger_of(second, book, draw):
    """A ledger of a book's persons that agrees with their YEAR and ELEVEN, and reaches further back."""
    rows = {}
    this = book.year * 12 + book.month - 1
    for person in book.persons.values():
        of_year = list(range(book.year * 12, this))
        others = [n for n in range(this - 11, this) if n < book.year * 12]
        year = person.year if of_year else 0
        rest = person.eleven - year
        if not of_year and person.year or rest and not others or rest < 0:
            return None
        for months, minutes in ((of_year, year), (others, rest)):
            for n in months[:-1]:
                part = draw.randint(0, minutes)
                minutes -= part
                rows[person.name, n] = part
            if months:
                rows[person.name, months[-1]] = minutes
        rows[person.name, this - 12] = draw.randint(0, 5000)
    return rows


def ledger_text(rows):
    lines = [f"{name},{n // 12:04}-{n % 12 + 1:02},{minutes}" for (name, n), minutes in rows.items()]
    return ("PERSON,MONTH,FLIGHT\n" + "".join(f"{line}\n" for line in lines)).encode()


def csv_of(rows):
    return "".join(",".join(row) + "\n" for row in rows).encode()


def write_folder(folder, rows, pairings, ledger):
    """The tables of the persons and the pairings of these records, as a crew system has them."""
    duties = {row[1]: row[3] for row in pairings if row[0] == "duty"}
    tables = {
        "bases": [["BASE", "ZONE"], *(row[1:] for row in rows if row[0] == "base")],
        "crew": [["PERSON", "BASE", "TARGET"], *(row[1:4] for row in rows if row[0] == "crew")],
        "pairings": [["PAIRING", "BASE", "PENALTY"], *(row[1:] for row in pairings if row[0] == "pairing")],
        "duties": [["DUTY", "PAIRING", "STATION", "REPORT", "RELEASE"], *([row[1], *row[3:]] for row in pairings if row[0] == "duty")],
        "sectors": [["DUTY", "KIND", "OFF", "ON"], *(row[1:] for row in pairings if row[0] == "sector" and row[1] in duties)],
    }
    os.makedirs(folder, exist_ok=True)
    for name, content in (*((name, csv_of(rows)) for name, rows in tables.items()), ("flown", ledger)):
        with open(f"{folder}/{name}.csv", "wb") as file:
            file.write(content)


def joined(leaves):
    """Leaves, of which those that touch are one, as `book` makes them."""
    out = []
    for begin, end in sorted(leaves):
        if out and out[-1][1] == begin:
            begin = out.pop()[0]
        out.append((begin, end))
    return out


def seen(book):
    """What a book says, whatever its duties are called."""
    persons = {
        person.name: (
            person.base.name,
            person.target,
            person.year,
            person.eleven,
            sorted((duty.report, duty.release, duty.station, duty.sectors) for duty in person.fixed_duties),
            joined(person.leaves),
        )
        for person in book.persons.values()
    }
    pairings = {name: [(duty.report, duty.release, duty.station, duty.sectors) for duty in pairing.duties] for name, pairing in book.pairings.items()}
    return book.year, book.month, book.weight, persons, pairings


def counted(rows, name, year, month):
    """What a ledger has of a person before a month: in its year, and in the eleven months before it."""
    this = year * 12 + month - 1
    own = {n: minutes for (person, n), minutes in rows.items() if person == name and n < this}
    return sum(minutes for n, minutes in own.items() if n >= year * 12), sum(minutes for n, minutes in own.items() if n >= this - 11)


def with_minutes(rows, draw, month):
    """The book with YEAR and ELEVEN that can be of one person."""
    out = []
    for row in rows:
        if row[0] == "crew":
            much = draw.random() < 0.4
            year = draw.randrange(*((42000, 48000) if much else (0, 20000))) if month > 1 else 0
            row = [*row[:4], str(year), str(year if month == 12 else year + draw.randrange(0, 2000 if much else 20000))]
        out.append(row)
    return out


def wrongs(tests, run, roster, desk, second, name, rows, months, draw, folder, size, seed):
    """What is wrong with so many months that follow one another, from the one of these records on."""
    whole, rows_of_ledger, own = {}, None, None
    for number in range(months):
        data = book_of(rows)
        report = run(roster, "solve", book=data)
        if report.returncode != 0:
            yield f"solve: {report.stdout.decode()}"
            return
        book = second.read_book("solve", data)
        given = given_by(report.stdout)
        if rows_of_ledger is None:
            rows_of_ledger = ledger_of(second, book, draw)
        add_duties(second, whole, book, given)
        paths = [f"{tests.folder}/{word}-{size}-{seed}" for word in ("book.csv", "published.txt", "flown.csv")]
        ledger = ledger_text(rows_of_ledger)
        for path, content in zip(paths, (data, report.stdout, ledger)):
            with open(path, "wb") as file:
                file.write(content)
        carried = run(desk, "carry", paths[0], paths[1], "--flown", paths[2])
        if carried.returncode != 0:
            yield f"status {carried.returncode}: {carried.stderr.decode()}"
            return
        if carried.stderr:
            yield f"told {carried.stderr.decode()}"
        this = book.year * 12 + book.month - 1
        for person in book.persons.values():
            line = second.Line(person, [book.pairings[name] for name, owner in given.items() if owner == person.name])
            rows_of_ledger[person.name, this] = line.month_flight
        year, month = month_after(book.year, book.month)
        others = made_month(folder, size, seed + 1000 * (number + 1), year, month)
        rows = rows_of(carried.stdout) + pairings_of(others, "QR"[number])
        read = second.read_book("check", book_of(rows))
        # The folder's own ledger never gets a month that was carried.
        tables = f"{tests.folder}/tables-{size}-{seed}"
        own = own or ledger
        write_folder(tables, rows, pairings_of(others, "QR"[number]), own)
        into = run(desk, "carry", paths[0], paths[1], "--into", tables)
        again = run(desk, "carry", paths[0], paths[1], "--flown", paths[2], "--into", tables)
        if into.returncode or again.returncode or into.stdout or into.stderr:
            yield f"into tables: status {into.returncode}, {into.stderr.decode()}, and again {again.stderr.decode()}"
        made = run(desk, "book", tables, "--month", f"{year:04}-{month:02}", "--weight", "2")
        if made.returncode or seen(second.read_book("check", made.stdout)) != seen(read):
            yield f"another book of tables: {made.stderr.decode()}"
        for person in read.persons.values():
            if (person.year, person.eleven) != counted(rows_of_ledger, person.name, year, month):
                yield f"{person.name} has {person.year} and {person.eleven} minutes"
    book = second.read_book("check", book_of(rows))
    for _ in range(5):
        given = drawn(second, book, draw)
        assigns = [["assign", pairing, person] for pairing, person in given.items()]
        data = book_of(rows + assigns)
        check = run(roster, "check", book=data)
        if (check.stdout, check.returncode) != second.answer("check", data):
            yield f"check: {check.stdout.decode()}"
        for person in book.persons.values():
            pairings = [book.pairings[name] for name, owner in given.items() if owner == person.name]
            cut, one = second.Line(person, pairings), in_one_piece(second, person, pairings, whole)
            for word, holds in second.RULES:
                if holds(cut) != holds(one):
                    yield f"{person.name} {word}: {holds(cut)} over the cut, and {holds(one)} in one piece"


def one_carry(tests, run, roster, desk, second, folder, seed):
    """Months that follow one another, and how they are judged."""
    draw = random.Random(seed)
    size = SIZES[seed % len(SIZES)]
    year, month = FIRST[seed % len(FIRST)]
    rows = with_minutes(crowded(made_month(folder, size, seed, year, month), draw, year, month), draw, month)
    name = f"carried month {size} {seed}"
    months = 2 if seed % 3 == 0 else 1
    tests.told(name, *wrongs(tests, run, roster, desk, second, name, rows, months, draw, folder, size, seed))


def carries(tests, run, roster, desk, folder, first, count):
    """So many, from this seed on."""
    second = second_solver(folder)
    for seed in range(first, first + count):
        one_carry(tests, run, roster, desk, second, folder, seed)


# Of examples/month-of-two-bases.csv and its report. BRUNO has 15500 and 44000 minutes before March and flies 630, and he
# has L2 and L4, which ends at 03:00 UTC on the 31st. LARS flies 280.
APRIL = b"""crew,ANA,LIS,900,14830,42830
crew,BRUNO,LIS,600,16130,44630
crew,KARI,OSL,700,12640,39640
crew,LARS,OSL,700,53980,58280
"""
OF_BRUNO = b"""leave,BRUNO,2024-03-11T00:00Z,2024-03-18T00:00Z
duty,2024-03-5,C,BRUNO,LIS,2024-03-06T03:00Z,2024-03-06T12:00Z
sector,2024-03-5,O,2024-03-06T04:00Z,2024-03-06T07:30Z
sector,2024-03-5,O,2024-03-06T08:20Z,2024-03-06T11:20Z
duty,2024-03-6,C,BRUNO,LIS,2024-03-30T20:00Z,2024-03-31T03:00Z
sector,2024-03-6,O,2024-03-30T21:00Z,2024-03-30T23:00Z
sector,2024-03-6,O,2024-03-31T00:00Z,2024-03-31T02:00Z
"""
# A ledger by which BRUNO has 15500 minutes in the year and 28500 in the nine months before it, of which April is the
# eleventh before March and no more counts in April's eleven.
OF_LEDGER = b"PERSON;FLIGHT;MONTH\r\nBRUNO;100:00;2024-01\r\nBRUNO;9500;2024-02\r\nBRUNO;22500;2023-12\r\nBRUNO;6000;2023-04\r\n"
# What is wrong with a ledger, and what is told of it.
WRONG_LEDGERS = [
    (b"PERSON,MONTH,FLIGHT\nANA,2024-01,5\nANA,2024-02,5\nANA,2024-01,5\n", b", line 4, MONTH: has 2024-01; wanted each month of a person once\n"),
    (b"PERSON,MONTH,FLIGHT\nANA,2024-03,5\n", b", line 2, MONTH: has 2024-03; wanted no row of the book's month, whose flight is added\n"),
    (b"PERSON,MONTH,FLIGHT\nANA,2024-1,5\n", b", line 2, MONTH: has 2024-1; wanted a month as 2024-06\n"),
    (b"PERSON,MONTH\nANA,2024-01\n", b", line 1, FLIGHT: has nothing; wanted a column of this name in the header row\n"),
    (b"PERSON,MONTH,FLIGHT\nANA,2024-01,soon\n", b", line 2, FLIGHT: has soon; wanted hours and minutes as 75:30, or minutes, 60000 at most\n"),
]


def april_of_two_bases(tests, run, roster, desk, folder):
    """April after the month of two bases, and what is refused."""
    book, report = (f"{folder}/examples/month-of-two-bases.{end}" for end in ("csv", "txt"))
    made = run(desk, "carry", book, report)
    tests.told(
        "April after the month of two bases",
        made.returncode != 0 and f"status {made.returncode}",
        not made.stdout.startswith(b"period,2024-04\nweight,2\nbase,LIS,") and "another month",
        APRIL not in made.stdout and "other persons",
        OF_BRUNO not in made.stdout and "other duties",
        (b"pairing" in made.stdout or b"cost" in made.stdout) and "more than is carried",
        b"ELEVEN" not in made.stderr and f"told {made.stderr}",
        run(roster, "check", book=made.stdout).returncode != 0 and "a faulty book",
    )
    ledger = f"{tests.folder}/ledger.csv"
    with open(ledger, "wb") as file:
        file.write(OF_LEDGER)
    made = run(desk, "carry", book, report, "--flown", ledger)
    # 44000 less April 2023, and with March.
    told = b"note: ANA: YEAR and ELEVEN before 2024-03 are 14000 and 42000 by the book, 0 and 0 by the ledger, which counts\n"
    tests.told(
        "April by a ledger",
        made.returncode != 0 and f"status {made.returncode}: {made.stderr}",
        b"crew,BRUNO,LIS,600,16130,38630\n" not in made.stdout and "other minutes of BRUNO",
        b"crew,ANA,LIS,900,830,830\n" not in made.stdout and "other minutes of ANA",
        (not made.stderr.startswith(told) or b"BRUNO" in made.stderr) and f"told {made.stderr}",
    )
    for wrong, end in WRONG_LEDGERS:
        with open(ledger, "wb") as file:
            file.write(wrong)
        ended = run(desk, "carry", book, report, "--flown", ledger)
        tests.told(
            f"a ledger with {wrong}",
            ended.returncode != 1 and f"status {ended.returncode}",
            ended.stdout and "standard output",
            ended.stderr != b"error: " + ledger.encode() + end and f"told {ended.stderr}",
        )
    with open(report, "rb") as file:
        text = file.read()
    for name, old, new, status, told in (
        ("another month", b"ROSTER 2024-03", b"ROSTER 2024-04", 1, b"error: -, line 1: the book is of another month\n"),
        ("a person who isn't there", b"CREW LARS", b"CREW LARA", 1, b"error: -, line 6: the book has no such person\n"),
        ("a pairing that isn't there", b" K2", b" K9", 1, b"error: -, line 6: the book has no such pairing\n"),
    ):
        ended = run(desk, "carry", book, "-", book=text.replace(old, new))
        tests.told(
            f"a report of {name}",
            ended.returncode != status and f"status {ended.returncode}",
            ended.stdout and "standard output",
            ended.stderr != told and f"told {ended.stderr}",
        )
    for paths in ((f"{book}.not", report), (book, f"{report}.not")):
        ended = run(desk, "carry", *paths)
        tests.told("a file that isn't there", ended.returncode != 4 and f"status {ended.returncode}", ended.stdout and "standard output")


# What a folder has of months that were carried into it before, and what it has after March: rows of who isn't in the book
# stay, and so do other months of the ledger.
BEFORE = {
    "carried-activities": b"PERSON;STATION;CODE;FROM;TO\nZOE;LIS;2024-03;2024-03-02T08:00Z;2024-03-02T12:00Z\nANA;LIS;2024-02;2024-02-02T08:00Z;2024-02-02T12:00Z\n",
    "carried-flown": b"MONTH,PERSON,FLIGHT\n2024-02,ANA,100\n2024-03,ANA,7\n2024-03,ZOE,0:55\n",
}
AFTER = {
    "carried-activities": b"""PERSON,CODE,STATION,FROM,TO
ZOE,2024-03,LIS,2024-03-02T08:00Z,2024-03-02T12:00Z
ANA,2024-03,LIS,2024-03-04T06:00Z,2024-03-04T15:30Z
ANA,2024-03,MAD,2024-03-05T08:00Z,2024-03-05T14:00Z
ANA,2024-03,LIS,2024-03-07T08:00Z,2024-03-07T16:00Z
ANA,2024-03,LIS,2024-03-12T06:00Z,2024-03-12T15:00Z
BRUNO,2024-03,LIS,2024-03-06T03:00Z,2024-03-06T12:00Z
BRUNO,2024-03,LIS,2024-03-30T20:00Z,2024-03-31T03:00Z
KARI,2024-03,OSL,2024-03-04T05:00Z,2024-03-04T13:00Z
KARI,2024-03,OSL,2024-03-21T06:00Z,2024-03-21T14:00Z
KARI,2024-03,OSL,2024-03-26T06:00Z,2024-03-26T14:00Z
LARS,2024-03,OSL,2024-03-20T15:00Z,2024-03-20T22:00Z
""",
    "carried-leave": b"PERSON,FROM,TO\nBRUNO,2024-03-11T00:00Z,2024-03-18T00:00Z\n",
    "carried-flown": b"PERSON,MONTH,FLIGHT\nANA,2024-02,100\nZOE,2024-03,0:55\nANA,2024-03,830\nBRUNO,2024-03,630\nKARI,2024-03,640\nLARS,2024-03,280\n",
}


def april_into_tables(tests, run, desk, folder):
    """The same into tables of a folder."""
    book, report = (f"{folder}/examples/month-of-two-bases.{end}" for end in ("csv", "txt"))
    tables = f"{tests.folder}/into"
    os.makedirs(tables)
    for name, content in BEFORE.items():
        with open(f"{tables}/{name}.csv", "wb") as file:
            file.write(content)
    ended = run(desk, "carry", book, report, "--into", tables)
    found = {}
    for name in os.listdir(tables):
        with open(f"{tables}/{name}", "rb") as file:
            found[name.removesuffix(".csv")] = file.read()
    sectors = found.pop("carried-sectors", b"")
    tests.told(
        "April into tables",
        ended.returncode != 0 and f"status {ended.returncode}: {ended.stderr}",
        ended.stdout and "standard output",
        b"ANA: YEAR and ELEVEN before 2024-03 are 14000 and 42000 by the book, 100 and 100 by the ledger" not in ended.stderr and f"told {ended.stderr}",
        found != AFTER and f"other tables {found}",
        b"\nANA,2024-03-04T13:30Z,2024-03-04T15:00Z,P\n" not in sectors and f"other sectors {sectors}",
    )
    wrong = b"PERSON,FROM\nANA,2024-03-01T00:00Z\n"
    with open(f"{tables}/carried-leave.csv", "wb") as file:
        file.write(wrong)
    ended = run(desk, "carry", book, report, "--into", tables)
    with open(f"{tables}/carried-leave.csv", "rb") as file:
        kept = file.read()
    tests.told(
        "into a table without a column",
        ended.returncode != 1 and f"status {ended.returncode}",
        not ended.stderr.endswith(f"error: {tables}/carried-leave.csv, line 1, TO: has nothing; wanted a column of this name in the header row\n".encode()) and f"told {ended.stderr}",
        kept != wrong and "a table that isn't as it was",
        any(name.endswith(".part") for name in os.listdir(tables)) and "a file that isn't whole",
    )
    ended = run(desk, "carry", book, report, "--into", "")
    tests.told("into no folder", ended.returncode != 2 and f"status {ended.returncode}", ended.stderr != b"error: --into wants the path of a folder\n" and f"told {ended.stderr}")
    ended = run(desk, "carry", book, report, "--into", f"{tables}/not")
    tests.told(
        "into a folder that isn't there",
        ended.returncode != 4 and f"status {ended.returncode}",
        not ended.stderr.endswith(f"error: the tables of {tables}/not can't be written\n".encode()) and f"told {ended.stderr}",
    )


def april_without_room(tests, run, desk, folder):
    """The same into a folder that has no room for all tables, and into one that can't be written: it stays as it was."""
    book, report = (f"{folder}/examples/month-of-two-bases.{end}" for end in ("csv", "txt"))
    tables = f"{tests.folder}/small"
    os.makedirs(tables)
    if os.geteuid() != 0 or subprocess.run(["mount", "-t", "tmpfs", "-o", "size=16k", "none", tables], capture_output=True, check=False).returncode:
        print("tables without room are skipped: it needs root, and mount")
        return
    try:
        # Each file takes 4 kB.
        for name, content in BEFORE.items():
            with open(f"{tables}/{name}.csv", "wb") as file:
                file.write(content)
        for what in ("rw", "ro"):
            subprocess.run(["mount", "-o", f"remount,{what}", tables], check=True)
            ended = run(desk, "carry", book, report, "--into", tables)
            found = {}
            for name in os.listdir(tables):
                with open(f"{tables}/{name}", "rb") as file:
                    found[name.removesuffix(".csv")] = file.read()
            tests.told(
                f"into a folder without room, {what}",
                ended.returncode != 4 and f"status {ended.returncode}",
                not ended.stderr.endswith(f"error: the tables of {tables} can't be written\n".encode()) and f"told {ended.stderr}",
                found != BEFORE and f"other tables {sorted(found)}",
            )
    finally:
        subprocess.run(["umount", tables], check=False)

"""What `tests/desk` asks of `fault`, `warn` and `chart`."""

import csv
import glob
import html.parser
import os
import random
import re
import shutil
import subprocess
import tempfile
import time
from datetime import datetime, timedelta

GOOD = """period,2024-06
weight,2
base,ZRH,UTC0
base,LHR,UTC0
crew,ANNA,ZRH,300,24000,41000
crew,BEN,ZRH,0,22500,39000
leave,ANNA,2024-06-10T00:00Z,2024-06-12T00:00Z
duty,SIM,C,BEN,ZRH,2024-06-13T07:00Z,2024-06-13T15:00Z
pairing,P1,ZRH,500
duty,D1,P,P1,ZRH,2024-06-11T14:00Z,2024-06-11T22:00Z
sector,D1,O,2024-06-11T15:00Z,2024-06-11T16:45Z
duty,D2,P,P1,LHR,2024-06-12T08:00Z,2024-06-12T12:00Z
cost,ANNA,P1,-50
assign,P1,BEN
"""
# Records behind a good book, each with the code, the field that is told, and the other record's row, from
# reasoning on paper. They are the mistakes of the tables of docs/REPORT.md.
MISTAKES = [
    ("Crew,CARL,ZRH,0,0,0", 2, "the kind", None),
    (" crew,CARL,ZRH,0,0,0", 2, "the kind", None),
    ("# a comment", 2, "the kind", None),
    ("step,halve,0", 2, "the kind", None),
    ("crew,CARL,ZRH,0,0", 3, "ELEVEN", None),
    ("crew,CARL,ZRH,0,0,0,", 3, "one too many", None),
    ("crew,CARL,ZRH,0,10,000,0", 3, "one too many", None),
    ("base,OSL,CET-1CEST,M3.5.0,M10.5.0/3", 3, "ZONE", None),
    ('pairing,"P2,ZRH,5\nduty,D3,P,P2', 3, "ID", None),
    ("duty,D3,P,P1,LHR,2024-06-13T8:00Z,2024-06-13T14:00Z", 4, "REPORT", None),
    ("duty,D3,P,P1,LHR,2024-06-13 08:00,2024-06-13T14:00Z", 4, "REPORT", None),
    ("duty,D3,P,P1,LHR,2024-06-31T08:00Z,2024-07-01T14:00Z", 4, "REPORT", None),
    ("duty,D3,P,P1,LHR,2024-06-13T08:00Z,2024-06-13T24:00Z", 4, "RELEASE", None),
    ("duty,D3,P,P1,LHR,2024-06-13T08:00:00Z,2024-06-13T14:00Z", 4, "REPORT", None),
    ("duty,D3,P,P1,LHR,2024-06-13T08:00Z,2024-06-13T14:00+01:00", 4, "RELEASE", None),
    ("duty,D3,P,P1,LHR,2024-06-13T08:00,2024-06-13T14:00Z", 4, "REPORT", None),
    ("duty,D3,P,P1,LHR,2024-06-13t08:00z,2024-06-13T14:00Z", 4, "REPORT", None),
    ("period,Jun-24", 4, "YYYY-MM", None),
    ("period,2024-06-01", 4, "YYYY-MM", None),
    ("period,2024-3", 4, "YYYY-MM", None),
    ("period,03/2024", 4, "YYYY-MM", None),
    ("period, 2024-06", 4, "YYYY-MM", None),
    ("crew,ANNA MEIER,ZRH,0,0,0", 4, "ID", None),
    ("crew,REN\u00c9,ZRH,0,0,0", 4, "ID", None),
    ("crew,ANNA-MEIER-HUBER-1,ZRH,0,0,0", 4, "ID", None),
    ("crew,-ANNA,ZRH,0,0,0", 4, "ID", None),
    ("crew,O'HARA,ZRH,0,0,0", 4, "ID", None),
    ("duty,D3,P,P1,Z\u00dcRICH,2024-06-13T08:00Z,2024-06-13T14:00Z", 4, "STATION", None),
    ("duty,D3,p,P1,LHR,2024-06-13T08:00Z,2024-06-13T14:00Z", 4, "P or C", None),
    ("crew,ANNA-MEIER-HUBER,ZRH,0,0,60001", 5, "ELEVEN", None),
    ("crew,ANNA.MEIER,ZRH,0,0,0", 4, "ID", None),
    ("crew,ANNA/MEIER,ZRH,0,0,0", 4, "ID", None),
    ("crew,_ANNA,ZRH,0,0,0", 4, "ID", None),
    ("crew, CARL,ZRH,0,0,0", 4, "ID", None),
    ("crew,CARL,ZRH ,0,0,0", 4, "BASE", None),
    ("duty,D3,P,P1,LHR,2024-06-13T08:00+00:00,2024-06-13T14:00Z", 4, "REPORT", None),
    ("sector,D1,X,2024-06-11T17:00Z,2024-06-11T18:00Z", 4, "O or P", None),
    ("sector,D1,O,2024-06-11,2024-06-11T18:00Z", 4, "OFF", None),
    ("sector,D1,O,2024-06-11T17:00Z,18:00", 4, "ON", None),
    ("leave,BEN,2024-06-20,2024-06-21T00:00Z", 4, "FROM", None),
    ("leave,BEN,2024-06-20T00:00Z,2024-06-21", 4, "TO", None),
    ("crew,CARL,ZRH,,0,0", 4, "TARGET", None),
    ("crew,CARL,ZRH,0,1.5,0", 4, "YEAR", None),
    ("crew,CARL,ZRH,0,0,+5", 4, "ELEVEN", None),
    ("crew,CARL,ZRH,0,0,10 000", 4, "ELEVEN", None),
    ("pairing,P2,ZRH,1e3", 4, "PENALTY", None),
    ("pairing,P2,ZRH,10.0", 4, "PENALTY", None),
    ("pairing,P2,ZRH,10'000", 4, "PENALTY", None),
    ("pairing,P2,ZRH,5 ", 4, "PENALTY", None),
    ("base,OSL," + "U" * 65, 4, "ZONE", None),
    ("cost,BEN,P1,1234567890123", 4, "UNITS", None),
    ("base,OSL,UTC 0", 4, "ZONE", None),
    ("assign,P1,--", 4, "PERSON", None),
    ("weight,x", 4, "W", None),
    ("pairing,P2,ZRH,-5", 5, "PENALTY", None),
    ("crew,CARL,ZRH,0,0,60001", 5, "ELEVEN", None),
    ("weight,-1", 5, "W", None),
    ("cost,BEN,P1,-1000000001", 5, "UNITS", None),
    ("period,2024-07", 6, "YYYY-MM", 1),
    ("weight,2", 6, "W", 2),
    ("base,LHR,UTC0", 6, "ID", 4),
    ("crew,ANNA,ZRH,0,0,0", 6, "ID", 5),
    ("pairing,P1,ZRH,0", 6, "ID", 9),
    ("duty,D1,C,ANNA,ZRH,2024-06-20T08:00Z,2024-06-20T14:00Z", 6, "ID", 10),
    ("cost,ANNA,P1,7", 6, "PAIRING", 13),
    ("assign,P1,-", 6, "PAIRING", 14),
    ("crew,CARL,OSL,0,0,0", 7, "BASE", None),
    ("pairing,P2,zrh,0", 7, "BASE", 3),
    ("duty,D3,P,p1,LHR,2024-06-13T08:00Z,2024-06-13T14:00Z", 7, "PAIRING", 9),
    ("duty,D3,P,ANNA,LHR,2024-06-13T08:00Z,2024-06-13T14:00Z", 7, "PAIRING", 5),
    ("duty,D3,C,P1,LHR,2024-06-13T08:00Z,2024-06-13T14:00Z", 7, "PERSON", 9),
    ("duty,D3,P,P9,LHR,2024-06-13T08:00Z,2024-06-13T14:00Z", 7, "PAIRING", None),
    ("sector,D9,O,2024-06-13T08:00Z,2024-06-13T14:00Z", 7, "DUTY", None),
    ("leave,CARL,2024-06-20T00:00Z,2024-06-21T00:00Z", 7, "PERSON", None),
    ("cost,CARL,P1,5", 7, "PERSON", None),
    ("cost,ANNA,P9,5", 7, "PAIRING", None),
    ("assign,P9,ANNA", 7, "PAIRING", None),
    ("duty,D3,P,P1,LHR,2024-06-13T22:00Z,2024-06-13T02:00Z", 8, "RELEASE", None),
    ("duty,D3,P,P1,LHR,2024-06-12T11:59Z,2024-06-12T13:00Z", 8, "REPORT", 12),
    ("sector,D1,O,2024-06-11T18:00Z,2024-06-11T17:00Z", 8, "ON", None),
    ("sector,D1,O,2024-06-11T16:44Z,2024-06-11T17:00Z", 8, "OFF", 11),
    ("sector,D2,O,2024-06-11T16:00Z,2024-06-12T09:00Z", 8, "OFF", 12),
    ("sector,D1,O,2024-06-11T21:00Z,2024-06-11T22:01Z", 8, "ON", 10),
    ("leave,BEN,2024-06-21T00:00Z,2024-06-21T00:00Z", 8, "TO", None),
    ("duty,D3,P,P1,LHR,2025-06-13T08:00Z,2025-06-13T14:00Z", 9, "RELEASE", None),
    ("duty,D3,C,ANNA,LHR,2024-04-26T23:59Z,2024-04-27T14:00Z", 9, "REPORT", None),
    ("leave,BEN,2024-01-21T00:00Z,2024-06-01T00:00Z", 9, "FROM", None),
    ("leave,BEN,2024-06-21T00:00Z,2024-08-21T00:00Z", 9, "TO", None),
    ("base,OSL,Europe/Oslo", 10, "ZONE", None),
    ("base,OSL,CET", 10, "ZONE", None),
    ("base,OSL,UTC", 10, "ZONE", None),
    ("base,OSL,CET-1CEST", 10, "ZONE", None),
    ("base,OSL,AMT-0:19:32", 10, "ZONE", None),
    ("pairing,P2,ZRH,0\nduty,D3,P,P2,LHR,2024-06-13T08:00Z,2024-06-13T14:00Z", 12, "STATION", 15),
    ("pairing,P2,ZRH,0\nduty,D3,P,P2,ZRH,2024-05-31T23:59Z,2024-06-01T14:00Z", 12, "REPORT", 15),
    ("leave,BEN,2024-06-13T14:59Z,2024-06-14T00:00Z", 13, "FROM", 8),
    ("leave,BEN,2024-06-13T00:00Z,2024-06-13T07:01Z", 13, "TO", 8),
    ("duty,T1,C,ANNA,ZRH,2024-06-11T23:00Z,2024-06-12T06:00Z", 13, "REPORT", 7),
    ("leave,ANNA,2024-06-10T00:00Z,2024-06-12T00:00Z", 13, "FROM", 7),
    ("pairing,P2,ZRH,0", 14, "ID", None),
]
FIRST = [
    ("", "1 1", None),
    ("KIND,FIELDS\n" + GOOD, "1 1", "the kind"),
    ("period;2024-06\n", "1 1", "the kind"),
    (GOOD.replace("period", "Period"), "1 1", "the kind"),
    (GOOD.replace("UTC0", "UTC0\n" * 17, 1), "4 2", "the kind"),
    ("period,2024-06\n" + "".join(f"base,B{i},UTC0\n" for i in range(17)), "18 11", "the kind"),
]
# Books whose last record has a fault, with its row and the line on which it begins.
LINES = [
    (b"period,2024-06\r\n\r\nbase,ZRH,UTC 0\r\n", "2 4", "3"),
    (b"period,2024-06\r\rbase,ZRH,UTC 0\r", "2 4", "3"),
    (b"\xef\xbb\xbfperiod,2024-06\n\n\nbase,ZRH,UTC 0", "2 4", "4"),
    (b'period,2024-06\nbase,Z,"UTC\n\n0"', "2 4", "2"),
    (b'\nperiod,2024-06\ncrew,"A\nB",\n\n\nbase,C,x\n', "3 10", "7"),
]
# A line that begins a fault, and the lines below it.
HEAD = re.compile(r"^FAULT (\d+) (\d+)$", re.M)


def faults(text):
    """The faults of a text: row, code, and the lines by their labels."""
    found = []
    for line in text.splitlines():
        if HEAD.match(line):
            found.append((line[6:], {}))
        elif line.startswith("  ") and found:
            label, value = line[2:10].strip(), line[10:]
            found[-1][1][label] = value
    return found


def mistakes(desk, tests):
    for records, code, field, other in MISTAKES:
        book = GOOD + records + "\n"
        told = desk("fault", "-", book=book.encode())
        found = faults(told.stdout.decode())
        wrong = told.returncode != 0 and f"status {told.returncode}"
        if not wrong and len(found) < 1:
            wrong = "no fault"
        elif not wrong:
            head, lines = found[0]
            rows = 14 + records.count("\n") + 1 - ('"' in records)
            wrong = (
                (head != f"{rows} {code}" and f"another fault: {head}")
                or (lines.get("field") != field and f"another field: {lines.get('field')}")
                or (lines.get("line") != str(14 + records.count("\n") + 1 - ('"' in records)) and f"another line: {lines.get('line')}")
                or (other is not None and not lines.get("other", "").startswith(f"record {other},") and f"another record: {lines.get('other')}")
                or (not lines.get("wanted") and "nothing is wanted")
            )
        tests.told(f"fault of {records!r}", wrong)
    # Code 11 once, with how many there are.
    many = "period,2024-06\nbase,ZRH,UTC0\n" + "".join(f"crew,C{n},ZRH,0,0,0\n" for n in range(200))
    found = faults(desk("fault", "-", book=many.encode()).stdout.decode())
    is_told = len(found) == 1 and found[0][0] == "131 11" and found[0][1].get("wanted") == "128 records of crew at most; the book has 200"
    tests.told("200 persons", not is_told and f"told are {found}")
    for book, head, line in LINES:
        found = faults(desk("fault", "-", book=book).stdout.decode())
        wrong = not found and "no fault" or (found[-1][0], found[-1][1].get("line")) != (head, line) and f"told is {found[-1]}"
        tests.told(f"the line in {book!r}", wrong)
    for book, head, field in FIRST:
        told = desk("fault", "-", book=book.encode())
        found = faults(told.stdout.decode())
        wrong = not found and "no fault" or found[0][0] != head and f"another fault: {found[0][0]}"
        tests.told(f"fault of {book[:30]!r}", wrong or field and found[0][1].get("field") != field and f"another field: {found[0][1]}")


def codes_in_documents(root, desk, tests, told):
    """What a code says stands in the table of docs/REPORT.md."""
    report = open(f"{root}/docs/REPORT.md", encoding="utf-8").read()
    for code, words in sorted(told.items()):
        tests.told(f"code {code} in docs/REPORT.md", f"| {code} | {words}" not in report and f"other words: {words}")
    # Code 15 is no fault of a book for the desk: `crowded_books` asks for its words.
    tests.told("codes of data/", set(told) != set(range(1, 15)) and f"only {sorted(told)}")


def fault_books(root, desk, check, tests):
    """Each refused book of data/ is told with the row and code of a check."""
    told_codes = {}
    for name in sorted(os.listdir(f"{root}/data")):
        path = f"{root}/data/{name}/book.csv"
        book = open(path, "rb").read()
        if b"step," in book:
            continue
        wanted = check(book)
        told = desk("fault", path)
        text = told.stdout.decode()
        found = faults(text)
        if wanted.startswith("FAULT "):
            wrong = not found and "no fault" or found and "FAULT " + found[0][0] != wanted and "another fault"
        else:
            wrong = not text.startswith("NO FAULT\n") and "a fault"
        for head, lines in found:
            code = int(head.split()[1])
            words = lines.get("code", "")
            if words.startswith("the record "):
                told_codes[code] = words[len("the record ") :]
            elif head != "1 1":
                wrong = wrong or "no words"
        tests.told(f"fault of {name}", told.returncode != 0 and f"status {told.returncode}", wrong)
    codes_in_documents(root, desk, tests, told_codes)


def broken(books, draw):
    """A book with a few bytes, fields or lines changed."""
    book = bytearray(draw.choice(books))
    for _ in range(draw.randint(1, 4)):
        kind = draw.randint(0, 6)
        at = draw.randint(0, max(0, len(book) - 1))
        if kind == 0:
            book[at : at + 1] = bytes([draw.randint(0, 255)])
        elif kind == 1:
            del book[at : at + draw.randint(1, 30)]
        elif kind == 2:
            book[at:at] = draw.choice([b",", b'"', b"\n", b"\r\n", b"\x00", b"\xff\xfe", b" ", b"<b>", b"-", b"9" * 13, b"\xc3\xa9", b"\xe2\x80\xae"])
        elif kind == 3:
            lines = book.split(b"\n")
            draw.shuffle(lines)
            book = bytearray(b"\n".join(lines))
        elif kind == 4:
            lines = book.split(b"\n")
            lines.insert(draw.randint(0, len(lines)), draw.choice(lines))
            book = bytearray(b"\n".join(lines))
        elif kind == 5:
            lines = book.split(b"\n")
            del lines[draw.randint(0, len(lines) - 1)]
            book = bytearray(b"\n".join(lines))
        else:
            book[at:at] = draw.choice(books)[: draw.randint(0, 200)]
    return bytes(book)


def crowded_books(root, desk, tests):
    """A book that only `solve` refuses has no fault; the person is told whose legal sets are too many for it."""
    folder = f"{root}/data/294783-legal-sets"
    text = desk("fault", f"{folder}/book.csv").stdout.decode()
    # `solve` tells the number of the record.
    row = int(open(f"{folder}/stdout", encoding="utf-8").read().split()[1])
    record = open(f"{folder}/book.csv", encoding="utf-8").read().splitlines()[row - 1]
    told = text.partition("\nNOT FOR SOLVE\n")[2].splitlines()
    why = f"  why     `roster solve` can't list all legal sets of {record.split(',')[1]}: there are more than "
    tests.told(
        "a person with too many sets",
        not text.startswith("NO FAULT\n") and "a fault",
        "FAULT" in text.removeprefix("NO FAULT") and "a fault behind it",
        (told[:2] != [f"  line    {row}", f"  record  {record}"] or not told[2].startswith(why)) and f"told is {told}",
        "roster-desk plan" not in told[-1] and "no way out",
    )
    book = open(f"{folder}/book.csv", encoding="utf-8").read().splitlines()
    crew = next(i for i, line in enumerate(book) if line.startswith("crew"))
    book[crew:crew] = ["base,NOWHERE,UTC0", "crew,NOBODY,NOWHERE,0,0,0"]
    text = desk("fault", "-", book="\n".join(book).encode()).stdout.decode()
    tests.told("behind a person with few sets", f"  line    {row + 2}\n  record  {record}\n" not in text and f"told is {text}")
    most = told[2].removeprefix(why).split(",")[0]
    said = f"| 15 | gives a person who has more than {most} legal sets"
    tests.told("code 15 in docs/REPORT.md", said not in open(f"{root}/docs/REPORT.md", encoding="utf-8").read() and f"another number: {told}")
    few = desk("fault", f"{root}/data/196527-legal-sets/book.csv").stdout.decode()
    tests.told("a person with as many sets as there may be", "SOLVE" in few and "too many")


# How many books are broken at random.
BROKEN = 2000
# What is asked of a broken book beside its faults.
ASKED = [["why"], ["limits"], ["table"], ["table", "--persons"], ["chart"], ["warn"], ["fair"], ["plan", "--effort", "0"]]


def is_clean(text):
    """Whether it is UTF-8 without control characters, and without those that turn the direction of writing."""
    try:
        return not any(ord(c) < 32 and c != "\n" or 127 <= ord(c) < 160 or c in "\u202e\ufeff" for c in text.decode())
    except UnicodeDecodeError:
        return False


def wrong_fault(told, wanted):
    """What is wrong with the faults that are told of a book, of which a check tells this first line."""
    first = told.stdout.split(b"\n")[0].decode("utf-8", "replace")
    is_right = first == wanted if wanted.startswith("FAULT ") else first == "NO FAULT"
    return (told.returncode != 0 or told.stderr or not is_clean(told.stdout) or not is_right) and first


def wrong_answer(told, wanted):
    """What is wrong with an answer of another command: a book with a fault gets its line and status 1."""
    is_fault = wanted.startswith("FAULT ")
    is_right = told.returncode == is_fault and not told.stderr and is_clean(told.stdout)
    return (not is_right or is_fault and told.stdout.decode() != wanted + "\n") and told.stdout[:100]


def broken_books(root, desk, check, tests, count, seed):
    """No broken book stops the desk, and the first fault is that of a check."""
    books = []
    for name in sorted(os.listdir(f"{root}/data")):
        book = open(f"{root}/data/{name}/book.csv", "rb").read()
        if len(book) < 4000 and b"step," not in book:
            books.append(book)
    draw = random.Random(seed)
    failed = faulty = 0
    for n in range(count):
        book = broken(books, draw)
        wanted = check(book)
        faulty += wanted.startswith("FAULT ")
        asked = draw.choice(ASKED)
        for words, wrong in ((["fault"], wrong_fault), (asked, wrong_answer)):
            told = desk(*words, "-", book=book)
            if wrong(told, wanted):
                failed += 1
                tests.told(f"{words} of broken book {n}", f"not of {wanted}: {told} of {book[:300]!r}")
    tests.told(f"{count} broken books, {faulty} with a fault", failed and f"{failed} are told otherwise")


def odd_books(desk, tests):
    """Fields of a megabyte, and what isn't text."""
    for name, field in [("a megabyte", b"A" * 1000000), ("markup", b"<script>&"), ("no text", b"\xff\x00\x1b[31m\xe2\x80\xae")]:
        told = desk("fault", "-", book=b"period,2024-06\nbase," + field + b",UTC0\ncrew,A," + field + b",0,0,0\n")
        tests.told(
            f"a field of {name}",
            told.returncode != 0 and "a status",
            len(told.stdout) > 3000 and "too long",
            not is_clean(told.stdout) and "control characters",
            len(faults(told.stdout.decode())) != 2 and "other faults",
        )


CREWS = "".join(f"crew,C{n},ZRH,0,{60 * n},{120 * n}\n" for n in range(1, 6))
LEAVES = "".join(f"crew,C{n},LHR,0,0,7\nleave,C{n},2024-06-20T00:00Z,2024-06-21T00:00Z\n" for n in range(3))
NIGHTS = "base,VIE,CET-1\n" + "".join(
    f"pairing,N{n},VIE,0\nduty,N{n},P,N{n},VIE,2024-06-{n + 10}T22:30Z,2024-06-{n + 11}T04:00Z\n" for n in range(8)
)
# Eight that are released at 22:30 in UTC, an hour before that by the clocks, and four in the night by both.
LATE = "base,VIE,CET-1\n" + "".join(
    f"pairing,N{n},VIE,0\nduty,N{n},P,N{n},VIE,2024-06-{n + 10}T16:00Z,2024-06-{n + 10}T22:30Z\n" for n in range(8)
)
LATER = "".join(f"pairing,M{n},VIE,0\nduty,M{n},P,M{n},VIE,2024-06-{n + 10}T18:00Z,2024-06-{n + 11}T00:30Z\n" for n in range(4))
# Five leaves of whole days in UTC; by the clocks they begin at 01:00.
DAYS = "base,VIE,CET-1\n" + "".join(f"crew,L{n},VIE,0,0,7\nleave,L{n},2024-06-1{n}T00:00Z,2024-06-1{n + 1}T00:00Z\n" for n in range(5))
# Three persons with targets, and 1646 minutes of flight beside the 105 of the good book: of 1920 that are wanted 169 less,
# as 105060 of 115200 are, and of 1830 only 79 less.
FLIGHTS = "".join(f"crew,C{n},ZRH,%d,0,0\n" for n in range(3)) + "".join(
    f"pairing,F{n},ZRH,5\nduty,F{n},P,F{n},ZRH,2024-06-{n + 20}T06:00Z,2024-06-{n + 20}T18:00Z\n"
    f"sector,F{n},O,2024-06-{n + 20}T07:00Z,2024-06-{n + 20}T16:{8 + (n > 0):02}Z\n"
    for n in range(3)
)
# Nine pairings of a morning, the last two of which have the same one.
MORNINGS = "".join(
    f"pairing,T{n},ZRH,0\nduty,T{n},P,T{n},ZRH,2024-06-{min(n, 8) + 10}T08:00Z,2024-06-{min(n, 8) + 10}T12:00Z\n" for n in range(1, 10)
)
# Four pairings home from OSL, whose last sectors take 1:40, 1:55, 1:32 and 1:44, and one whose last sector takes so long.
HOMES = "".join(
    f"pairing,H{n},ZRH,9\nduty,U{n},P,H{n},ZRH,2024-06-{n + 10}T06:00Z,2024-06-{n + 10}T10:00Z\nsector,U{n},O,2024-06-{n + 10}T07:00Z,2024-06-{n + 10}T08:40Z\n"
    f"duty,V{n},P,H{n},OSL,2024-06-{n + 11}T06:00Z,2024-06-{n + 11}T10:00Z\nsector,V{n},O,2024-06-{n + 11}T07:00Z,2024-06-{n + 11}T{last}Z\n"
    for n, last in enumerate(("08:40", "08:55", "08:32", "08:44", "07:%d"))
)
NO_CREW = re.sub(r"crew,(ANNA|BEN),ZRH,(\d+),\d+,\d+", r"crew,\1,ZRH,\2,0,0", GOOD)
# Books with the words that are told of them, and the row of the first, from reasoning on paper.
WARNINGS = [
    (GOOD, []),
    (GOOD + "base,OSL,CET+1\n", [("ZONE", 15)]),
    (GOOD + "base,OSL,UTC+1\n", [("ZONE", 15)]),
    (GOOD + "base,OSL,<+03>3\n", [("ZONE", 15)]),
    (GOOD + "base,NYC,EST-5EDT\n".replace("EDT", ""), [("ZONE", 15)]),
    (GOOD + "base,OSL,CET0\n", [("ZONE", 15)]),
    (GOOD + "crew,CARL,ZRH,0,500,499\n", [("YEAR", 15)]),
    (GOOD + "crew,CARL,ZRH,0,500,500\n", []),
    ("period,2024-01\nbase,ZRH,UTC0\ncrew,A,ZRH,0,1,70\n", [("YEAR", 3)]),
    (GOOD + "crew,CARL,ZRH,299,0,0\n", [("TARGET", 15)]),
    (GOOD + "crew,CARL,ZRH,300,0,0\n", []),
    (NO_CREW + CREWS, [("HOURS", 15), ("ELEVEN", 15)]),
    (GOOD + CREWS, []),
    (GOOD + "duty,L1,C,ANNA,ZRH,2024-06-20T00:00Z,2024-06-20T16:01Z\n", [("LONGDUTY", 15)]),
    (GOOD + "duty,L1,C,ANNA,ZRH,2024-06-20T00:00Z,2024-06-20T16:00Z\n", []),
    (GOOD.replace("sector,D1,O", "sector,D1,P"), [("POSITIONING", 11)]),
    (GOOD + LEAVES + "crew,CARL,LHR,0,0,7\n", [("FREEMONTH", 21)]),
    (GOOD + NIGHTS, [("NIGHT", 15)]),
    (GOOD + NIGHTS.replace("CET-1", "UTC0"), []),
    (GOOD + LATE, [("NIGHT", 15)]),
    (GOOD + LATE.replace("CET-1", "UTC0"), []),
    (GOOD + LATE.replace("T22:30Z", "T22:00Z", 1), []),
    (GOOD + LATE + LATER, []),
    (GOOD + DAYS, [("NIGHT", 15)]),
    (GOOD + DAYS.replace("CET-1", "UTC0"), []),
    (GOOD + DAYS.replace("14T00:00Z", "14T23:00Z"), []),
    (GOOD + DAYS.replace("leave,L4", "leave,BEN"), [("FREEMONTH", 24)]),
    # Until 30 June the clocks show UTC, but in its last night they begin not to.
    (GOOD + DAYS.replace("CET-1", "WET0WEST,J181,J300").replace("VIE,WET0WEST,J181,J300", 'VIE,"WET0WEST,J181,J300"'), []),
    (GOOD + "pairing,P2,ZRH,5\nduty,D9,P,P2,ZRH,2024-06-20T06:00Z,2024-06-20T14:00Z\n" + "".join(f"sector,D9,P,2024-06-20T0{n}:00Z,2024-06-20T0{n}:50Z\n" for n in (6, 7, 8)), [("POSITIONING", 15)]),
    (GOOD.replace("LHR,2024-06-12T08:00Z", "LHR,2024-06-12T07:59Z"), [("REST", 12)]),
    (GOOD + "duty,L1,C,ANNA,zrh,2024-06-20T08:00Z,2024-06-20T12:00Z\n", [("STATION", 15)]),
    (GOOD + MORNINGS, [("TWIN", 32)]),
    (GOOD + MORNINGS.replace("2024-06-11", "2024-06-12"), []),
    (GOOD.replace("P1,ZRH,500", "P1,ZRH,0") + MORNINGS, [("TWIN", 32), ("PENALTY", 9)]),
    (NO_CREW + "".join(f"crew,C{n},ZRH,0,{n},{100 * n + 7}\n" for n in range(1, 6)), [("ELEVEN", 15)]),
    (GOOD.replace("weight,2", "weight,0") + "".join(f"crew,C{n},ZRH,400,0,0\n" for n in range(4)), [("WEIGHT", 5)]),
    (GOOD.replace("BEN,ZRH,0", "BEN,ZRH,300") + "".join(f"crew,C{n},ZRH,400,0,0\n" for n in range(3)), [("SHARE", 5)]),
    ("period,2024-06\nweight,2\nbase,ZRH,UTC0\n" + "".join(f"crew,C{n},ZRH,400,24001,41001\n" for n in range(5)), []),
    (GOOD.replace("ANNA,ZRH,300", "ANNA,ZRH,384").replace("BEN,ZRH,0", "BEN,ZRH,384") + FLIGHTS % ((384,) * 3), [("SHARE", 5)]),
    (GOOD.replace("ANNA,ZRH,300", "ANNA,ZRH,366").replace("BEN,ZRH,0", "BEN,ZRH,366") + FLIGHTS % ((366,) * 3), []),
    (NO_CREW + "".join(f"crew,C{n},ZRH,0,0,0\n" for n in range(3)), [("HISTORY", 5)]),
    (GOOD + "duty,L1,C,BEN,ZRH,2024-06-13T20:00Z,2024-06-13T22:00Z\n", [("FIXED", 8)]),
    (GOOD + "duty,L1,C,BEN,ZRH,2024-06-14T01:00Z,2024-06-14T03:00Z\n", []),
    (GOOD + "leave,BEN,2024-06-12T00:00Z,2024-06-12T06:00Z\n", [("AWAY", 15)]),
    (GOOD + HOMES % 45, [("HOME", 39)]),
    (GOOD + HOMES % 46, []),
    (GOOD + (HOMES % 45).replace("OSL", "ZRH"), []),
    (GOOD + (HOMES % 45).replace("OSL", "JFK", 1), []),
    (GOOD + (HOMES % 45).replace("T08:55Z", "T08:56Z"), []),
]
WARN = re.compile(r"^WARN (\d+) ([A-Z]+)$", re.M)
# What is told of books of data/, each of which is so on purpose, beside what `told_by_numbers` finds.
TOLD_OF_DATA = {
    "AWAY": "check-leave-a-minute-early check-leave-in-a-spring-night check-locked-with-a-set check-training-and-leave-inside-a-pairing",
    "HOURS": "dearer-than-its-linear-program-of-thirds fixed-duty-and-flight-in-28-days-at-their-bounds flight-by-the-days-of-two-bases",
    "POSITIONING": "days-off-positioning-is-duty positioning-with-carried-minutes-at-their-bounds target-positioning-is-no-flight",
    "REST": "check-rest-in-a-spring-night-a-minute-short check-rest-within-a-pairing-a-minute-short pairing-whose-duties-touch "
    "rest-away-as-long-as-the-duty-short rest-nine-hours-fifty-nine-away rest-ten-hours-at-home",
    "SHARE": "spans-share-one-of-two-bases",
}


def told_by_numbers(book):
    """Words that each record earns by its own numbers: duties of more than 16 hours, a year that has more than eleven
    months, and targets from 1 to 299."""
    rows = [row for row in csv.reader(book.decode("utf-8", "replace").splitlines()) if row]
    crew = [[int(it) for it in row[3:6]] for row in rows if row[:1] == ["crew"]]
    times = [[datetime.strptime(it, "%Y-%m-%dT%H:%MZ") for it in row[5:7]] for row in rows if row[:1] == ["duty"]]
    words = {"LONGDUTY"} if any(release - report > timedelta(hours=16) for report, release in times) else set()
    words |= {"YEAR"} if any(year > eleven or rows[0][1].endswith("-01") and year for _, year, eleven in crew) else set()
    return words | ({"TARGET"} if any(1 <= target <= 299 for target, _, _ in crew) else set())


def warnings(root, desk, check, tests):
    for book, wanted in WARNINGS:
        told = desk("warn", "-", book=book.encode())
        found = [(word, int(row)) for row, word in WARN.findall(told.stdout.decode())]
        wrong = told.returncode != 0 and f"status {told.returncode}" or found != wanted and f"told are {found}, wanted {wanted}"
        tests.told(f"warnings of {book[-60:]!r}", wrong)
    zones = re.findall(r"^\| [A-Z][A-Za-z ]+ \| `([^`]*)` \|$", open(f"{root}/docs/BOOK.md", encoding="utf-8").read(), re.M)
    book = "period,2024-06\n" + "".join(f'base,B{n},"{zone}"\n' for n, zone in enumerate(zones))
    told = desk("warn", "-", book=book.encode())
    tests.told("the zones of docs/BOOK.md", len(zones) < 9 and "too few", told.stdout != b"NO WARNING\n" and f"told is {told.stdout}")
    for path in sorted(glob.glob(f"{root}/data/*/book.csv") + glob.glob(f"{root}/examples/*.csv")):
        book = open(path, "rb").read()
        if b"step," in book:
            continue
        told = desk("warn", path)
        told.stdout.decode("utf-8")
        wanted = check(book)
        is_fault = wanted.startswith("FAULT ")
        wrong = told.returncode != is_fault and f"status {told.returncode}"
        # No false alarm: of an example nothing is told, and of other books only what they have.
        name = path.split("/")[-2]
        words = {word for _, word in WARN.findall(told.stdout.decode())}
        due = told_by_numbers(book) | {word for word, names in TOLD_OF_DATA.items() if name in names.split()} if "/data/" in path and not is_fault else set()
        alarm = not is_fault and (words != due or not words and told.stdout != b"NO WARNING\n") and f"told is {told.stdout}, not {due}"
        tests.told(f"warnings of {path}", wrong, alarm, is_fault and told.stdout.decode() != wanted + "\n" and "another fault")


# Clocks go back at the end of 6 April, so 23:30 comes twice.
SANTIAGO = b"""period,2024-04
base,SCL,"<-04>4<-03>,M9.1.6/24,M4.1.6/24"
crew,A,SCL,0,0,0
pairing,P1,SCL,5
duty,D1,P,P1,SCL,2024-04-06T20:00Z,2024-04-07T02:30Z
"""
# Goes over a page by keys and a click, and keeps where it comes.
KEYS = b"""<script>
var heads = document.querySelectorAll('tbody th'), said = [];
function key(name) { document.activeElement.dispatchEvent(new KeyboardEvent('keydown', { key: name, bubbles: true })); }
function at() { said.push(document.activeElement.title.split(':')[0]); }
heads[3].focus(); at();
key('ArrowRight'); at();
key('ArrowUp'); at();
heads[0].click(); said.push(document.getElementById('say').textContent);
document.body.lang = said.join('; ');
</script>"""


class Page(html.parser.HTMLParser):
    """Whether each element of a page ends where it has to."""

    EMPTY = {"meta", "br"}

    def __init__(self):
        super().__init__()
        self.open, self.wrong, self.seen = [], [], {}

    def handle_starttag(self, tag, attrs):
        self.seen[tag] = self.seen.get(tag, 0) + 1
        if any(name in ("src", "href", "onclick") for name, _ in attrs):
            self.wrong.append(f"{tag} fetches")
        if tag not in self.EMPTY:
            self.open.append(tag)

    def handle_endtag(self, tag):
        if not self.open or self.open.pop() != tag:
            self.wrong.append(f"</{tag}> at {self.getpos()}")


def wrong_page(text):
    page = Page()
    page.feed(text)
    page.close()
    if "http" in text or "url(" in text or "@import" in text:
        return "something is fetched"
    return page.wrong[:3] or page.open


class Rows(html.parser.HTMLParser):
    """What is drawn in the rows of persons and open pairings, by the row's head: tag and class, where it begins and ends
    in hundredths of a percent, its title and its text."""

    def __init__(self):
        super().__init__()
        self.rows, self.head, self.drawn, self.is_body = {}, "", None, False

    def handle_starttag(self, tag, attrs):
        attrs = dict(attrs)
        self.is_body = self.is_body or tag == "tbody"
        if tag == "th" and self.is_body:
            self.head = attrs["title"].split(":")[0].split(" ")[0]
            self.rows[self.head] = []
        elif self.is_body and tag in ("i", "b", "u", "s", "var"):
            left, width = re.findall(r"(?:left|width):(\d+\.\d\d)%", attrs["style"])
            left, width = (round(100 * float(number)) for number in (left, width))
            self.drawn = [tag, attrs.get("class", ""), left, left + width, attrs.get("title", ""), ""]
            self.rows[self.head].append(self.drawn)

    def handle_data(self, data):
        if self.drawn:
            self.drawn[5] += data

    def handle_endtag(self, tag):
        self.drawn = None
        self.is_body = self.is_body and tag != "tbody"


def wrong_row(row):
    """What is wrong with a row: a pairing of several duties has one band round them, each pairing and each fixed duty has
    its name once, no name runs over what begins behind it, and each layover has its station."""
    duties, places = {}, {}
    for tag, _, left, right, title, _ in row:
        if tag == "i":
            name = title.split(", duty ")[0] if ", duty " in title else title.split(" at ")[0].removeprefix("fixed duty ")
            duties.setdefault(name, []).append((left, right, title.split(" at ")[1].split(":")[0]))
    bands = {title.split(":")[0]: (left, right) for tag, kind, left, right, title, _ in row if tag == "u" and kind == "p"}
    names = [(left, right, text) for tag, kind, left, right, _, text in row if tag == "var" and kind != "l"]
    layovers = [(left, right, text) for tag, kind, left, right, _, text in row if tag == "var" and kind == "l"]
    wanted = {name: (min(left for left, _, _ in all_of), max(right for _, right, _ in all_of)) for name, all_of in duties.items() if len(all_of) > 1}
    begins = sorted(left for left, _, _ in names) + [left for tag, _, left, _, _, _ in row if tag == "b"]
    gaps = [(one[1], other[0], other[2]) for all_of in duties.values() for one, other in zip(all_of, all_of[1:]) if one[1] < other[0]]
    return (
        bands != wanted and f"bands are {bands}"
        or sorted(text for _, _, text in names) != sorted(duties) and f"names are {names}"
        or any(left < begin < right for left, right, _ in names for begin in begins) and f"a name runs over another: {names}"
        or any(left != duties[text][0][0] for left, _, text in names) and "a name stands elsewhere"
        or sorted(layovers) != sorted(gaps) and f"layovers are {layovers}"
    )


def wrong_meters(text):
    """What is wrong with the meters of a page: each is as high as its title says of the minutes that are used."""
    meters = re.findall(r'<span tabindex="-1"(?: class="o")? title="([^"]*)"><em style="height:(\d+)%">', text)
    for title, height in meters:
        *used, most, _ = (60 * int(hours) + int(minutes) for hours, minutes in re.findall(r"(\d+):(\d\d)", title))
        wanted = min(100, 100 * sum(used) // most) if most else 100
        if int(height) != wanted:
            return f"{height} of a hundred where {wanted} are told: {title}"
    return not meters and "no meter is drawn"


def made(root, *words):
    return subprocess.run([f"{root}/bench/{words[0]}", *words[1:]], capture_output=True, check=True).stdout


def charts(root, desk, check, tests):
    """A page is well-formed, fetches nothing, and has what the book has."""
    drawn = 0
    for path in sorted(glob.glob(f"{root}/data/check-*/book.csv") + glob.glob(f"{root}/examples/*.csv")):
        book = open(path, "rb").read()
        if b"step," in book or check(book).startswith("FAULT "):
            continue
        told = desk("chart", path)
        text = told.stdout.decode("utf-8")
        names = [line.split(b",")[1].decode() for line in book.splitlines() if line.startswith(b"crew,")]
        missing = [name for name in names if f">{name}" not in text]
        tests.told(f"chart of {path}", told.returncode != 0 and f"status {told.returncode}", wrong_page(text), missing and f"without {missing}")
        tests.told(f"meters of {path}", names and wrong_meters(text))
        rows = Rows()
        rows.feed(text)
        # Only in a legal roster duties don't overlap.
        legal = {line.split()[1] for line in check(book, whole=True).splitlines() if line.startswith("CREW ") and line.endswith((" OK", " REST", " DUTY7", " FLIGHTYEAR"))}
        for head, row in rows.rows.items():
            if head in legal or head not in names:
                tests.told(f"the row of {head} in {path}", wrong_row(row))
        drawn += sum(len(row) for row in rows.rows.values())
    tests.told("rows of charts", drawn < 100 and "hardly anything is drawn")
    told = desk("chart", "-", book=SANTIAGO)
    title = "P1, duty D1 at SCL: 2024-04-06T20:00Z (Sa 6, 17:00 local) to 2024-04-07T02:30Z; duty 6:30, flight 0:00"
    tests.told("local times beside a change of clocks", f'title="{title}"' not in told.stdout.decode() and "other times")
    refused = desk("chart", "-", book=b"period\n")
    tests.told("chart of a fault", refused.returncode != 1 and "another status", refused.stdout != b"FAULT 1 3\n" and "another fault")
    largest = made(root, "month", "largest", "1")
    planned = desk("plan", "--effort", "0", "-", book=largest).stdout
    kept = [line for line in largest.splitlines() if not line.startswith(b"assign,")]
    for line in planned.splitlines():
        words = line.split()
        if words[0] == b"CREW" and words[7] != b"-":
            kept += [b"assign," + pairing + b"," + words[1] for pairing in words[7:]]
    for name, book in [("the largest month", b"\n".join(kept) + b"\n"), ("the largest month, all open", largest)]:
        began = time.monotonic()
        told = desk("chart", "-", book=book)
        took = time.monotonic() - began
        tests.told(f"chart of {name}", told.returncode != 0 and "a status", wrong_page(told.stdout.decode()), took > 10 and f"{took:.1f} s")
    checked_by_tidy(root, desk, tests)
    seen_in_browser(root, desk, tests)


def checked_by_tidy(root, desk, tests):
    """A checker of HTML has nothing to say of a page."""
    checker = shutil.which("tidy")
    if not checker:
        print("tidy isn't here: no checker of HTML reads the chart")
        return
    page = desk("chart", f"{root}/examples/month-of-two-bases-checked.csv").stdout
    words = ["-quiet", "-errors", "-utf8", "--drop-empty-elements", "no"]
    said = subprocess.run([checker, *words], input=page, capture_output=True, check=False)
    tests.told("the chart by a checker of HTML", said.returncode != 0 and f"told is {said.stderr[:200]}")


def seen_in_browser(root, desk, tests):
    browser = shutil.which("chromium") or shutil.which("chromium-browser") or shutil.which("google-chrome")
    if not browser:
        print("no browser is here: the picture of the chart is skipped")
        return
    with tempfile.TemporaryDirectory() as folder:
        page = f"{folder}/chart.html"
        text = desk("chart", f"{root}/examples/month-of-two-bases-checked.csv").stdout
        with open(page, "wb") as file:
            file.write(text.replace(b"</body>", KEYS + b"</body>"))
        words = ["--headless", "--no-sandbox", "--disable-gpu", "--dump-dom", f"file://{page}"]
        shown = subprocess.run([browser, *words], capture_output=True, check=False, timeout=120).stdout
        said = re.findall(rb'<body lang="([^"]*)"', shown)
        wanted = b"LARS FLIGHTYEAR; LARS DUTY7; KARI; ANA: no rule is broken"
        tests.told("arrow keys in a browser", said != [wanted] and f"told is {said}")
        with open(page, "wb") as file:
            file.write(text)
        for width in (500, 1600):
            picture = f"{folder}/{width}.png"
            words = ["--headless", "--no-sandbox", "--disable-gpu", f"--window-size={width},700", f"--screenshot={picture}"]
            subprocess.run([browser, *words, f"file://{page}"], capture_output=True, check=False, timeout=120)
            drawn = os.path.exists(picture) and os.path.getsize(picture) > 10000
            tests.told(f"a picture of the chart, {width} wide", not drawn and "nothing is drawn")
        printed = f"{folder}/chart.pdf"
        words = ["--headless", "--no-sandbox", "--disable-gpu", f"--print-to-pdf={printed}", f"file://{page}"]
        subprocess.run([browser, *words], capture_output=True, check=False, timeout=120)
        tests.told("the chart printed", not os.path.exists(printed) and "nothing is printed")
        names_in_print(root, desk, browser, folder, tests)
        opened_soon(root, desk, browser, folder, tests)


# Gives each band a long name, and tells how many of them are cut.
CUT = """<script>
var cut = [].filter.call(document.querySelectorAll('.t var:not(.l)'), function (it) {
  it.textContent = 'ZRH-JFK-2024-06-12';
  return it.scrollHeight > it.clientHeight + 1;
});
document.body.lang = cut.length + ' are cut';
</script>"""


def names_in_print(root, desk, browser, folder, tests):
    """Names of 18 characters are whole where the rules of print hold."""
    text = desk("chart", f"{root}/examples/month-of-twenty.csv", f"{root}/examples/month-of-twenty-plan.txt").stdout.decode()
    with open(f"{folder}/print.html", "w", encoding="utf-8") as file:
        file.write(text.replace("@media print{", "@media all{").replace("</body>", CUT + "</body>"))
    words = ["--headless", "--no-sandbox", "--disable-gpu", "--window-size=1500,1000", "--dump-dom", f"file://{folder}/print.html"]
    shown = subprocess.run([browser, *words], capture_output=True, check=False, timeout=120).stdout.decode()
    told = re.findall(r'<body lang="([^"]*)"', shown)
    tests.told("names in print", text.count("<var") < 100 and "no names", told != ["0 are cut"] and f"told is {told}")


def opened_soon(root, desk, browser, folder, tests):
    """The page of 64 persons and 256 pairings opens about as soon as an empty one."""
    took = {}
    for name, page in (("empty", b"<!DOCTYPE html><title>empty</title>"), ("full", desk("chart", "-", book=made(root, "month", "full", "1")).stdout)):
        with open(f"{folder}/{name}.html", "wb") as file:
            file.write(page)
        words = ["--headless", "--no-sandbox", "--disable-gpu", "--dump-dom", f"file://{folder}/{name}.html"]
        times = []
        for _ in range(3):
            began = time.monotonic()
            subprocess.run([browser, *words], capture_output=True, check=False, timeout=120)
            times.append(time.monotonic() - began)
        took[name] = min(times)
    tests.told("the chart of a large month opens", took["full"] - took["empty"] > 3 and f"after {took['full'] - took['empty']:.1f} s")


def pages(root, desk, check, tests):
    mistakes(desk, tests)
    fault_books(root, desk, check, tests)
    crowded_books(root, desk, tests)
    broken_books(root, desk, check, tests, BROKEN, 20241)
    odd_books(desk, tests)
    warnings(root, desk, check, tests)
    charts(root, desk, check, tests)

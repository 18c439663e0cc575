"""Reports and ledgers that are broken at random, for tests/desk.

What a report says is read here a second time, by docs/DESK.md: who has which pairing, or which line is wrong. By it each
command that reads a report is judged: its status, what standard error is told, and who has what in its answer. Of a
ledger that is answered the minutes are added up here, and all else is what no ledger changes. Nothing takes long.
"""

import csv
import io
import os
import re
import shutil

from desk_tables import break_bytes, break_rows

# No command takes so long.
SECONDS = 20
MOST_REPORT_BYTES = 1 << 20
MOST_PAIRINGS = 512
MOST_MINUTES = 60000
MOST_NAME_BYTES = 16
BLANKS = re.compile(rb"[ \t\r\f]+")
NAME = re.compile(rb"[A-Za-z0-9][A-Za-z0-9_-]{0,%d}" % (MOST_NAME_BYTES - 1))
NO_REPORT = b"a report begins with ROSTER or PLAN and a month"
OTHER_MONTH = b"the book is of another month"
UNKNOWN_LINE = b"no line of a report begins so"
CREW_FORM = b"a CREW line has a name, five numbers, and pairings or -"
TOO_MANY = b"a book may not have so many pairings"
TWICE = b"a pairing is given a second time"
NO_PERSON = b"the book has no such person"
NO_PAIRING = b"the book has no such pairing"
NO_BOOK = b"error: the book that is made would have a fault, as roster-desk fault tells it:\nFAULT "
NO_LEDGER = b"note: no --flown: ELEVEN counts all twelve months before the next one, so it may be too much\n"
LIMITS = [b"DUTY7:", b"DUTY14:", b"DUTY28:", b"FLIGHT28:", b"FLIGHTYEAR:", b"FLIGHT12:"]
DIFFERS = re.compile(rb"[\w-]+ (COST|FLIGHT|DUTY7|DUTY14|DUTY28|FLIGHT28): \S+ to \S+")
REPAIRED = re.compile(
    rb"(locked: [\w-]+ by [A-Z0-9]+\n)*fixed: \d+ pairings, and \d+ that stay open\n"
    rb"a roster's cost in the book is its COST here \+ -?\d+ - what its moves cost\n"
)
# Of these a command is drawn: all take the report from standard input. Where a page is drawn it takes longest.
COMMANDS = {
    "assigns": 4, "limits": 3, "table": 4, "persons": 3, "why": 4, "chart": 2, "diff": 4, "back": 3, "changes": 3,
    "plan": 2, "repair": 3, "carry": 3, "book": 2, "fault": 1, "warn": 1, "fair": 1,
}  # fmt: skip
# Those that pass over what the book doesn't have.
KEEP = ("diff", "back", "changes", "plan", "repair", "book")


def read(path):
    with open(path, "rb") as file:
        return file.read()


# ---- reports, a second time


class Book:
    """The names of a book, and its roster by a report."""

    def __init__(self, text, report, path=None, start=None):
        rows = [line.split(b",") for line in text.splitlines()]
        self.text, self.path, self.start = text, path, start
        self.month = rows[0][1]
        self.persons = [row[1] for row in rows if row[0] == b"crew"]
        self.pairings = [row[1] for row in rows if row[0] == b"pairing"]
        self.report = report
        self.given = given_in(lines_of(report), self)


def lines_of(report):
    """The words of each line that isn't blank, with its number."""
    lines = enumerate(report.removeprefix(b"\xef\xbb\xbf").split(b"\n"), 1)
    worded = ((number, [word for word in BLANKS.split(line) if word]) for number, line in lines)
    return [(number, words) for number, words in worded if words]


def crew_in(lines):
    """The person and the pairings of each `CREW` line, with its number."""
    return [(number, words[1], [word for word in words[7:] if word != b"-"]) for number, words in lines if words[0] == b"CREW"]


def is_month(word):
    return bool(re.fullmatch(rb"\d{4}-(0[1-9]|1[0-2])", word)) and 1971 <= int(word[:4]) <= 9997


def is_crew_line(words):
    names = [words[1], *(word for word in words[7:] if word != b"-")] if len(words) > 7 else [b""]
    return all(NAME.fullmatch(name) for name in names) and all(word.isdigit() for word in words[2:7])


def wrong_form(lines):
    """The number of the first line that no report has, and what is told of it."""
    has_begun, count = False, 0
    for number, words in lines:
        if not has_begun:
            if len(words) != 2 or words[0] not in (b"ROSTER", b"PLAN") or not is_month(words[1]):
                return number, NO_REPORT
            has_begun = True
        elif words[0] == b"CREW":
            if not is_crew_line(words):
                return number, CREW_FORM
            count += len([word for word in words[7:] if word != b"-"])
            if count > MOST_PAIRINGS:
                return number, TOO_MANY
        elif words[0] not in (b"COST", b"BOUND", b"LOCKED", b"OPEN"):
            return number, UNKNOWN_LINE
    return None if has_begun else (1, NO_REPORT)


def wrong_names(lines, book, keeps):
    """The number of the first line that the book can't have, and what is told of it."""
    number, words = lines[0]
    if words[1] != book.month:
        return number, OTHER_MONTH
    given = set()
    for number, person, names in crew_in(lines):
        if person not in book.persons and not keeps:
            return number, NO_PERSON
        for name in names if person in book.persons else ():
            if name not in book.pairings and not keeps:
                return number, NO_PAIRING
            if name in given:
                return number, TWICE
            if name in book.pairings:
                given.add(name)
    return None


def given_twice(lines):
    """The number of the first line that gives a pairing that was given, and what is told of it."""
    given = set()
    for number, _, names in crew_in(lines):
        for name in names:
            if name in given:
                return number, TWICE
            given.add(name)
    return None


def given_in(lines, book):
    """Who has which pairing of the book."""
    return {name: person for _, person, names in crew_in(lines) if person in book.persons for name in names if name in book.pairings}


def unknown_in(lines, book):
    """What is told of that the book doesn't have."""
    told = []
    for _, person, names in crew_in(lines):
        gone = [name for name in names if name not in book.pairings]
        if person not in book.persons:
            told.append(b"not in the book: person %s\n" % person)
        elif gone:
            told.append(b"not in the book: %s of %s\n" % (b" ".join(gone), person))
    return b"".join(told)


# ---- reports, broken

WORDS = [b"P1", b"L4", b"ROSTER", b"PLAN", b"COST", b"BOUND", b"CREW", b"OPEN", b"LOCKED", b"-", b"--", b"0", b"+1", b"1e9", b"9" * 40]
WORDS += [b"2024-03", b"2024-06", b"1970-12", b"9998-01", b"A" * 16, b"A" * 17, b"_A", b"-A", b"a", b"\xc3\x84", b"\0", b"\xff", b"crew", b"A,B", b'"A"']
PIECES = [b"P1", b"L4", b"CREW", b"CREW A", b"-", b"\n", b"\0", b"\xff\xfe", b"\xe2\x80\xa8", b"\xef\xbb\xbf", b" ", b"\t", b"\r", b"\v", b"9" * 40]


def changed(draw, report):
    """The report with some of its bytes, words and lines changed."""
    for _ in range(draw.randint(1, 4)):
        at, piece = draw.randrange(len(report) + 1), draw.randrange(30)
        put = draw.choice([draw.randbytes(draw.randint(0, 3)), draw.choice(PIECES), report[at : at + 40]])
        report = report[:at] + put + report[at + draw.choice([0, 0, 1, piece]) :]
    return report


def rearranged(draw, book, report):
    """The report with other names or lines, in one way."""
    lines = [line.split(b" ") for line in report.split(b"\n")]
    crew = [line for line in lines if len(line) > 7] or lines
    line = draw.choice(crew)
    word = draw.choice(WORDS + book.persons + book.pairings)
    way = draw.choice("hhhbggpppddwiorlseem")
    if way == "h":
        # A pairing goes to somebody else by hand.
        name = draw.choice(book.pairings)
        lines = [it[:7] + ([word for word in it[7:] if word != name] or [b"-"]) if it[:1] == [b"CREW"] else it for it in lines]
        draw.choice([it for it in lines if it[:1] == [b"CREW"]] or lines).append(name)
    elif way == "b":
        # Both have it.
        line.append(draw.choice(book.pairings))
    elif way == "g":
        line.append(draw.choice((b"GONE", b"p1", b"A" * MOST_NAME_BYTES, b"A" * (MOST_NAME_BYTES + 1))))
    elif way == "p":
        line[1:2] = [draw.choice([*book.persons, b"GONE"])]
    elif way == "d":
        line[7:8] = [b"-"]
    elif way == "w":
        line[draw.randrange(len(line))] = word
    elif way == "i":
        line.insert(draw.randrange(len(line) + 1), word)
    elif way == "o":
        del line[draw.randrange(len(line))]
    elif way == "r":
        lines.remove(draw.choice(lines))
    elif way == "l":
        lines.insert(draw.randrange(1, len(lines) + 1), list(draw.choice(lines)))
    elif way == "s":
        rest = lines[1:]
        draw.shuffle(rest)
        lines[1:] = rest
    elif way == "e":
        lines[0] = [draw.choice((b"ROSTER", b"PLAN", b"PLAN", b"CHECK")), draw.choice((book.month, book.month, b"2024-04", b"2023-03", b"1970-12", b"2024-13", b"2024-3"))]
    else:
        # As many as a book may have, one more, or few.
        count = MOST_PAIRINGS - len(book.pairings)
        line += [b"X%d" % i for i in range(draw.choice((5, count, count + 1)))]
    return b"\n".join(b" ".join(words) for words in lines)


def broken_report(draw, book):
    report = book.report
    for _ in range(draw.choice((0, 1, 1, 1, 2, 3, 6))):
        report = rearranged(draw, book, report)
    if draw.random() < 0.3:
        report = changed(draw, report)
    if draw.random() < 0.01:
        # As long as a report may be, or a byte longer.
        report += draw.choice((b" ", b"\n", b"\0")) * max(0, MOST_REPORT_BYTES - draw.randrange(2) - len(report))
    return report


# ---- what comes of them


def words_of(kind, book, tables):
    """The command line."""
    return {
        "assigns": ["assigns", "-"],
        "limits": ["limits", book.path, "-"],
        "table": ["table", book.path, "-"],
        "persons": ["table", "--persons", book.path, "-"],
        "why": ["why", book.path, "-"],
        "chart": ["chart", book.path, "-"],
        "diff": ["diff", book.path, book.start, "-"],
        "back": ["diff", book.path, "-", book.start],
        "changes": ["diff", "--persons", book.path, book.start, "-"],
        "plan": ["plan", "--effort", "0", "--workers", "1", "--start", "-", book.path],
        "repair": ["repair", "--from", f"{book.month.decode()}-11T00:00Z", book.path, "-"],
        "carry": ["carry", book.path, "-"],
        "book": ["book", "--month", "2024-06", "--rank", "CP", "--start", "-", tables],
        "fault": ["fault", "-"],
        "warn": ["warn", "-"],
        "fair": ["fair", "-"],
    }[kind]


def moved_persons(before, after):
    """Who has other pairings than before."""
    return {it for name in {*before, *after} if before.get(name) != after.get(name) for it in (before.get(name), after.get(name)) if it}


def wrong_moves(told, book, before, after):
    """What is wrong with what tells the moves from one roster to another."""
    *lines, last = told.stdout.splitlines() or [b""]
    moves = [(name, before.get(name, b"nobody"), after.get(name, b"nobody")) for name in book.pairings]
    wanted = [b"%s moves from %s to %s" % move for move in moves if move[1] != move[2]]
    rest = lines[len(wanted) :]
    return (
        lines[: len(wanted)] != wanted and "other moves"
        or not all(DIFFERS.fullmatch(line) for line in rest) and "another line"
        or not b"".join(rest[-1:]).startswith(b"ROSTER COST: ") and "no cost"
        or last != b"%d pairings and %d persons change" % (len(wanted), len(moved_persons(before, after))) and "other counts"
    )


def wrong_rows(told, given):
    rows = list(csv.DictReader(io.StringIO(told.stdout.decode())))
    return {row["NAME"].encode(): row["PERSON"].encode() for row in rows if row["KIND"] == "pairing"} != given and "other pairings"


def wrong_persons(told, book, given):
    rows = list(csv.DictReader(io.StringIO(told.stdout.decode())))
    wanted = [(person, sum(1 for it in given.values() if it == person)) for person in book.persons]
    return [(row["PERSON"].encode(), int(row["PAIRINGS"])) for row in rows] != wanted and "other persons"


def wrong_answer(kind, told, book, lines, judge):
    """What is wrong with the answer of a command to a report without a fault."""
    given, out = given_in(lines, book), told.stdout
    if kind == "assigns":
        return out != b"".join(b"assign,%s,%s\n" % (name, person) for _, person, names in crew_in(lines) for name in names) and "other records"
    if kind == "limits":
        return [line.split()[:2] for line in out.splitlines()] != [[person, word] for person in book.persons for word in LIMITS] and "other lines"
    if kind == "table":
        return wrong_rows(told, given)
    if kind == "persons":
        return wrong_persons(told, book, given)
    if kind == "why":
        firsts = [line.split()[0] for line in out.splitlines()]
        return [word for word in firsts if word != b"-"] != [name for name in book.pairings if name not in given] and "other open pairings"
    if kind == "chart":
        return not (out.startswith(b"<!DOCTYPE html>\n") and out.endswith(b"</html>\n")) and "no page"
    if kind in ("diff", "back"):
        return wrong_moves(told, book, *((book.given, given) if kind == "diff" else (given, book.given)))
    if kind == "changes":
        wanted = [person for person in book.persons if person in moved_persons(book.given, given)]
        *rows, last = out.splitlines() or [b""]
        return [row.split()[0] for row in rows] != wanted and "other persons" or last != b"%d persons change" % len(wanted) and "another count"
    if kind == "book":
        return out != book.text + b"".join(b"assign,%s,%s\n" % (name, given[name]) for name in book.pairings if name in given) and "another book"
    return judge(kind, book.text, out)


def wrong_told(kind, told, lines, book):
    """What is wrong with what standard error is told of a report without a fault."""
    if kind in ("diff", "back", "changes", "book"):
        return told.stderr != unknown_in(lines, book)
    if kind == "plan":
        given = given_in(lines, book)
        wanted = {b"left out of the start: %s of %s" % it for it in given.items()}
        first = unknown_in(lines, book)
        return not told.stderr.startswith(first) or not wanted.issuperset(told.stderr[len(first) :].splitlines())
    if kind == "repair":
        first = unknown_in(lines, book)
        return not told.stderr.startswith(first) or not REPAIRED.fullmatch(told.stderr[len(first) :])
    return told.stderr != (NO_LEDGER if kind == "carry" else b"")


def wrong_of_report(kind, told, book, report, judge):
    """What is wrong with the answer of a command to a report."""
    if kind in ("fault", "warn", "fair"):
        # It is no book: its first record is of no kind.
        status = 0 if kind == "fault" else 1
        is_first = told.stdout.startswith(b"FAULT 1 1\n") if kind == "fault" else told.stdout == b"FAULT 1 1\n"
        return told.returncode != status and f"status {told.returncode}" or told.stderr and "standard error" or not is_first and "another fault"
    lines = lines_of(report)
    if len(report) >= MOST_REPORT_BYTES:
        wanted = b"error: - is too long for a report\n"
    else:
        wrong = wrong_form(lines) or (given_twice(lines) if kind == "assigns" else wrong_names(lines, book, kind in KEEP))
        wanted = wrong and b"error: -, line %d: %s\n" % wrong
    if wanted or kind in ("repair", "carry") and told.stderr.startswith(NO_BOOK):
        is_told = told.stderr == wanted if wanted else True
        return told.returncode != 1 and f"status {told.returncode}" or told.stdout and "standard output" or not is_told and f"not {wanted}"
    if told.returncode != 0:
        return f"status {told.returncode}"
    return wrong_told(kind, told, lines, book) and "standard error" or wrong_answer(kind, told, book, lines, judge)


def broken_reports(tests, run, desk, root, judge, count, draw):
    """Reports that are broken at random go to each command that reads one. `judge` says what is wrong with a plan of a book
    and with a book."""
    names = ["first", "left-open", "month-of-two-bases", "leave-and-training"]
    paths = [(f"{root}/examples/{name}.csv", f"{root}/examples/{name}.txt") for name in names]
    books = [Book(read(path), read(start), path, start) for path, start in paths]
    tables = f"{root}/examples/tables"
    made = run(desk, "book", "--month", "2024-06", "--rank", "CP", tables).stdout
    made = Book(made, run(desk, "plan", "--effort", "0", "-", book=made).stdout)
    answers = 0
    for number in range(count):
        kind = draw.choices([*COMMANDS], COMMANDS.values())[0]
        book = made if kind == "book" else draw.choice(books)
        report = broken_report(draw, book)
        told = run(desk, *words_of(kind, book, tables), book=report, timeout=SECONDS)
        answers += told.returncode == 0
        wrong = wrong_of_report(kind, told, book, report, judge)
        tests.told(f"{kind} of broken report {number}", wrong and f"{wrong}: {told.stderr[:300]}")
        if wrong:
            with open(f"/tmp/broken-report-{kind}-{number}", "wb") as file:
                file.write(report)
    tests.told(f"{count} broken reports", not 0 < answers < count and f"{answers} are answered")


# ---- ledgers


def ledger_rows(draw, persons):
    """A ledger of these and of others, with most of the two years before March 2024."""
    months = [f"{n // 12:04}-{n % 12 + 1:02}" for n in range(2022 * 12 + 2, 2024 * 12 + 2)]
    rows = [[person, month, draw.choice((str(draw.randrange(5000)), f"{draw.randrange(80)}:{draw.randrange(60):02}"))] for person in [*persons, "ZOE"] for month in draw.sample(months, 5)]
    return [["PERSON", "MONTH", "FLIGHT"], *rows]


def minutes(text):
    """The minutes of a cell, which has some."""
    hours, colon, rest = text.partition(":")
    return int(hours) * 60 + int(rest) if colon else int(text or "0")


def sums_of(rows, person):
    """What the rows have of the person of March 2024's year, and of the ten months before March."""
    head = [cell.strip().upper() for cell in rows[0]]
    if sorted(head) != ["FLIGHT", "MONTH", "PERSON"]:
        return None
    months = {}
    for row in rows[1:]:
        row = dict(zip(head, [*row, "", "", ""]))
        if row["PERSON"] == person:
            year, month = row["MONTH"].split("-")
            months[(2024 - int(year)) * 12 + 3 - int(month)] = minutes(row["FLIGHT"])
    return months.get(1, 0) + months.get(2, 0), sum(n for before, n in months.items() if 1 <= before <= 10)


def crew_of(book):
    """The minutes of each person of a book, and all else of it."""
    rows = [line.split(b",") for line in book.splitlines()]
    return {row[1].decode(): (int(row[4]), int(row[5])) for row in rows if row[0] == b"crew"}, [row[:4] if row[0] == b"crew" else row for row in rows]


def wrong_ledger_told(told, path):
    """What is wrong with what standard error is told of a ledger at the path."""
    lines = told.stderr.splitlines()
    if told.returncode == 0:
        return not all(re.fullmatch(rb"note: \w+: YEAR and ELEVEN before 2024-03 are \d+ and \d+ by the book, \d+ and \d+ by the ledger, which counts", line) for line in lines) and "other notes"
    if told.returncode != 1:
        return f"status {told.returncode}"
    if told.stdout:
        return "standard output"
    if told.stderr.startswith(NO_BOOK):
        return re.match(rb"\d+ 5\n", told.stderr[len(NO_BOOK) :]) is None and "another fault"
    if lines[-1:] and re.fullmatch(rb"error: \d+ more mistakes", lines[-1]):
        lines.pop()
    form = re.compile(rb"error: " + re.escape(path.encode()) + rb", line \d+, [A-Za-z ]+: has .+; wanted .+")
    return not (0 < len(lines) <= 100 and all(form.fullmatch(line) for line in lines)) and "other sentences"


def wrong_minutes(out, plain, flown, rows):
    """What is wrong with the next month's book by a ledger of these rows, if they are known."""
    crew, rest = crew_of(out)
    wanted, same = crew_of(plain)
    if rest != same:
        return "more than minutes differ"
    for person, (year, eleven) in crew.items():
        sums = rows and sums_of(rows, person)
        if not flown[person] <= year <= MOST_MINUTES or not flown[person] <= eleven <= MOST_MINUTES:
            return f"{person} has {year} and {eleven} minutes"
        if sums and (year, eleven) != tuple(it + flown[person] for it in sums):
            return f"{person} has {year} and {eleven} minutes, not {sums} and {flown[person]}"
    return None


def files_in(folder):
    return {name: read(f"{folder}/{name}") for name in sorted(os.listdir(folder))}


def broken_ledgers(tests, run, desk, root, count, draw):
    """Ledgers that are broken at random: the next month's book with their minutes, or a mistake that is told."""
    book, report = (f"{root}/examples/month-of-two-bases.{end}" for end in ("csv", "txt"))
    flown = {words[1].decode(): int(words[2]) for words in map(bytes.split, read(report).splitlines()) if words[0] == b"CREW"}
    plain = run(desk, "carry", book, report).stdout
    folder, ledger = f"{tests.folder}/into", f"{tests.folder}/ledger.csv"
    os.makedirs(folder)
    run(desk, "carry", book, report, "--into", folder)
    tables = files_in(folder)
    answers = 0
    for number in range(count):
        rows = ledger_rows(draw, flown)
        for _ in range(draw.choice((0, 1, 1, 1, 2, 5))):
            break_rows(rows, draw)
        # Each tenth is the ledger of a folder, beside tables that were carried before.
        is_into = number % 10 == 0
        path = f"{folder}/flown.csv" if is_into else ledger
        out = io.StringIO()
        csv.writer(out, delimiter=draw.choice(",,,;\t"), lineterminator=draw.choice(("\n", "\n", "\r\n", "\r"))).writerows(rows)
        with open(path, "wb") as file:
            file.write(out.getvalue().encode())
        if draw.random() < 0.3:
            break_bytes(path, draw)
            rows = None
        if is_into:
            wrong = wrong_into(run, desk, book, report, folder, tables, draw)
        else:
            told = run(desk, "carry", book, report, "--flown", ledger, timeout=SECONDS)
            answers += told.returncode == 0
            wrong = wrong_ledger_told(told, ledger) or told.returncode == 0 and wrong_minutes(told.stdout, plain, flown, rows)
        tests.told(f"broken ledger {number}", wrong)
        if wrong:
            shutil.copy(path, f"/tmp/broken-ledger-{number}.csv")
    tests.told(f"{count} broken ledgers", not 0 < answers < count and f"{answers} are answered")


def wrong_into(run, desk, book, report, folder, tables, draw):
    """What is wrong with the folder after a month was carried into it: only the minutes may be others, or it is as it was."""
    for name, content in tables.items():
        with open(f"{folder}/{name}", "wb") as file:
            file.write(content)
    if draw.random() < 0.5:
        break_bytes(f"{folder}/carried-flown.csv", draw)
    before = files_in(folder)
    told = run(desk, "carry", book, report, "--into", folder, timeout=SECONDS)
    after = files_in(folder)
    if told.stdout:
        return "standard output"
    if told.returncode == 0:
        minutes_aside = {**after, "carried-flown.csv": before["carried-flown.csv"]}
        rows = after["carried-flown.csv"].splitlines()
        return (minutes_aside != before and "other tables") or rows[0] != b"PERSON,MONTH,FLIGHT" and "another first row"
    if told.returncode != 1:
        return f"status {told.returncode}"
    lines = told.stderr.splitlines()
    is_told = told.stderr.startswith(NO_BOOK) or lines and all(line.startswith((b"error: ", b"note: ")) for line in lines)
    return after != before and "other files" or not is_told and f"told {told.stderr}"

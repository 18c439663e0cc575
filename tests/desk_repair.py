"""Repairs of months that were disrupted, for tests/desk.

A month is made, or one of examples/, and published as `solve` rosters it, or `plan` if it is too large for that. Then
a person falls ill, a pairing is cancelled, another comes and another gets new times. `repair` writes the book of the
rest. Its best roster, with what was fixed, has to be legal in the book by `roster check`; what it costs there has to be
what `repair` tells; and at a change that outweighs all else it moves as few pairings as any legal roster, which another
book tells that has nothing but these costs. If pairings break off, it writes the bytes that it writes of the book in
which somebody wrote by hand what is left of them.
"""

import random
import re
import subprocess
import sys
from datetime import datetime, timedelta

FORM = "%Y-%m-%dT%H:%MZ"
# What outweighs all else in a made-up month.
MOST = 100_000_000
# Sizes of bench/month, and books of examples/, of which the larger one is taken now and then.
SIZES = ("1,6,12", "1,8,14", "2,8,18", "1,5,9", "month-of-two-bases")
LARGE = "month-of-twenty"


def at(text):
    return datetime.strptime(text, FORM)


def text(instant):
    return instant.strftime(FORM)


def rows_of(book):
    return [line.split(",") if '"' not in line else [line] for line in book.decode().splitlines()]


def book_of(rows):
    return "".join(",".join(row) + "\n" for row in rows).encode()


def given_by(report):
    """Who has which pairing by a report."""
    given = {}
    for line in report.decode().splitlines():
        words = line.split()
        if words[0] == "CREW":
            given.update((name, words[1]) for name in words[7:] if name != "-")
    return given


def duties_of(rows):
    """The duties of each pairing, as pairs of instants."""
    duties = {}
    for row in rows:
        if row[0] == "duty" and row[2] == "P":
            duties.setdefault(row[3], []).append((at(row[5]), at(row[6])))
    return duties


def without(rows, pairing):
    """The book without a pairing."""
    gone = {row[1] for row in rows if row[0] == "duty" and row[2] == "P" and row[3] == pairing}
    kept = []
    for row in rows:
        names = {"pairing": row[1:2], "duty": row[3:4] if row[2:3] == ["P"] else [], "cost": row[2:3]}
        if pairing in names.get(row[0], []) or row[0] == "sector" and row[1] in gone:
            continue
        kept.append(row)
    return kept


def moved(rows, pairing, name, by):
    """The records of a pairing under another name, with times that are so much later."""
    duties = {row[1]: row[1] if name == pairing else f"{name}-{i}" for i, row in enumerate(rows) if row[0] == "duty" and row[2] == "P" and row[3] == pairing}
    out = []
    for row in rows:
        if row[0] == "pairing" and row[1] == pairing:
            out.append([row[0], name, *row[2:]])
        elif row[0] == "duty" and row[1] in duties:
            out.append([row[0], duties[row[1]], "P", name, row[4], text(at(row[5]) + by), text(at(row[6]) + by)])
        elif row[0] == "sector" and row[1] in duties:
            out.append([row[0], duties[row[1]], row[2], text(at(row[3]) + by), text(at(row[4]) + by)])
    return out


def ill(rows, published, start, draw):
    """The book in which somebody falls ill once they are back, if they have nothing else then."""
    persons = [row[1] for row in rows if row[0] == "crew"]
    person = draw.choice(persons)
    begun = [duty for name, duties in duties_of(rows).items() if published.get(name) == person and duties[0][0] < start for duty in duties]
    first = max([start, *(release for _, release in begun)])
    last = first + timedelta(days=draw.randint(1, 4))
    busy = [(row[-2], row[-1]) for row in rows if row[0] == "leave" and row[1] == person]
    busy += [(row[5], row[6]) for row in rows if row[0] == "duty" and row[2] == "C" and row[3] == person]
    if any(at(begin) < last and first < at(end) for begin, end in busy):
        return rows
    return [*rows, ["leave", person, text(first), text(last)]]


def disrupted(rows, published, start, draw):
    """The book with what has changed from the instant on."""
    rows = [row for row in rows if row[0] != "assign"]
    later = [name for name, duties in duties_of(rows).items() if duties[0][0] >= start]
    draw.shuffle(later)
    rows = ill(rows, published, start, draw)
    if later and draw.random() < 0.5:
        rows = without(rows, later.pop())
    if later and draw.random() < 0.5:
        rows = rows + moved(rows, draw.choice(later), "NEW", timedelta(minutes=draw.randint(0, 240)))
    if later and draw.random() < 0.5:
        name = draw.choice(later)
        by = timedelta(minutes=draw.randint(1, 180))
        costs = [row for row in rows if row[0] == "cost" and row[2] == name]
        rows = without(rows, name) + moved(rows, name, name, by) + costs
    return rows


def only_moves(rest, published):
    """The book of the rest with no cost but one unit for each pairing that its owner keeps."""
    rows = []
    names = set()
    for row in rows_of(rest):
        if row[0] == "pairing":
            names.add(row[1])
            row = [*row[:3], "0"]
        if row[0] not in ("cost", "weight"):
            rows.append(row)
    owned = [(name, person) for name, person in published.items() if name in names]
    return book_of(rows + [["cost", person, name, "-1"] for name, person in owned]), len(owned)


def cost_in(answer):
    return int(answer.split(b"COST ")[1].split()[0])


def month_of(folder, size, seed):
    """The book of a made-up month, or of the example of that name."""
    if size[0].isdigit():
        return subprocess.run([sys.executable, f"{folder}/bench/month", size, str(seed)], capture_output=True, check=True).stdout
    with open(f"{folder}/examples/{size}.csv", "rb") as file:
        return file.read()


def answer_of(run, roster, desk, book):
    """The best roster of a book, or a plan if somebody has too many legal sets."""
    best = run(roster, "solve", book=book)
    return run(desk, "plan", "--effort", "0", "-", book=book) if best.stdout.endswith(b" 15\n") else best


def broken_by_hand(rows, name, start, rest):
    """The book in which a pairing breaks off, written record by record: what is left of it is a pairing that begins with a
    positioning duty of these two instants, or a person's."""
    names = {row[1] for row in rows if row[0] in ("pairing", "duty")}
    new = next(word for word in (f"{name[:13]}-{n}" for n in range(2, 100)) if word not in names)
    heads = [row for row in rows if row[0] not in ("duty", "sector", "cost")]
    duties = [list(row) for row in rows if row[0] in ("duty", "sector")]
    if isinstance(rest, tuple):
        pairing = next(row for row in rows if row[0] == "pairing" and row[1] == name)
        heads.append(["pairing", new, *pairing[2:]])
        duties.insert(0, ["duty", new, "P", new, pairing[2], *rest])
    for row in duties:
        if row[0] == "duty" and row[2:4] == ["P", name] and at(row[5]) >= start:
            row[2:4] = ["P", new] if isinstance(rest, tuple) else ["C", rest]
    return heads + duties + [row for row in rows if row[0] == "cost"]


def breaks(run, desk, paths, book, published, start, draw):
    """What is wrong with a repair in which pairings break off that are under way, of which there may be none."""
    rows = rows_of(book)
    persons = [row[1] for row in rows if row[0] == "crew"]
    times = duties_of(rows)
    words = []
    for name in [name for name, duties in times.items() if name in published and duties[0][0] < start <= duties[-1][0]][:2]:
        left = min(report for report, _ in times[name] if report >= start)
        rest = draw.choice(((text(start), text(left)), draw.choice(persons)))
        rows = broken_by_hand(rows, name, start, rest)
        words += ["--broken", f"{name}:{'/'.join(rest) if isinstance(rest, tuple) else rest}"]
    by_hand = run(desk, "repair", "--from", text(start), "-", paths[1], book=book_of(rows))
    made = run(desk, "repair", "--from", text(start), *words, "-", paths[1], book=book)
    refused = by_hand.returncode == 1 and made.returncode == 1 and not made.stdout
    return not refused and (made.returncode, made.stdout, made.stderr) != (by_hand.returncode, by_hand.stdout, by_hand.stderr) and f"{words}: {made} in place of {by_hand}"


def one_repair(tests, run, roster, desk, folder, size, seed):
    """A month, what became of it, and its repair."""
    name = f"repair of month {size} {seed}"
    draw = random.Random(seed)
    month = month_of(folder, size, seed)
    report = answer_of(run, roster, desk, month)
    if report.returncode != 0:
        return tests.told(name, "the month has no roster")
    published = given_by(report.stdout)
    rows = rows_of(month)
    begins = sorted(duties[0][0] for duties in duties_of(rows).values())
    start = begins[draw.randrange(len(begins))] + timedelta(minutes=draw.randint(-60, 60))
    book = book_of(disrupted(rows, published, start, draw))
    # New times may lie beyond the month, where no pairing begins.
    while run(roster, "check", book=book).returncode != 0:
        book = book_of(disrupted(rows, published, start, draw))
    paths = [f"{tests.folder}/{word}-{size}-{seed}" for word in ("book.csv", "published.txt", "new.txt", "rest.csv")]
    for path, content in zip(paths, (book, report.stdout)):
        with open(path, "wb") as file:
            file.write(content)
    change = draw.choice((0, 500, MOST))
    asked = ["--from", text(start), "--change", str(change)]
    repaired = run(desk, "repair", *asked, paths[0], paths[1])
    if repaired.returncode != 0:
        return tests.told(name, f"status {repaired.returncode}: {repaired.stderr.decode()}")
    rest = answer_of(run, roster, desk, repaired.stdout)
    if rest.returncode != 0:
        return tests.told(name, f"no roster: {rest.stdout.decode()}")
    tests.told(name, *wrongs(run, roster, desk, paths, book, published, start, change, repaired, rest), breaks(run, desk, paths, book, published, start, draw))


def records_of(run, desk, path, names=None):
    """The `assign` records of a report, of pairings of these names."""
    lines = run(desk, "assigns", path).stdout.splitlines(True)
    return b"".join(line for line in lines if names is None or line.decode().split(",")[1] in names)


def too_many(run, roster, published, book, answer):
    """What is wrong with how many pairings move in the answer of the rest, in which a move outweighs all else."""
    if not answer.startswith(b"ROSTER "):
        return None
    other, owned = only_moves(book, published)
    fewest = run(roster, "solve", book=other)
    anew = given_by(answer)
    names = {row[1] for row in rows_of(book) if row[0] == "pairing"}
    moves = sum(anew.get(name) != person for name, person in published.items() if name in names)
    least = fewest.returncode == 0 and owned + cost_in(fewest.stdout)
    return fewest.returncode == 0 and moves != least and f"{moves} moves, {least} are enough"


def wrongs(run, roster, desk, paths, book, published, start, change, repaired, rest):
    """What is wrong with a repair and its best roster."""
    for path, content in zip(paths[2:], (rest.stdout, repaired.stdout)):
        with open(path, "wb") as file:
            file.write(content)
    rows = rows_of(book)
    duties = duties_of(rows)
    fixed = {name: published[name] for name, times in duties.items() if times[0][0] < start and name in published}
    anew = given_by(rest.stdout)
    if any(duties[name][0][0] < start for name in anew):
        yield "a pairing that had begun moves"
    check = run(roster, "check", book=book + records_of(run, desk, paths[2]) + records_of(run, desk, paths[1], fixed))
    if check.returncode != 0:
        yield f"check: {check.stdout.decode()}"
        return
    if any(line.startswith(b"CREW") and not line.endswith(b" OK") for line in check.stdout.splitlines()):
        yield "a roster that isn't legal"
    moves = [name for name, person in published.items() if name in duties and name not in fixed and anew.get(name) != person]
    told = int(re.search(rb"COST here \+ (-?\d+)", repaired.stderr)[1])
    if cost_in(check.stdout) != cost_in(rest.stdout) + told - change * len(moves):
        yield "another cost"
    gone = {}
    for name, person in published.items():
        if name not in duties:
            gone.setdefault(person, []).append(name)
    lines = [f"not in the book: {' '.join(names)} of {person}\n".encode() for person, names in gone.items()]
    if not all(line in repaired.stderr for line in lines):
        yield f"whose pairing is gone isn't told: {repaired.stderr}"
    differs = run(desk, "diff", "--persons", paths[3], paths[1], paths[2])
    called = [line.split()[0].decode() for line in differs.stdout.splitlines()]
    calls = {person for name in [*moves, *anew] for person in (published.get(name), anew.get(name)) if published.get(name) != anew.get(name)}
    if differs.returncode != 0 or sorted(called) != sorted([*(calls - {None}), str(len(calls - {None}))]):
        yield f"others are called: {differs}"
    if change != MOST and rest.stdout.startswith(b"ROSTER "):
        repaired = run(desk, "repair", "--from", text(start), "--change", str(MOST), *paths[:2])
        rest = answer_of(run, roster, desk, repaired.stdout)
    yield too_many(run, roster, published, repaired.stdout, rest.stdout)


def two_bases(tests, run, roster, desk, folder):
    """The month of two bases from 10 March on: L1 of ANA, L2 of BRUNO and K1 of KARI have begun."""
    book, report = (f"{folder}/examples/month-of-two-bases.{end}" for end in ("csv", "txt"))
    made = run(desk, "repair", "--from", "2024-03-10T00:00Z", "--notice", "36h:80", book, report)
    rows = made.stdout.decode().splitlines()
    # L3 reports on 12 March, 54 hours later, K2 and K3 later still. BRUNO saves 50 with L2, and K1 costs 40 with
    # KARI, so the four that have an owner and are left make 2000 - 10.
    costs = ["cost,ANA,L4,150", "cost,ANA,L3,-500", "cost,BRUNO,L4,-500", "cost,LARS,K2,-500", "cost,KARI,K3,-500"]
    tests.told(
        "the rest of the month of two bases",
        made.returncode != 0 and f"status {made.returncode}",
        [row for row in rows if row.startswith("cost,")] != costs and "other costs",
        [row for row in rows if row.startswith("pairing,")] != ["pairing,L3,LIS,800", "pairing,L4,LIS,400", "pairing,K2,OSL,600", "pairing,K3,OSL,500"] and "other pairings",
        "duty,L1-B,C,ANA,MAD,2024-03-05T08:00Z,2024-03-05T14:00Z" not in rows and "L1 isn't fixed",
        made.stderr != b"fixed: 3 pairings, and 0 that stay open\na roster's cost in the book is its COST here + 1990 - what its moves cost\n" and f"told {made.stderr}",
    )
    # At 48 hours more L3 is within the notice.
    soon = run(desk, "repair", "--from", "2024-03-10T00:00Z", "--notice", "3d:80", book, report)
    tests.told("a move at short notice", b"cost,ANA,L3,-80\n" not in soon.stdout and "another cost", b" + 1570 - " not in soon.stderr and "another constant")
    # ANA is under way with L1 on the 5th, until 14:00.
    with open(book, "rb") as file:
        text = file.read()
    for name, leave, status in (("under way", "2024-03-05T13:59Z", 1), ("back", "2024-03-05T14:00Z", 0)):
        ended = run(desk, "repair", "--from", "2024-03-05T00:00Z", "-", report, book=text + f"leave,ANA,{leave},2024-03-07T00:00Z\n".encode())
        tests.told(
            f"leave of who is {name}",
            ended.returncode != status and f"status {ended.returncode}",
            (status and ended.stdout) and "standard output",
            (status and b" 13\n" not in ended.stderr) and f"told {ended.stderr}",
        )
    # LARS has K2 with 280 minutes, and 54000 are the most of a year.
    locked = run(desk, "repair", "--from", "2024-03-25T00:00Z", "-", report, book=text.replace(b",53700,", b",53721,"))
    tests.told("who is locked by what is fixed", locked.returncode != 0 and f"status {locked.returncode}", b"locked: LARS by FLIGHTYEAR\n" not in locked.stderr and f"told {locked.stderr}")
    free = run(desk, "repair", "--from", "2024-03-25T00:00Z", "-", report, book=text.replace(b",53700,", b",53720,"))
    tests.told("who isn't locked by what is fixed", b"locked" in free.stderr and f"told {free.stderr}")
    # A pairing of the report that the book doesn't have is told.
    gone = b"\n".join(line for line in text.splitlines() if b",K3" not in line) + b"\n"
    told = run(desk, "repair", "--from", "2024-03-10T00:00Z", "-", report, book=gone)
    tests.told("a pairing that the book lacks", not told.stderr.startswith(b"not in the book: K3 of KARI\n") and f"told {told.stderr}")


# docs/REPAIR.md has the rest of the book in which P7 is A's, and breaks off at LHR.
HEADS = """period,2024-03
base,BAS,UTC0
crew,A,BAS,0,0,0
crew,B,BAS,0,0,0
"""


def rows_by(plan):
    """What each person has by a report, and their duty in 28 days."""
    lines = (line.split() for line in plan.decode().splitlines())
    return {words[1]: (words[7:], int(words[5])) for words in lines if words[0] == "CREW"}


def broken_off(tests, run, roster, desk, root):
    """What is left of a pairing that breaks off is a pairing that begins with a positioning duty, or stays with somebody."""
    page = open(f"{root}/docs/REPAIR.md", encoding="utf-8").read().partition("## A pairing that breaks off")[2]
    records = page.partition("```text\n")[2].partition("```")[0]
    # All words of the command but the paths.
    words = page.partition("```sh\n")[2].partition("```")[0].split()[1:-2]
    book = HEADS + records
    report = f"{tests.folder}/broken-off.txt"
    with open(report, "wb") as file:
        file.write(run(roster, "solve", book=(HEADS + records.partition("leave,")[0]).encode()).stdout)

    def made(*broken, of=book):
        return run(desk, *words[:3], *(word for text in broken for word in ("--broken", text)), "-", report, book=of.encode())

    rest = run(desk, *words, "-", report, book=book.encode())
    rows = rest.stdout.decode().splitlines()
    wanted = [
        *("pairing,P7-2,BAS,1000", "duty,P7-2,P,P7-2,BAS,2024-03-10T16:00Z,2024-03-10T19:00Z"),
        *("duty,D1,C,A,BAS,2024-03-10T06:00Z,2024-03-10T14:00Z", "duty,D2,P,P7-2,LHR,2024-03-11T06:00Z,2024-03-11T12:00Z"),
        "duty,D3,P,P7-2,LHR,2024-03-12T07:00Z,2024-03-12T13:00Z",
    ]
    tests.told(
        "a pairing that breaks off",
        rest.returncode != 0 and f"status {rest.returncode}, {rest.stderr}",
        sorted(row for row in rows if row[:5] in ("pairi", "duty,")) != sorted(wanted) and f"other records: {rows}",
        not rest.stderr.startswith(b"fixed: 1 pairings, and 0 that stay open\n") and f"told {rest.stderr}",
    )
    plan = run(desk, "plan", "-", book=rest.stdout).stdout
    # 3:00, 6:00 and 6:00 of B; A has 8:00 with D1.
    tests.told("the rest of a pairing that breaks off", rows_by(plan) != {"A": (["-"], 480), "B": (["P7-2"], 900)} and f"told {plan}")
    late = made("P7:2024-03-10T16:00Z/2024-03-10T20:01Z")
    told = run(desk, "why", "-", book=late.stdout)
    tests.told("a positioning that is too late", b"P7-2 - nobody can fly it: REST: 9:59 of rest between P7-2 and D2 " not in told.stdout and f"told {told.stdout}")
    over = made("P7:2024-03-10T16:00Z/2024-03-11T06:01Z")
    tests.told("a positioning that ends after the next report", over.returncode != 1 and f"status {over.returncode}", over.stdout and "a book", b" 8\n" not in over.stderr and f"told {over.stderr}", not over.stderr.endswith(b"\nthis book comes of --broken P7:2024-03-10T16:00Z/2024-03-11T06:01Z\n") and f"told {over.stderr}")
    # B is there, and flies on.
    stays = made("P7:B")
    plan = run(desk, "plan", "-", book=stays.stdout).stdout
    tests.told(
        "the rest stays with who is there",
        stays.returncode != 0 and f"status {stays.returncode}, {stays.stderr}",
        b"P7" in stays.stdout and "P7 is left",
        # 6:00 with each of D2 and D3.
        rows_by(plan) != {"A": (["-"], 480), "B": (["-"], 720)} and f"told {plan}",
    )
    busy = made("P7:B", of=book + "leave,B,2024-03-12T00:00Z,2024-03-13T00:00Z\n")
    tests.told(
        "the rest stays with who has leave",
        busy.returncode != 1 and f"status {busy.returncode}",
        busy.stdout and "a book",
        b" 13\n" not in busy.stderr and f"told {busy.stderr}",
        not busy.stderr.endswith(b"\nthis book comes of --broken P7:B\n") and f"told {busy.stderr}",
    )
    whole = made()
    tests.told(
        "who is under way has leave",
        whole.returncode != 1 and f"status {whole.returncode}",
        b" 13\n" not in whole.stderr and f"told {whole.stderr}",
        not whole.stderr.endswith(b"\nif somebody is under way: begin the leave at the release, or say --broken\n") and f"told {whole.stderr}",
    )
    # A name that is taken, and one that is too long for another number.
    taken = made("P7:2024-03-10T16:00Z/2024-03-10T19:00Z", of=book + "duty,P7-2,C,B,BAS,2024-03-01T06:00Z,2024-03-01T08:00Z\n")
    tests.told("a name that a duty has", b"\npairing,P7-3,BAS,1000\n" not in taken.stdout and f"told {taken}")
    with open(report, "rb") as file:
        long = file.read().replace(b"P7", b"ABCDEFGHIJKLMNOP")
    with open(report, "wb") as file:
        file.write(long)
    long = made("ABCDEFGHIJKLMNOP:2024-03-10T16:00Z/2024-03-10T19:00Z", of=book.replace("P7", "ABCDEFGHIJKLMNOP"))
    tests.told("a long name", b"\npairing,ABCDEFGHIJKLM-2,BAS,1000\n" not in long.stdout and f"told {long}")


def wrong_breaks(tests, run, desk, folder):
    """Words of `--broken` that say nothing of a book."""
    book, report = (f"{folder}/examples/month-of-two-bases.{end}" for end in ("csv", "txt"))
    # On 5 March at 7:00 ANA has flown L1-A, and L1-B is left.
    times = "2024-03-05T06:00Z/2024-03-05T07:00Z"
    for broken, start, told in (
        ("L1", "2024-03-05T07:00Z", b"error: --broken wants"),
        ("L1:2024-03-05T07:00Z/", "2024-03-05T07:00Z", b"error: --broken wants"),
        ("L9:ANA", "2024-03-05T07:00Z", b"error: the book has no such pairing"),
        ("L1:NONE", "2024-03-05T07:00Z", b"error: the book has no such person"),
        (f"L1:{times}", "2024-03-04T00:00Z", b"error: --broken wants"),
        (f"L1:{times}", "2024-03-10T00:00Z", b"error: --broken wants"),
    ):
        refused = run(desk, "repair", "--from", start, "--broken", broken, book, report)
        tests.told(f"--broken {broken}", refused.returncode != 2 and f"status {refused.returncode}", not refused.stderr.startswith(told) and f"told {refused.stderr}")


def repairs(tests, run, roster, desk, folder, first, count):
    """So many repairs, from this seed on."""
    for seed in range(first, first + count):
        size = SIZES[seed % len(SIZES)] if seed % 20 else LARGE
        one_repair(tests, run, roster, desk, folder, size, seed)

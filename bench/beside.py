"""Rosters of a month by other ways than the desk's, which bench/plan shows beside its plan.

None of them is a part of the programs. What is legal is judged by tools/second. What a roster costs is what
`roster check` tells of the whole month, and a roster that it finds not to be legal ends the run.
"""

import importlib.machinery
import importlib.util
import os
import resource
import shutil
import subprocess
import sys
import tempfile
import time
from bisect import bisect_left

sys.dont_write_bytecode = True
from words import built

HERE = os.path.dirname(os.path.abspath(__file__))
DAY = 1440
# Windows: the most sets of a person, the most days, and the seconds of a processor after which a window is
# made shorter.
WINDOW_SETS, WINDOW_DAYS, WINDOW_SECONDS = 6000, 14, 10
# CBC: rounds of new sets, how many are kept that end with one pairing, and how many new ones a person gets in
# a round; the seconds by the clock after which there is no further round; and the limits of the search.
ROUNDS, KEPT, NEW, ROUND_SECONDS = 20, 4, 40, 60
NODES, SECONDS = 5000, 60


def load_second():
    """The second implementation of the rules, which is a script without an ending."""
    path = os.path.join(os.path.dirname(HERE), "tools", "second")
    loader = importlib.machinery.SourceFileLoader("second", path)
    module = importlib.util.module_from_spec(importlib.util.spec_from_loader(loader.name, loader))
    loader.exec_module(module)
    return module


second = load_second()


def spent():
    """The seconds of a processor that this script took so far, with the programs that it ran."""
    return sum(os.times()[:4])


def places(mask):
    """The places of the bits of a number, from the least on."""
    while mask:
        yield (mask & -mask).bit_length() - 1
        mask &= mask - 1


class Month:
    """A book, and what is asked of it often. Its pairings are numbered by when they begin, and a set of them
    is a number with a bit for each; a roster is a list with the set of each person."""

    def __init__(self, data):
        self.data = data
        self.book = second.read_book("check", data)
        self.persons = list(self.book.persons.values())
        self.pairings = sorted(self.book.pairings.values(), key=lambda it: it.duties[0].report)
        self.number_of = {pairing.name: p for p, pairing in enumerate(self.pairings)}
        self.weight = self.book.weight or 0
        self.fixed_flight = [second.Line(person, []).month_flight for person in self.persons]
        # A person of each base with nothing to do: what is not legal for them is legal for nobody there.
        idle = {base: second.Person("", 0, base, 0, 0, 0) for base in self.book.bases.values()}
        self.flight = [second.Line(idle[it.base], [it]).month_flight for it in self.pairings]
        self.clashes = self.clashes_of(idle)
        self.legal = {}
        numbers = range(len(self.pairings))
        self.alone = [sum(1 << p for p in numbers if self.is_legal(k, 1 << p)) for k in range(len(self.persons))]

    def clashes_of(self, idle):
        """For each pairing those that nobody can have beside it."""
        clashes = [0] * len(self.pairings)
        for p, first in enumerate(self.pairings):
            for q in range(p + 1, len(self.pairings)):
                other = self.pairings[q]
                if other.duties[0].report > first.duties[-1].release + 2 * DAY:
                    break
                if second.broken_rule(idle[first.base], [first, other]):
                    clashes[p] |= 1 << q
                    clashes[q] |= 1 << p
        return clashes

    def is_legal(self, k, mask):
        """Whether a person may have a set."""
        known = self.legal.get((k, mask))
        if known is None:
            pairings = [self.pairings[p] for p in places(mask)]
            known = self.legal[k, mask] = second.broken_rule(self.persons[k], pairings) is None
        return known

    def may_add(self, k, mask, p):
        """Whether a person with a legal set may have a pairing too."""
        return self.alone[k] >> p & 1 and not mask & self.clashes[p] and self.is_legal(k, mask | 1 << p)

    def units(self, k, p):
        return self.book.units.get((self.persons[k].name, self.pairings[p].name), 0)

    def missed(self, k, flight):
        """What it costs that a person has so much flight in pairings."""
        return self.weight * abs(self.persons[k].target - self.fixed_flight[k] - flight)

    def flight_of(self, mask):
        return sum(self.flight[p] for p in places(mask))

    def cost_of(self, k, mask):
        return sum(self.units(k, p) for p in places(mask)) + self.missed(k, self.flight_of(mask))

    def cost(self, roster):
        """What a roster costs."""
        left = ((1 << len(self.pairings)) - 1) & ~sum(roster)
        open_ones = sum(self.pairings[p].penalty for p in places(left))
        return open_ones + sum(self.cost_of(k, mask) for k, mask in enumerate(roster))

    def roster_of(self, report):
        """The roster of a report, of which the lines are given."""
        sets = {
            words[1]: sum(1 << self.number_of[name] for name in words[7:] if name != "-")
            for words in map(str.split, report)
            if words[0] == "CREW"
        }
        return [sets[person.name] for person in self.persons]

    def judged(self, roster):
        """What a roster costs, and how many pairings it leaves open."""
        who = {self.pairings[p].name: self.persons[k].name for k, mask in enumerate(roster) for p in places(mask)}
        assigns = "".join(f"assign,{pairing},{person}\n" for pairing, person in who.items())
        run = subprocess.run(
            [built("roster", "ROSTER"), "check"], input=self.data + assigns.encode(), capture_output=True, check=True
        )
        lines = [line.split() for line in run.stdout.decode().splitlines()]
        if any(line[0] == "CREW" and line[2] != "OK" for line in lines):
            sys.exit("bench/plan: a roster that is shown beside the plan is not legal.")
        cost, left = int(lines[1][1]), len(self.pairings) - len(who)
        if cost != self.cost(roster):
            sys.exit("bench/plan: a roster costs something else than `roster check` tells.")
        return cost, left


# Greedy

def greedy(month):
    """Gives out the pairings as they begin, each to the person to whom it costs least of those for whom it is
    legal with what they have. If there is none it stays open."""
    roster = [0] * len(month.persons)
    for p in range(len(month.pairings)):
        give(month, roster, p)
    return roster


def give(month, roster, p):
    """Gives a pairing to the person to whom it costs least, if there is one."""

    def costs(k):
        return month.cost_of(k, roster[k] | 1 << p) - month.cost_of(k, roster[k])

    may = [k for k in range(len(roster)) if month.may_add(k, roster[k], p)]
    if may:
        roster[min(may, key=costs)] |= 1 << p


# Windows

def windows(month):
    """Solves the month in windows of days by `roster solve`, each with what was settled before it, and settles
    what begins in the first half of each. A day that takes too long alone is given out as `greedy` does."""
    roster, at = [0] * len(month.persons), 0
    days = [pairing.duties[0].report // DAY for pairing in month.pairings]
    while at < len(days):
        length = length_of(month, roster, days, at)
        while True:
            end = bisect_left(days, days[at] + length)
            found = solved(month, roster, at, end)
            if found is not None or length == 1:
                break
            length = (length + 1) // 2
        # The last window is settled whole.
        half = end if end == len(days) else bisect_left(days, days[at] + (length + 1) // 2)
        for p in range(at, half):
            if found is None:
                give(month, roster, p)
            elif p in found:
                roster[found[p]] |= 1 << p
        at = half
    return roster


def length_of(month, roster, days, at):
    """How many days the next window has: as many as leave nobody too many sets, by pairs of pairings alone."""
    for length in range(1, WINDOW_DAYS + 1):
        inside = range(at, bisect_left(days, days[at] + length))
        for k, mask in enumerate(roster):
            may = sum(1 << p for p in inside if month.may_add(k, mask, p))
            if count_sets(month.clashes, may, WINDOW_SETS) > WINDOW_SETS:
                return max(1, length - 1)
    return WINDOW_DAYS


def count_sets(clashes, may, most):
    """How many sets of pairings have no two that clash; or more than the most, if there are more."""
    counted, left = 0, [may]
    while left and counted <= most:
        rest = left.pop()
        counted += 1
        for p in places(rest):
            rest &= ~(1 << p)
            left.append(rest & ~clashes[p])
    return counted + len(left)


def solved(month, roster, at, end):
    """Who has which pairing of those from a number to another one in the best roster of a window, or None if
    it is refused or takes too long."""

    def set_limit():
        resource.setrlimit(resource.RLIMIT_CPU, (WINDOW_SECONDS, WINDOW_SECONDS))

    run = subprocess.run(
        [built("roster", "ROSTER"), "solve"],
        input=window_book(month, roster, at, end),
        capture_output=True,
        preexec_fn=set_limit,
    )
    text = run.stdout.decode()
    if run.returncode != 0:
        if run.returncode > 0 and text.split()[2:] != ["15"]:
            sys.exit(f"bench/plan: a window of days is refused: {text}")
        return None
    return {p: k for k, mask in enumerate(month.roster_of(text.splitlines())) for p in places(mask)}


def window_book(month, roster, at, end):
    """The book of a window: its pairings, and what is settled as fixed duties."""
    holder = {month.pairings[p].name: month.persons[k].name for k, mask in enumerate(roster) for p in places(mask)}
    inside = {month.pairings[p].name for p in range(at, end)}
    kinds = {kind: [] for kind in ("period", "base", "crew", "pairing", "rest")}
    duties = set()
    for record in second.read_records(month.data):
        kind, *fields = (field.decode() for field in record)
        if kind == "pairing" and fields[0] not in inside or kind == "cost" and fields[1] not in inside:
            continue
        if kind == "duty" and fields[1] == "P" and fields[2] not in inside:
            if fields[2] not in holder:
                continue
            fields[1:3] = ["C", holder[fields[2]]]
        if kind == "sector" and fields[0] not in duties:
            continue
        if kind == "duty":
            duties.add(fields[0])
        line = ",".join(f'"{field}"' if "," in field else field for field in (kind, *fields))
        kinds.get(kind, kinds["rest"]).append(line + "\n")
    return "".join(sum(kinds.values(), [])).encode()


# CBC

def cbc(month, rosters):
    """The best roster that CBC finds, in limits of nodes and of seconds, of some sets of each person: those of the
    rosters that are given, those that are a pairing more, less or other, and those that are cheapest by the prices
    of a linear program over the sets so far, in some rounds. It begins with the cheapest of these rosters."""
    sets = [dict.fromkeys([0]) for _ in month.persons]
    for roster in rosters:
        for k, mask in enumerate(roster):
            sets[k].update(dict.fromkeys(around(month, k, mask)))
    begin, prices = time.monotonic(), None
    with tempfile.TemporaryDirectory() as folder:
        for _ in range(ROUNDS):
            new = linear(month, sets, folder)
            # Prices that leap from round to round bring sets that no roster has together.
            prices = new if prices is None else [(old + it) / 2 for old, it in zip(prices, new)]
            for k, known in enumerate(sets):
                known.update(dict.fromkeys(cheapest(month, k, prices, known)))
            if time.monotonic() - begin > ROUND_SECONDS:
                break
        return whole(month, sets, min(rosters, key=month.cost), folder)


def is_there():
    """Whether CBC is installed."""
    return shutil.which("cbc") is not None


def around(month, k, mask):
    """A set, and the legal ones that are a pairing less, more or other."""
    less = [mask, *(mask & ~(1 << p) for p in places(mask))]
    yield from less
    for known in less:
        for p in range(len(month.pairings)):
            if not mask >> p & 1 and month.may_add(k, known, p):
                yield known | 1 << p


def cheapest(month, k, prices, known):
    """New legal sets of a person that cost little less the prices of their pairings, the cheapest ones first. Of
    those that end with one pairing a few are kept, and made longer."""
    ending, found = {}, []
    for p in places(month.alone[k]):
        step, flight = month.units(k, p) - prices[p], month.flight[p]
        made = [(step + month.missed(k, flight), step, flight, 1 << p)]
        for q, kept in ending.items():
            if not month.clashes[p] >> q & 1:
                for _, cost, flown, mask in kept:
                    if not mask & month.clashes[p]:
                        cost, flown = cost + step, flown + flight
                        made.append((cost + month.missed(k, flown), cost, flown, mask | 1 << p))
        made.sort()
        kept = []
        for one in made:
            if month.is_legal(k, one[3]):
                kept.append(one)
                if len(kept) == KEPT:
                    break
        ending[p] = kept
        found += kept
    found.sort()
    return [mask for _, _, _, mask in found if mask not in known][:NEW]


def linear(month, sets, folder):
    """The prices of the pairings by the linear program over the sets."""
    problem(month, sets, folder)
    lines = run_cbc(folder, ["-initialSolve", "-printingOptions", "all"])
    values = {name: float(price) for _, name, _, price in lines}
    return [values[f"p{p}"] for p in range(len(month.pairings))]


def whole(month, sets, start, folder):
    """The best roster that CBC finds of the sets, from one of them on."""
    columns = problem(month, sets, folder)
    with open(os.path.join(folder, "start"), "w") as file:
        file.write("Stopped on time - objective value 0\n")
        names = [name for name, (k, mask) in columns.items() if start[k] == mask]
        names += [f"o{p}" for p in range(len(month.pairings)) if not any(mask >> p & 1 for mask in start)]
        file.writelines(f"{n} {name} 1 0\n" for n, name in enumerate(names))
    limits = ["-seconds", str(SECONDS), "-maxNodes", str(NODES)]
    lines = run_cbc(folder, ["-mipStart", os.path.join(folder, "start"), *limits, "-branch"])
    chosen = sorted(columns[name] for _, name, value, _ in lines if name in columns and float(value) > 0.5)
    if [k for k, _ in chosen] != list(range(len(sets))):
        sys.exit("bench/plan: CBC gives no roster.")
    # CBC may pass over where it was to begin.
    return min(([mask for _, mask in chosen], start), key=month.cost)


def problem(month, sets, folder):
    """Writes the set partitioning for CBC: each person has one of their sets, and each pairing is in one of these
    or open. What its columns are, by name."""
    columns = {f"x{k}_{n}": (k, mask) for k, known in enumerate(sets) for n, mask in enumerate(known)}
    rows = {f"p{p}": [f"o{p}"] for p in range(len(month.pairings))} | {f"k{k}": [] for k in range(len(sets))}
    costs = [f"{pairing.penalty} o{p}" for p, pairing in enumerate(month.pairings)]
    for name, (k, mask) in columns.items():
        costs.append(f"{month.cost_of(k, mask)} {name}")
        rows[f"k{k}"].append(name)
        for p in places(mask):
            rows[f"p{p}"].append(name)
    with open(os.path.join(folder, "problem.lp"), "w") as file:
        file.write("Minimize\n cost: " + "\n + ".join(costs).replace("+ -", "- ") + "\nSubject To\n")
        file.writelines(f" {name}: " + "\n + ".join(held) + " = 1\n" for name, held in rows.items())
        file.write("Binaries\n" + "\n".join([*columns, *(f"o{p}" for p in range(len(month.pairings)))]) + "\nEnd\n")
    return columns


def run_cbc(folder, words):
    """The lines of what CBC finds: number, name, value, and what a row's price is or a column costs."""
    solution = os.path.join(folder, "solution")
    words = ["cbc", os.path.join(folder, "problem.lp"), *words, "-solution", solution]
    run = subprocess.run(words, capture_output=True)
    if run.returncode or not os.path.exists(solution):
        sys.exit(f"bench/plan: CBC ends with {run.returncode}.")
    with open(solution) as file:
        return [line.split()[-4:] for line in file.readlines()[1:]]

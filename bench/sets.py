"""How many legal sets of pairings a person of a base can have, as bench/wild asks before it writes a book.

The count is of somebody with neither leave nor fixed duties, and never too low: it keeps the rest between two pairings
in a row and recovery, the limits of duty for each two in a row, and the flight that is left in the year. What the other
rules take away from three pairings or more isn't taken away here.
"""

from beside import DAY, second

WEEK = 7 * DAY
# Flight that is left is counted in so many parts, each rounded down.
PARTS = 40
# A rest of 12 hours at the home base, and one of 10 away from it: between them another pairing's duty may lie.
RESTS_AROUND = 22 * 60


class Followed:
    """What the count asks of a pairing."""

    def __init__(self, idle, pairing):
        line = second.Line(idle, [pairing])
        self.days, self.pairing, self.duties = line.days, pairing, line.duties
        self.first, self.last = line.duties[0], line.duties[-1]
        self.flight, self.by_day = line.month_flight, line.duty_by_day
        # Recurrent rests within the pairing part it into blocks.
        self.first_block_ends, self.last_block_begins = self.last.release, self.first.report
        gaps = list(zip(self.duties, self.duties[1:]))
        rests = [it for it in gaps if second.is_recurrent_rest(line.days, it[0].release, it[1].report)]
        if rests:
            self.first_block_ends, self.last_block_begins = rests[0][0].release, rests[-1][1].report
        self.stays = [(a.release, b.report) for a, b in gaps if b.report - a.release > RESTS_AROUND]

    def keeps_sums(self, other):
        """Whether both together keep the limit of duty in seven days."""
        both = [a + b for a, b in zip(self.by_day, other.by_day)]
        return second.greatest_run(self.days, both, 7) <= 60 * 60

    def may_be_followed(self, other):
        """Whether somebody may have another pairing behind this one."""
        gap = other.first.report - self.last.release
        if gap < max(12 * 60, self.last.release - self.last.report):
            return False
        return gap > WEEK or self.keeps_sums(other)

    def may_hold(self, idle, other):
        """Whether somebody may have a pairing that begins within this one."""
        report = other.first.report
        if not any(begin < report < end for begin, end in self.stays):
            return False
        return second.broken_rule(idle, [self.pairing, other.pairing]) is None


class Ends:
    """How many sets end with each pairing, by the begin of the last block and the flight, and how many there are."""

    def __init__(self, unit, left):
        self.unit, self.left, self.total, self.of = unit, left, 1, []

    def add(self, place, begin, flight, count):
        states = self.of[place]
        states[begin, flight] = states.get((begin, flight), 0) + count
        self.total += count

    def longer(self, flight, other):
        """The flight with another pairing's, in parts, or None if it is too much."""
        if self.unit is None:
            return 0
        flight += other.flight // self.unit
        return flight if flight <= self.left // self.unit else None


def counted(idle, pairings, left, most):
    """At least as many as there are legal sets of these pairings, which stand in their order; a number that is above
    the most if the count is. `left` is the flight that is left, or None if it is enough for all."""
    ends = Ends(None if left is None else max(1, left // PARTS), left)
    followed = [Followed(idle, it) for it in pairings]
    for q, later in enumerate(followed):
        ends.of.append({})
        if ends.longer(0, later) is None:
            continue
        ends.add(q, later.last_block_begins, ends.longer(0, later), 1)
        for p, earlier in enumerate(followed[:q]):
            if ends.of[p]:
                join(idle, ends, (p, earlier), (q, later))
        if ends.total > most:
            break
    return ends.total


def join(idle, ends, before, behind):
    """Counts the sets that end with one pairing and get another one."""
    (p, earlier), (q, later) = before, behind
    place, known_begin = q, False
    if later.first.report >= earlier.last.release:
        if not earlier.may_be_followed(later):
            return
        known_begin = not second.is_recurrent_rest(earlier.days, earlier.last.release, later.first.report)
    elif not earlier.may_hold(idle, later):
        return
    elif later.last.release <= earlier.last.release:
        place = p
    for (begin, flight), count in list(ends.of[p].items()):
        flight = ends.longer(flight, later)
        if flight is None or known_begin and later.first_block_ends - begin > WEEK:
            continue
        parted = later.last_block_begins != later.first.report
        if place == p or known_begin and not parted:
            ends.add(place, begin, flight, count)
        else:
            ends.add(place, later.last_block_begins, flight, count)


def sets_at_most(idle, pairings, left, most):
    """Whether nobody of the base surely has more legal sets than the most, if nobody has more flight left."""
    pairings = sorted(pairings, key=lambda it: (it.duties[0].report, it.duties[-1].release))
    if counted(idle, pairings, None, most) <= most:
        return True
    return left < 100 * 60 and counted(idle, pairings, max(0, left), most) <= most

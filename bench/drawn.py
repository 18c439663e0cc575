"""What bench/wild draws: pairings, persons with leave and fixed duties, and costs.

Minutes are those of tools/second, in UTC; days are places in the window of a base, of which 35 is the month's first.
"""

from bisect import bisect_right

from beside import DAY, second

AIRPORTS = ["AGP", "ATH", "BCN", "CPH", "DOH", "DUB", "FCO", "GRU", "HEL", "HND", "JFK", "LHR", "LIS", "LAX", "NBO"]
AIRPORTS += ["OSL", "OTP", "PEK", "SYD", "WAW", "ZRH"]
STATIONS = [*AIRPORTS, "hotel-1", "hotel-2", "X"]
# Of how many days pairings are.
LENGTHS = [[1], [1], [1, 1, 2], [1, 1, 2, 2, 3, 4], [1, 2, 3, 4, 5], [2], [2, 3], [3, 4], [3, 4], [4], [4, 5], [5]]
# Of each haul the most sectors of a duty, the least and the most minutes of one, and the most of the duty.
HAULS = {"short": (5, 45, 150, 720), "medium": (2, 150, 330, 780), "long": (1, 360, 780, 960)}
MIXES = [["short"], ["short"], ["short", "medium"], ["medium"], ["medium", "long"], ["short", "short", "medium", "long"]]
# Between which hours of the day pairings begin.
HOURS = [[(5, 9)], [(5, 13)], [(5, 9), (12, 17)], [(4, 20)], [(0, 24)], [(18, 24)], [(5, 8), (17, 23)]]
# When the next duty begins: after the least rest, in the morning, or after a night more.
STAYS = [["morning"], ["morning", "morning", "least"], ["least"], ["morning", "long"], ["least", "morning", "long"]]


def stepped(draw, least, most, step):
    """A multiple of the step between two numbers, or the least number."""
    return max(least, draw.randrange(least, most + 1) // step * step)


def day_of(days, minute):
    """The day in which a minute lies."""
    return bisect_right(days.midnights, minute) - 1


def rest_before(station, base, before):
    """The least rest between a duty and one that reports at a station."""
    return max(12 * 60 if station == base.name else 10 * 60, before.release - before.report)


class Flying:
    """What the duties and pairings of a base are like."""

    def __init__(self, draw):
        self.draw = draw
        self.lengths = draw.choice(LENGTHS)
        self.mix, self.hours, self.stays = draw.choice(MIXES), draw.choice(HOURS), draw.choice(STAYS)
        self.positioning = draw.choice([0, 0.05, 0.1, 0.3])
        self.on_ground = draw.choice([0, 0, 0, 0.03, 0.1])
        self.step = draw.choice([1, 5, 5, 15])
        # Of how many pairings the rest behind another one is the least, or a minute beside it.
        self.near = draw.choice([0, 0, 0.1, 0.4])

    def duty(self, holder, station, report, haul):
        """A duty with its sectors, or on the ground without."""
        draw = self.draw
        if haul is None:
            return second.Duty(0, holder, station, report, report + stepped(draw, 180, 600, self.step))
        sectors, least, most, longest = HAULS[haul]
        while True:
            off, flown = report + draw.randrange(45, 91, 5), []
            for _ in range(draw.randrange(1, sectors + 1)):
                on = off + stepped(draw, least, most, self.step)
                flown.append(("P" if draw.random() < self.positioning else "O", off, on))
                off = on + draw.randrange(30, 61, 5)
            release = flown[-1][2] + draw.randrange(15, 46, 5)
            if release - report <= longest:
                duty = second.Duty(0, holder, station, report, release)
                duty.sectors = flown
                return duty

    def report(self, days, day):
        """When a pairing of a day reports."""
        first, after = self.draw.choice(self.hours)
        minute = stepped(self.draw, first * 60, after * 60 - 1, self.step)
        return min(days.midnights[day] + minute, days.midnights[day + 1] - 1)

    def next_report(self, base, before, station):
        """When the next duty of a pairing reports."""
        draw, days = self.draw, base.days
        rested = before.release + rest_before(station, base, before)
        stay = draw.choice(self.stays)
        if stay == "least":
            return rested + draw.choice([0, 0, 1, 5, 30, 90])
        morning = days.midnights[day_of(days, before.release) + 1] + stepped(draw, 5 * 60, 11 * 60, self.step)
        return max(rested, morning) + (DAY if stay == "long" and draw.random() < 0.5 else 0)

    def pairing(self, base, report):
        """A pairing that reports at a time."""
        draw, made = self.draw, second.Pairing("", 0, base, 0)
        length = draw.choice(self.lengths)
        after = base.days.midnights[day_of(base.days, report) + length]
        is_on_ground = length == 1 and draw.random() < self.on_ground
        mix = [it for it in self.mix if length > 1 or it != "long"]
        station = base.name
        while not made.duties or report + 4 * 60 <= after:
            haul = None if is_on_ground else draw.choice(mix)
            made.duties.append(self.duty(made, station, report, haul))
            station = base.name if draw.random() < 0.03 else draw.choice(STATIONS)
            report = self.next_report(base, made.duties[-1], station)
        return made

    def legal_pairing(self, base, idle, known, day):
        """A pairing that somebody can fly, or now and then one that nobody can. It reports on a day, or soon after one
        of the known pairings as rest allows, or a minute sooner or later."""
        draw, days = self.draw, base.days
        while True:
            report = self.report(days, day)
            if known and draw.random() < self.near:
                last = draw.choice(known).duties[-1]
                rested = last.release + rest_before(base.name, base, last) + draw.choice([-1, 0, 0, 1])
                report = rested if rested < days.month_end else report
            made = self.pairing(base, report)
            if draw.random() < 0.01 or second.broken_rule(idle, [made]) is None:
                return made


def share_of(draw, *shares):
    """One of the shares of persons whom something is true of, as a test."""
    share = draw.choice(shares)
    return lambda: draw.random() < share


class Lives:
    """What the persons of a book have besides pairings. No more than so many fixed duties are drawn for a person."""

    def __init__(self, draw, year_begins, duties):
        self.draw, self.year_begins, self.duties = draw, year_begins, duties
        self.has_leave, self.long_leave = share_of(draw, 0, 0.1, 0.33, 0.8), draw.choice(["week", "third", "days"])
        self.has_past, self.past = share_of(draw, 0, 0, 0.5, 1), draw.choice([3, 7, 14, 35])
        self.reaches_in = share_of(draw, 0, 0.3)
        self.is_trained, self.has_later = share_of(draw, 0, 0.3, 1), share_of(draw, 0, 0, 0.3)
        self.is_near = share_of(draw, 0, 0, 0, 0.3, 0.8, 1)
        self.hours_left = draw.choice([(25, 45), (25, 45), (0, 20), (40, 80), (5, 60)])
        self.flying = Flying(draw)
        self.flying.near, self.flying.mix = 0, ["short"]

    def person(self, name, base, first, after):
        """A person with leave, fixed duties and carried minutes; days from the first on are to be rostered."""
        made = second.Person(name, 0, base, 0, 0, 0)
        if self.has_leave():
            self.take_leave(made)
        for _ in range(4):
            self.fix(made, first, after)
            if second.locked_by(made) is None:
                break
            made.fixed_duties = []
        self.carry(made)
        return made

    def take_leave(self, person):
        """A week of leave, up to a third of the month, or some days off and now and then some hours."""
        draw, days = self.draw, person.base.days
        if self.long_leave == "days":
            pieces = [draw.choice([1, 1, 2, 2, 3]) for _ in range(draw.randrange(1, 6))]
        else:
            pieces = [7] if self.long_leave == "week" else [draw.randrange(1, 6), draw.randrange(1, 6)]
        for length in pieces:
            first = draw.randrange(days.first - length + 1, days.after)
            begin, end = days.midnights[first], days.midnights[first + length]
            if self.long_leave == "days" and draw.random() < 0.1:
                begin, end = begin + draw.randrange(8 * 60, 12 * 60), begin + draw.randrange(14 * 60, 18 * 60)
            if all(end <= other[0] or other[1] <= begin for other in person.leaves):
                person.leaves.append((begin, end))

    def fix(self, person, first, after):
        """Blocks of duty up to the first day, and now and then beyond; training, standby and duties after the month."""
        draw, days = self.draw, person.base.days
        if self.has_past():
            until = first + (draw.randrange(1, 4) if self.reaches_in() else 0)
            day = max(0, first - self.past)
            while day < until:
                for day in range(day, min(until, day + draw.randrange(3, 6))):
                    self.add(person, day, None if draw.random() < 0.1 else "short")
                day += draw.choice([3, 3, 4])
        if self.is_trained():
            for _ in range(draw.randrange(1, 4)):
                self.add(person, draw.randrange(first, after), None)
        if self.has_later():
            for _ in range(draw.randrange(1, 4)):
                self.add(person, draw.randrange(days.after, len(days.midnights) - 2), draw.choice([None, "short"]))

    def add(self, person, day, haul):
        """A fixed duty on a day, if it has the rests around it, no leave and room."""
        base = person.base
        report = base.days.midnights[day] + stepped(self.draw, 5 * 60, 13 * 60, self.flying.step)
        made = self.flying.duty(None, base.name, report, haul)
        if len(person.fixed_duties) >= self.duties:
            return
        for other in person.fixed_duties:
            before, behind = sorted([other, made], key=lambda it: it.report)
            if behind.report - before.release < rest_before(base.name, base, before):
                return
        if all(made.release <= begin or end <= made.report for begin, end in person.leaves):
            person.fixed_duties.append(made)

    def carry(self, person):
        """Minutes flown before the month, which leave some hours of flight for some persons, or now and then none."""
        draw = self.draw
        fixed = second.Line(person, []).month_flight
        person.eleven = draw.randrange(15000, 50000)
        person.year = 0 if self.year_begins else draw.randrange(0, person.eleven)
        if self.is_near():
            left = 0 if draw.random() < 0.02 else fixed + stepped(draw, *(60 * it for it in self.hours_left), 60)
            if draw.random() < 0.5 and not self.year_begins:
                person.year = max(0, 54000 - left)
                person.eleven = max(person.year, person.eleven)
            else:
                person.eleven = max(0, 60000 - left)
                person.year = min(person.year, person.eleven)


def flight_left(person):
    """The flight that a person may have in the month besides fixed duties."""
    return min(54000 - person.year, 60000 - person.eleven) - second.Line(person, []).month_flight


class Money:
    """What units, penalties and targets of a book are like."""

    def __init__(self, draw):
        self.draw = draw
        self.weight = draw.choice([None, 0, 1, 1, 1, 2, 3, 5, 10, 20])
        self.divisor, self.most = draw.choice([1, 1, 5, 10, 50, 100, 1000, 10**6]), draw.choice([1, 3, 10, 40, 200, 1000])
        self.share = draw.choice([0, 0.02, 0.1, 0.2, 0.5, 0.95])
        self.signs = draw.choice([(1, 1), (1, 1), (0, 1), (1, 0)])
        self.forbids = draw.choice([0, 0, 0, 0.01])
        self.penalties = draw.choice(["equal", "by days", "by days", "wild"])
        self.penalty_divisor = draw.choice([self.divisor, self.divisor, 1, 7, 50, 500])
        greatest = self.divisor * self.most
        self.penalty = min(10**8, greatest * draw.choice([1, 1, 2, 5, 20, 100]) // draw.choice([1, 1, 3]))
        self.penalty += draw.choice([0, 100, 1000])
        self.targets = draw.choice(["none", "equal", "equal", "by days", "part-time", "any"])
        self.miss, self.target_step = draw.choice([1, 1, 1, draw.uniform(0.7, 1.3)]), draw.choice([1, 5, 30, 60])

    def penalty_of(self, pairing):
        draw, scale, divisor = self.draw, self.penalty, self.penalty_divisor
        days = (pairing.duties[-1].release - pairing.duties[0].report) // DAY + 1
        if self.penalties == "by days":
            scale = scale * days + draw.randrange(0, scale // 2 + 2)
        elif self.penalties == "wild":
            scale = int(scale * 10 ** draw.uniform(-2, 1))
        return min(10**9, max(1, scale // divisor) * divisor) if draw.random() < 0.98 else 0

    def units(self):
        """The units of a person with a pairing, or None for most."""
        draw = self.draw
        if draw.random() < self.forbids:
            return 10**9
        less, more = self.signs
        if draw.random() < self.share:
            return draw.randrange(-self.most * less, self.most * more + 1) * self.divisor
        return None

    def share_out(self, persons, flight):
        """The targets of a base's persons, who have so much to fly together."""
        draw, step = self.draw, self.target_step
        if self.targets in ("none", "any"):
            return [0 if self.targets == "none" else stepped(draw, 0, 5400, step) for _ in persons]
        shares = [1] * len(persons)
        if self.targets == "by days":
            shares = [31 * DAY - sum(end - begin for begin, end in it.leaves) for it in persons]
        elif self.targets == "part-time":
            shares = [draw.choice([4, 4, 4, 3, 2]) for _ in persons]
        targets, flight = [], int(flight * self.miss)
        # What rounding takes from one is left to the next ones.
        for k, share in enumerate(shares):
            fair = (flight - sum(targets)) * share / sum(shares[k:])
            targets.append(min(60000, max(0, round(fair / step) * step)))
        return targets

"""Strict readers of the texts, line by line as docs/guide/formats.md says. A text has a value, or its first fault is raised."""
from reference import HORIZON

NAMES = {
    1: "NoProblemLine", 2: "SecondProblemLine", 3: "UnknownLine", 4: "FieldCount", 5: "BadNumber", 6: "OutOfRange", 7: "TooManyLines", 8: "TooFewLines",
    9: "BadKind",
}
MOST_PERIOD = 2**32
# The numbers of a kind's line without steps, by its word.
KINDS = {b"plain": 0, b"every": 2, b"closed": 2, b"rush": 3, b"speeds": 2, b"trips": 2, b"points": 2}


class Fault(Exception):
    """The first fault of a text: its line, 0 for the whole text, and its number."""

    def __init__(self, line, number):
        self.line, self.number = line, number
        super().__init__(f"{line}: {number} {NAMES[number]}")


def spoken(text):
    """The lines that say something, each with its number and its fields."""
    lines = text.split(b"\n")
    if not lines[-1]:
        lines.pop()
    for number, line in enumerate(lines, 1):
        fields = [field for field in line[: -1 if line.endswith(b"\r") else None].replace(b"\t", b" ").split(b" ") if field]
        if fields and not fields[0].startswith(b"c"):
            yield number, fields


def number_of(field):
    """The number in a field, None if it is none. One of more than 40 digits is read as one above every range."""
    if not field.isdigit():
        return None
    digits = field.lstrip(b"0")
    return int(digits or b"0") if len(digits) <= 40 else 10**40


def ranged(line, fields, ranges):
    """The numbers in fields, each within its range. A range may depend on the numbers before it."""
    numbers = [number_of(field) for field in fields]
    if None in numbers:
        raise Fault(line, 5)
    for at, number in enumerate(numbers):
        least, most = ranges[at](*numbers[:at]) if callable(ranges[at]) else ranges[at]
        if not least <= number <= most:
            raise Fault(line, 6)
    return numbers


class Lines:
    """What the lines of a text said so far: its problem line, and how many lines of each word it announces and has."""

    def __init__(self, kinds, words):
        self.kinds, self.words, self.problem, self.announced = kinds, words, None, {}
        self.counts = dict.fromkeys(words, 0)

    def begin(self, line, fields):
        """The faults that come first: an unknown line, one before the problem line, and a second problem line."""
        if fields[0] != b"p" and fields[0] not in self.words:
            raise Fault(line, 3)
        if fields[0] != b"p" and self.problem is None:
            raise Fault(line, 1)
        if fields[0] == b"p" and self.problem is not None:
            raise Fault(line, 2)

    def read_problem(self, line, fields, ranges):
        if any(field != kind for field, kind in zip(fields[1:], self.kinds)):
            raise Fault(line, 9)
        if len(fields) != 1 + len(self.kinds) + len(ranges):
            raise Fault(line, 4)
        self.problem = ranged(line, fields[1 + len(self.kinds) :], ranges)
        return self.problem

    def count(self, line, word):
        """Counts a line that has no other fault."""
        self.counts[word] += 1
        if self.counts[word] > self.announced[word]:
            raise Fault(line, 7)

    def end(self):
        if self.problem is None:
            raise Fault(0, 1)
        if any(self.counts[word] < self.announced.get(word, 0) for word in self.words):
            raise Fault(0, 8)


def network(text):
    """The number of nodes and the arcs (tail, head, weight) of a .gr."""
    said, arcs, nodes = Lines([b"sp"], [b"a"]), [], 0
    for line, fields in spoken(text):
        said.begin(line, fields)
        if fields[0] == b"p":
            nodes, said.announced[b"a"] = said.read_problem(line, fields, [(1, 67_108_864), (0, 268_435_456)])
            continue
        if len(fields) != 4:
            raise Fault(line, 4)
        arcs.append(tuple(ranged(line, fields[1:], [(1, nodes), (1, nodes), (0, 2**32 - 1)])))
        said.count(line, b"a")
    said.end()
    return nodes, arcs


def listed(text, kind, word, counts, ranges):
    """The items of a .ss, a .p2p or a file of times, each a list of its numbers."""
    said, items = Lines([b"aux", b"sp", kind], [word]), []
    for line, fields in spoken(text):
        said.begin(line, fields)
        if fields[0] == b"p":
            (said.announced[word],) = said.read_problem(line, fields, [counts])
            continue
        if len(fields) != 1 + len(ranges):
            raise Fault(line, 4)
        items.append(ranged(line, fields[1:], ranges))
        said.count(line, word)
    said.end()
    return items


def sources(text, nodes):
    return [node for (node,) in listed(text, b"ss", b"s", (0, 1_000_000), [(1, nodes)])]


def pairs(text, nodes):
    return [tuple(pair) for pair in listed(text, b"p2p", b"q", (0, 1_000_000), [(1, nodes)] * 2)]


def times(text, count):
    return [time for (time,) in listed(text, b"at", b"t", (count, count), [(0, HORIZON)])]


def kind_ranges(word, number):
    """The ranges of a kind's numbers, the first that of the kind's number."""
    until = lambda _, begin: (begin + 1, HORIZON)
    return [(number, number)] + {
        b"plain": [],
        b"every": [(1, MOST_PERIOD), lambda _, period: (0, period - 1)],
        b"closed": [(0, HORIZON), until],
        b"rush": [(0, HORIZON), until, (0, MOST_PERIOD)],
        b"speeds": [(1, MOST_PERIOD), (1, 65_536)],
        b"trips": [(0, MOST_PERIOD), (1, 65_536)],
        b"points": [(0, MOST_PERIOD), (1, 65_536)],
    }[word]


def step_fits(word, period, count, steps):
    """Whether the last step of a kind is right after those before it."""
    time, value = steps[-1]
    before = steps[-2] if steps[1:] else None
    is_last = len(steps) == count
    if before and time <= before[0]:
        return False
    if word == "speeds":
        return (time < period if before else time == 0) and value <= 1_000_000 and (not is_last or any(speed for _, speed in steps))
    if time > (period - 1 if period else HORIZON) or value > MOST_PERIOD or (before and time + value < sum(before)):
        return False
    return not (is_last and period) or time + value <= period + sum(steps[0])


def timetables(text, arcs):
    """The kinds of a .tp, and a dict with the class of each arc that has a `t` line."""
    said, kinds, classes, due = Lines([b"tp"], [b"k", b"t", b"v"]), [], {}, 0
    for line, fields in spoken(text):
        said.begin(line, fields)
        word = fields[0]
        if word == b"p":
            said.announced[b"k"], said.announced[b"t"] = said.read_problem(line, fields, [(0, 65_535), (0, 268_435_456)])
            continue
        if word != b"v" and due:
            raise Fault(line, 8)
        if word == b"v" and not due:
            raise Fault(line, 7)
        if word == b"k":
            if len(fields) > 2 and fields[2] not in KINDS:
                raise Fault(line, 9)
            if len(fields) < 3 or len(fields) != 3 + KINDS[fields[2]]:
                raise Fault(line, 4)
            numbers = ranged(line, [fields[1], *fields[3:]], kind_ranges(fields[2], len(kinds) + 1))[1:]
            said.count(line, word)
            name = fields[2].decode()
            if name in ("speeds", "trips", "points"):
                numbers, due = [numbers[0], []], numbers[1]
                length = due
            kinds.append((name, *numbers))
            continue
        if len(fields) != 3:
            raise Fault(line, 4)
        if word == b"t":
            arc, kind = ranged(line, fields[1:], [(1, arcs), (0, said.announced[b"k"])])
            said.count(line, word)
            classes[arc] = kind
        else:
            name, period, steps = kinds[-1]
            steps.append(tuple(ranged(line, fields[1:], [(0, 10**40)] * 2)))
            if not step_fits(name, period, length, steps):
                raise Fault(line, 6)
            due -= 1
    if said.problem is None or not due:
        said.end()
    else:
        raise Fault(0, 8)
    return kinds, classes

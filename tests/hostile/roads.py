"""Random roads, starts and times, and their texts in random dress."""
from reference import HORIZON, Road

# How times and weights are drawn: ties and zeros, tens, a day in seconds, and the ends of their ranges.
SCALES = {
    "ties": (lambda words: words.randint(0, 2), lambda words: words.randint(0, 6)),
    "zeros": (lambda words: 0 if words.random() < 0.8 else 1, lambda words: words.randint(0, 3)),
    "tens": (lambda words: words.randint(0, 30), lambda words: words.randint(0, 200)),
    "day": (lambda words: words.randint(0, 2000), lambda words: words.randint(0, 200_000)),
    "wide": (lambda words: words.choice([0, 1, 2**32 - 1, words.getrandbits(16), words.getrandbits(32)]), lambda words: words.getrandbits(48) >> words.randrange(48)),
    "horizon": (lambda words: words.randint(0, 40), lambda words: HORIZON - words.randint(0, 150)),
}
# The greatest period of each scale, and the greatest extra.
PERIODS = {"ties": (5, 3), "zeros": (4, 2), "tens": (60, 40), "day": (86_400, 3_000), "wide": (2**32, 2**32), "horizon": (60, 40)}


def count_of_nodes(words):
    at = words.random()
    if at < 0.55:
        return words.randint(1, 9)
    if at < 0.96:
        return words.randint(10, 40)
    return words.randint(41, 150) if at < 0.996 else words.randint(151, 1_500) if at < 0.9985 else words.randint(10_000, 14_000)


def grid(side):
    """The ends of the arcs of a grid of streets both ways."""
    last = side * side
    steps = [(node, node + 1) for node in range(1, last + 1) if node % side] + [(node, node + side) for node in range(1, last - side + 1)]
    return steps + [(head, tail) for tail, head in steps]


def shape(words, nodes):
    """The ends of the arcs of a network."""
    name = words.choice(["random", "random", "grid", "path", "ring", "star", "parallel", "parts", "tree", "whole", "layers", "none"])
    any_node = lambda: words.randint(1, nodes)
    if name == "random":
        return [(any_node(), any_node()) for _ in range(words.randint(0, 4 * nodes))]
    if name == "grid":
        return [ends for ends in grid(max(1, int(nodes**0.5))) if words.random() < 0.95]
    if name in ("path", "ring"):
        ends = [(node, node % nodes + 1) for node in range(1, nodes + (name == "ring"))]
        return ends + [(head, tail) for tail, head in ends if words.random() < words.choice([0, 1])]
    if name == "star":
        return [words.choice([(1, node), (node, 1)]) for node in range(1, nodes + 1) for _ in range(words.randint(1, 2))]
    if name == "parallel":
        ends = [(any_node(), any_node()) for _ in range(words.randint(1, 1 + nodes))]
        return [words.choice(ends) for _ in range(3 * len(ends))] + [(node, node) for node in range(1, nodes + 1) if words.random() < 0.3]
    if name == "parts":
        part = [words.randint(0, 2) for _ in range(nodes + 1)]
        return [ends for ends in ((any_node(), any_node()) for _ in range(5 * nodes)) if part[ends[0]] == part[ends[1]]]
    if name == "tree":
        ends = [(words.randint(max(1, node - 4), node - 1), node) for node in range(2, nodes + 1)]
        return ends + [(head, tail) for tail, head in ends] + [(any_node(), any_node()) for _ in range(words.randint(0, 3))]
    if name == "whole":
        near = min(nodes, 12)
        return [(tail, head) for tail in range(1, near + 1) for head in range(1, near + 1)]
    if name == "layers":
        width = words.randint(1, 4)
        return [(node, min(nodes, (node // width + 1) * width + words.randint(0, width - 1))) for node in range(1, nodes + 1) for _ in range(3)]
    return []


def steps_of_trips(words, period, extra):
    """Steps (T, X) in which no later one arrives before an earlier one, also from one period to the next."""
    span = min(period, HORIZON + 1) if period else words.choice([10, 500, 100_000, HORIZON + 1])
    times = sorted({words.randrange(span) for _ in range(words.choice([1, 2, 3, 6, 40]))})
    steps = []
    for time in times:
        least = max(0, sum(steps[-1]) - time) if steps else 0
        most = min(2**32, period + sum(steps[0]) - time) if steps and period else 2**32
        steps.append((time, words.randint(least, max(least, min(most, least + extra)))))
    return steps


def kind(words, scale):
    """A kind of travel times."""
    most, extra = PERIODS[scale]
    period = words.randint(1, most)
    begin = SCALES[scale][1](words)
    end = min(HORIZON, begin + words.randint(1, 2 * most))
    name = words.choice(["plain", "every", "closed", "rush", "speeds", "speeds", "trips", "trips", "points", "points"])
    if name == "every":
        return name, period, words.randrange(period)
    if name in ("closed", "rush"):
        begin = min(begin, end - 1)
        return (name, begin, end) if name == "closed" else (name, begin, end, words.randint(0, extra))
    if name == "speeds":
        times = sorted({0, *(words.randrange(period) for _ in range(words.choice([0, 1, 2, 5, 40])))})
        speed = lambda: words.choice([0, 0, 1, 250, 400, 999, 1000, 1000, 1001, 3000, 1_000_000, words.randint(0, 2000)])
        steps = [(time, speed()) for time in times]
        return name, period, steps if any(speed for _, speed in steps) else [*steps[:-1], (steps[-1][0], 700)]
    if name in ("trips", "points"):
        period = words.choice([0, period, period])
        return name, period, steps_of_trips(words, period, extra)
    return ("plain",)


def road(words, most=None):
    """A random road of at most this many nodes, and the name of its scale."""
    nodes = count_of_nodes(words)
    return with_ends(words, *((nodes, shape(words, nodes)) if most is None or nodes <= most else (most, shape(words, most))))


def large_road(words):
    """A road whose text is read in pieces by several threads, if there are several processors, and the name of its scale."""
    nodes = words.randint(1_000, 3_000)
    return with_ends(words, nodes, [(words.randint(1, nodes), words.randint(1, nodes)) for _ in range(words.randint(10_000, 20_000))])


def with_ends(words, nodes, ends):
    """A road with arcs between these ends, and the name of its scale."""
    scale = words.choice(list(SCALES))
    weight = SCALES[scale][0]
    arcs = [(tail, head, weight(words)) for tail, head in ends]
    if words.random() < 0.5:
        names = words.sample(range(1, nodes + 1), nodes)
        arcs = [(names[tail - 1], names[head - 1], it) for tail, head, it in arcs]
    words.choice([lambda: arcs.sort(), lambda: arcs.sort(key=lambda it: it[1]), lambda: words.shuffle(arcs), lambda: arcs.reverse(), lambda: None])()
    kinds = [kind(words, scale) for _ in range(words.choice([0, 0, 1, 3, 8]))]
    part = words.choice([0.2, 0.6, 1])
    return Road(nodes, arcs, kinds, [words.randint(0, len(kinds)) if words.random() < part else 0 for _ in arcs]), scale


def time(words, scale):
    """A departure, or a time to arrive by."""
    return words.choice([0, SCALES[scale][1](words), SCALES[scale][1](words), SCALES[scale][1](words), words.choice([HORIZON, words.randint(0, HORIZON)])])


def dressed(words, lines):
    """The text of lines: plainly, or with comments, blank lines, further blanks, zeros before numbers and carriage returns."""
    if words.random() < 0.6:
        return "".join(line + "\n" for line in lines).encode()
    found = []
    for line in lines:
        while words.random() < 0.15:
            found.append(words.choice(["", " \t", "c", "c a comment", " cc p sp 1 1", "\tcomment\t7", "c" + "x" * words.randint(1, 300)]))
        blank = lambda: words.choice([" ", " ", " ", "  ", "\t", " \t "])
        fields = ["0" * words.randint(1, 30) + field if field.isdigit() and words.random() < 0.05 else field for field in line.split()]
        found.append(words.choice(["", "", "", " ", "\t"]) + "".join(blank() + field for field in fields).lstrip() + words.choice(["", "", "", " ", "\t "]))
    end = words.choice(["\n", "\n", "\r\n"])
    text = end.join(found) + words.choice([end, end, "", end * 3])
    return text.encode()


def gr(words, road):
    return dressed(words, [f"p sp {road.nodes} {len(road.arcs)}", *(f"a {tail} {head} {weight}" for tail, head, weight in road.arcs)])


def lines_of_kind(number, kind):
    name, *rest = kind
    if name in ("speeds", "trips", "points"):
        return [f"k {number} {name} {rest[0]} {len(rest[1])}", *(f"v {time} {value}" for time, value in rest[1])]
    return [" ".join(map(str, ["k", number, name, *rest]))]


def tp(words, road, assigns=True):
    """The text of a road's timetables. Lines of arcs are anywhere among the kinds, and some are said twice, first otherwise."""
    kinds = road.kinds[1:]
    said = []
    for arc in words.sample(range(1, len(road.arcs) + 1), len(road.arcs)) if assigns else ():
        if words.random() < 0.05:
            said.append(f"t {arc} {words.randint(0, len(kinds))}")
            said.append(f"t {arc} {road.classes[arc - 1]}")
        elif road.classes[arc - 1]:
            said.append(f"t {arc} {road.classes[arc - 1]}")
    blocks = [lines_of_kind(number, kind) for number, kind in enumerate(kinds, 1)]
    cuts = sorted(words.randint(0, len(said)) for _ in blocks) if words.random() < 0.5 else [0] * len(blocks)
    lines = [f"p tp {len(kinds)} {len(said)}"]
    for block, begin, end in zip(blocks, [0, *cuts], cuts):
        lines += said[begin:end] + block
    return dressed(words, lines + said[cuts[-1] if cuts else 0 :])


def listed(words, kind, word, rows):
    return dressed(words, [f"p aux sp {kind} {len(rows)}", *(" ".join(map(str, [word, *row])) for row in rows)])


def files(words, road, scale):
    """Texts of a road, of sources, pairs, chosen nodes and times: net.gr and so on. There are as many times as sources, and as pairs."""
    node = lambda: words.randint(1, road.nodes)
    count = words.choice([0, 1, 1, 1, 2, 3, 4, 6]) if words.random() < 0.98 or road.nodes > 100 else words.randint(20, 70)
    texts = {
        "net.gr": gr(words, road),
        "net.ss": listed(words, "ss", "s", [(node(),) for _ in range(count)]),
        "net.p2p": listed(words, "p2p", "q", [(node(), node()) for _ in range(count)]),
        "net.times": listed(words, "at", "t", [(time(words, scale),) for _ in range(count)]),
        "net.nodes": listed(words, "ss", "s", [(node(),) for _ in range(words.choice([0, 1, 3, 5, 16, 17, 40]))]),
    }
    if len(road.kinds) > 1 or words.random() < 0.1:
        texts["net.tp"] = tp(words, road)
    return texts


def times_of(words, scale, command):
    """Options that say when, and the file of times that one of them names."""
    turned = command != "rank" and words.random() < 0.35
    if command != "rank" and words.random() < 0.25:
        return ["--arrives" if turned else "--departs", "net.times"]
    found = []
    if turned or words.random() < 0.8:
        found += ["--arrive" if turned else "--depart", str(time(words, scale))]
    if words.random() < 0.4:
        found += ["--gap", str(words.choice([0, 1, 7, 1000, words.randint(0, 100)]))]
    return found


def telling(words, command):
    """Options that change nothing in a report but the totals."""
    found = []
    for name, values in {
        "workers": [1, 2, 3, 4, 8, 16], "heaps": [2, 3, 8], "seed": [0, 1, words.getrandbits(64)], "at-once": [1, 2, 4, 16], "batch": [1, 2, 7, 64],
        "turns": [0, 1, 3, 50, 10**9],
    }.items():
        if words.random() < 0.25 and not (command == "rank" and name in ("at-once", "batch", "turns")):
            found += [f"--{name}", str(words.choice(values))]
    if command != "rank" and words.random() < 0.35:
        found.append("--stats")
    if words.random() < 0.04:
        found.append(words.choice(["--progress", "--explain"]))
    return found


def question(words, files, scale, command):
    """The options that a question has beside its files: travel times, times, and whether the sources are one problem."""
    options = times_of(words, scale, command)
    if "net.tp" in files and words.random() < 0.9:
        options += ["--tp", "net.tp"]
    if command in ("run", "check") and words.random() < 0.25:
        options.append("--joint")
    return options


def asking(words, command, question):
    """Words for a command on the files of `files`, with random options that the question leaves open."""
    options = list(question)
    if command != "check":
        options += telling(words, command)
    if command in ("run", "pairs") and words.random() < 0.5:
        options.append("--walks")
    if command == "run" and words.random() < 0.15:
        options[0:0] = ["--nodes", "net.nodes"]
    if command == "pairs" and words.random() < 0.7:
        options += ["--prepare", words.choice(["yes", "yes", "no"])]
    if command != "check" and words.random() < 0.03:
        options += ["-o", words.choice(["out", "net.ss"])]
    names = ["net.gr", "net.p2p" if command == "pairs" else "net.ss", *["net.report"] * (command == "check")]
    cut = words.choice([0, 1, len(names)])
    return [command, *names[:cut], *options, *names[cut:]]


def piped(words, files, asked):
    """Now and then one of the files as standard input: the words, and what is given."""
    names = [name for name in asked if name in files]
    if words.random() < 0.95 or len(set(names)) < len(names) or "-o" in asked:
        return asked, b""
    name = words.choice(names)
    return ["-" if word == name else word for word in asked], files[name]

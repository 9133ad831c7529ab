"""Reports of `run`, changed in a field, a byte, a line or a walk. It is a failure if `check` doesn't accept a report as it was written, if it accepts one
that isn't right, refuses one that is, or names another fault or line than the rules of docs/guide/commands.md do."""
import roads
from files import of_bytes, of_fields, of_lines, of_numbers, of_whole
from reading import number_of
from reference import HORIZON, Road, report_of_run

WHAT = "changed reports"
ASKED = 60


def case(trial, words):
    road, scale = roads.road(words, 40) if words.random() < 0.995 else roads.large_road(words)
    files = roads.files(words, road, scale)
    question = roads.question(words, files, scale, "run")
    trial.put(files)
    wrong = trial.judge(["run", "net.gr", "net.ss", *question, *["--walks"] * (words.random() < 0.7)])
    status, report, _ = trial.was
    if wrong or status:
        yield wrong
        return
    asked = ["check", "net.gr", "net.ss", "net.report", *question]
    trial.put({**files, "net.report": report})
    wrong = trial.judge(asked)
    yield wrong or (None if trial.was == (0, b"ok\n", b"") else f"a right report isn't accepted: {trial.was}")
    problems, turned = trial.model.problems(question)
    for _ in range(2 if not report else ASKED if road.nodes <= 40 else 10):
        trial.put({**files, "net.report": changed(words, road, problems, turned, report)})
        yield trial.judge(asked if words.random() < 0.97 else [*asked, words.choice(["--explain", "--progress"])])


def changed(words, road, problems, turned, report):
    """A report that was changed once or twice, so that it is wrong somewhere, or right and written otherwise."""
    for _ in range(words.choice([1, 1, 1, 1, 2])):
        how = words.choice([of_times] * 4 + [of_walks] * 5 + [of_other_road] * 3 + [of_numbers, of_fields, of_bytes, of_lines, of_whole, of_dress])
        if how is of_other_road:
            report = of_other_road(words, road, problems, turned)
        elif how is of_walks:
            report = of_walks(words, road, report, problems, turned)
        else:
            report = how(words, report)
    return report


def of_times(words, report):
    """The time of a `d` line becomes another one: a near one, that of another node, none, or some; its walk stays or goes."""
    lines = report.split(b"\n")
    places = [at for at, line in enumerate(lines) if line.startswith(b"d ")]
    if not places:
        return report
    times = [lines[at].split()[-1] for at in places]
    chosen = words.sample(places, min(len(places), words.choice([1, 1, 1, 2, 5])))
    step = words.choice([-1, 1, 1, 7])
    for at in sorted(chosen, reverse=True):
        fields = lines[at].split()
        near = b"%d" % max(0, (number_of(fields[-1]) or 0) + step)
        fields[-1] = words.choice([near, near, words.choice(times), words.choice([b"inf", b"none"]), b"%d" % words.randint(0, 100)])
        lines[at] = b" ".join(fields)
        if words.random() < 0.5 and lines[at + 1 : at + 2] and lines[at + 1].startswith(b"w"):
            del lines[at + 1]
    return b"\n".join(lines)


def of_walks(words, road, report, problems, turned):
    """A `w` line becomes another walk to its node: other arcs by which one arrives in time, random arcs that join, one arc replaced by a parallel
    one, one arc more or less, or two swapped. Or a line is put in behind a `d` line."""
    lines = report.split(b"\n")
    places = [at for at, line in enumerate(lines) if line.startswith(b"d ")]
    if not places or not road.arcs:
        return report
    place = words.randrange(len(places))
    at, node = places[place], place % road.nodes + 1
    has_walk = at + 1 < len(lines) and lines[at + 1].startswith(b"w")
    fields = lines[at + 1].split()[3:] if has_walk else []
    walk = [int(field) for field in fields if field.isdigit() and len(field) < 9]
    how = words.randrange(9)
    if how < 4 and place // road.nodes < len(problems):
        walk = tight_walk(words, road, problems[place // road.nodes], node, turned) or walk
    elif how < 5 or not walk:
        walk = random_walk(words, road, node)
    elif how == 5:
        cut = words.randrange(len(walk))
        ends = road.arcs[walk[cut] - 1][:2] if 1 <= walk[cut] <= len(road.arcs) else None
        walk[cut] = words.choice([number for number, arc in enumerate(road.arcs, 1) if arc[:2] == ends] or [1])
    elif how == 6:
        walk.insert(words.randint(0, len(walk)), words.randint(0, len(road.arcs) + 1))
    elif how == 7:
        del walk[words.randrange(len(walk))]
    else:
        walk[words.randrange(len(walk))] += words.choice([1, 2**32, 2**64])
    count = len(walk) if words.random() < 0.95 else words.randint(0, 5)
    lines[at + 1 : at + 1 + has_walk] = [" ".join(map(str, ["w", node, count, *walk])).encode()]
    return b"\n".join(lines)


def tight_walk(words, road, starts, node, turned):
    """A random walk to a node over tight arcs; None if none is found soon."""
    times, walk = road.search(starts, turned), []
    for _ in range(3 * road.nodes):
        if (node, times[node]) in starts and words.random() < 0.7:
            return walk if turned else walk[::-1]
        near = [(number, road.arcs[number - 1][1 if turned else 0]) for number in (road.leaving if turned else road.entering).get(node, ())]
        near = [(number, other) for number, other in near if times[other] is not None and road.over(number, times[other], turned) == times[node]]
        if not near:
            return None
        number, node = words.choice(near)
        walk.append(number)
    return None


def random_walk(words, road, node):
    """Some arcs that join, mostly with the last one to this node, or with the first one from it."""
    turned = words.random() < 0.4
    walk, at = [], node
    for _ in range(words.randint(0, 5)):
        numbers = (road.leaving if turned else road.entering).get(at)
        if not numbers:
            break
        walk.append(words.choice(numbers))
        at = road.arcs[walk[-1] - 1][1 if turned else 0]
    return walk if turned else walk[::-1]


def of_dress(words, report):
    """The same lines with comments, blanks and zeros."""
    if words.random() < 0.3 or not report.isascii() or b"\r" in report:
        return report.replace(b" ", b" 0", words.randint(1, 3))
    return roads.dressed(words, report.decode().split("\n"))


def of_other_road(words, road, problems, turned):
    """The right report of a road without some arcs, of one in which an arc is another one, or of another time."""
    arcs, classes, loops = list(road.arcs), list(road.classes), words.random() < 0.6
    for _ in range(words.choice([1, 1, 2, 5]) if arcs else 0):
        at = words.randrange(len(arcs))
        tail, head, weight = arcs[at]
        others = [(tail, head, max(0, weight + words.choice([-1, 1, 5]))), (head, tail, weight), (tail, words.randint(1, road.nodes), weight)]
        arcs[at] = (tail, tail, weight) if loops else words.choice(others)
        classes[at] = classes[at] if loops else words.choice([classes[at], classes[at], 0])
    if words.random() < 0.1:
        problems = [[(node, min(HORIZON, time + words.choice([0, 1]))) for node, time in starts] for starts in problems]
    return report_of_run(Road(road.nodes, arcs, road.kinds[1:], classes), problems, turned, words.random() < 0.7)

"""Latest departures on random small networks: beside a search at each departure of a window, and reports, of
arrivals too, that are changed in every field and line, beside the verdicts of a plain checker."""
import os
import random
import tempfile

import judging
import travel_times


def arrivals(arcs, kinds, start, departure):
    """The earliest arrivals from a node, by labels that are corrected until none falls."""
    found, waiting = {start: departure}, [start]
    while waiting:
        node = waiting.pop()
        for tail, head, weight, kind in arcs:
            if tail == node:
                arrival = travel_times.arrive(kinds[kind - 1] if kind else None, weight, found[node])
                if arrival is not None and arrival < found.get(head, arrival + 1):
                    found[head] = arrival
                    waiting.append(head)
    return found


def latest(nodes, arcs, kinds, targets):
    """For each node the latest departure by which it is in time at one of the targets, each with its time."""
    wanted = max(time for _, time in targets)
    for node in range(1, nodes + 1):
        in_time = (at for at in range(wanted, -1, -1) if any(arrivals(arcs, kinds, node, at).get(target, time + 1) <= time for target, time in targets))
        yield node, next(in_time, None)


def report(nodes, arcs, kinds, problems):
    """The report of problems, each of which is a list of targets with their times."""
    lines = []
    for targets in problems:
        lines += [f"t {target} {time}" for target, time in targets]
        lines += [f"d {node} {'none' if at is None else at}" for node, at in latest(nodes, arcs, kinds, targets)]
    return "".join(line + "\n" for line in lines)


def driven(arcs, kinds, lines, targets):
    """Whether each walk of a report's only problem leads from its node to a target in time."""
    left, ends = {}, {}
    for fields in (line.split() for line in lines):
        if fields[0] == "d":
            left[int(fields[1])] = fields[2]
        elif fields[0] == "w":
            node, at = int(fields[1]), int(left[int(fields[1])])
            for number in map(int, fields[3:]):
                tail, head, weight, kind = arcs[number - 1]
                arrival = travel_times.arrive(kinds[kind - 1] if kind else None, weight, at)
                if tail != node or arrival is None:
                    return False
                node, at = head, arrival
            ends[int(fields[1])] = any(node == target and at <= time for target, time in targets)
    return all(ends.get(node, at == "none") for node, at in left.items())


def at_random(files, count=30):
    """Random networks with timetables, and targets with their times."""
    words = random.Random(20261128)
    done = 0
    while done < count:
        nodes, size = words.randint(1, 5), words.randint(0, 8)
        ends = [(words.randint(1, nodes), words.randint(1, nodes), words.randint(0, 9)) for _ in range(size)]
        text = travel_times.some_text(words, max(size, 1))
        table, _ = travel_times.read(text, size)
        if table is None:
            continue
        done += 1
        class_of = dict(table.entries)
        arcs = [(tail, head, weight, class_of.get(number, 0)) for number, (tail, head, weight) in enumerate(ends, 1)]
        targets = [(words.randint(1, nodes), words.randint(0, 60)) for _ in range(words.randint(1, 2))]
        joint = words.random() < 0.5
        texts = {
            "gr": f"p sp {nodes} {size}\n" + "".join(f"a {tail} {head} {weight}\n" for tail, head, weight in ends),
            "tp": text,
            "ss": f"p aux sp ss {len(targets)}\n" + "".join(f"s {target}\n" for target, _ in targets),
            "times": f"p aux sp at {len(targets)}\n" + "".join(f"t {time}\n" for _, time in targets),
        }
        options = "--tp tp --arrives times" + (" --joint" if joint else "")
        wanted = report(nodes, arcs, table.kinds, [targets] if joint else [[target] for target in targets])
        name = f"random latest departures {done}: {texts}"
        yield name, files.run(f"run gr ss {options}", **texts), (0, wanted, "")
        yield f"check of {name}", files.run(f"check gr ss report {options}", report=wanted, **texts), (0, "ok\n", "")
        status, walks, _ = files.run(f"run gr ss {options} --walks", **texts)
        lines = walks.splitlines()
        if joint or len(targets) == 1:
            yield f"walks of {name}", (status, driven(arcs, table.kinds, lines, targets)), (0, True)
        yield f"check of walks of {name}", files.run(f"check gr ss report {options}", report=walks, **texts), (0, "ok\n", "")
        if done <= 3 or 4 <= size and done <= 12:
            problems = [targets] if joint else [[target] for target in targets]
            for turned, report_of in ((True, walks), (False, files.run(f"run gr ss {options.replace('arrives', 'departs')} --walks", **texts)[1])):
                question = judging.Question(nodes, arcs, table.kinds, turned)
                asks = options if turned else options.replace("arrives", "departs")
                right = report_of.splitlines()
                others = [*judging.with_other_walks(question, right), *judging.with_other_times(right, ["none" if turned else "inf", *range(0, 61, 4)])]
                for other in others + (list(judging.changed(right)) if done <= 3 else []):
                    was = files.run(f"check gr ss report {asks}", report="".join(line + "\n" for line in other))
                    yield f"changed report {other} of {name}", was, judging.verdict(question, problems, other)


def results(program):
    """All of these: name, result, expected result."""
    with tempfile.TemporaryDirectory() as folder:
        return list(at_random(travel_times.Files(os.path.abspath(program), folder)))

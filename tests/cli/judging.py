"""A plain checker of reports, by the rules of the guide: for tests that change reports and compare verdicts.

Forward reports name arrivals, turned ones latest departures. What differs is which end of an arc has the known
time, how a time goes over an arc, and which of two times is better.
"""
import re

import travel_times

HORIZON = travel_times.HORIZON


class Question:
    """A network with its travel times, asked forward or turned round."""

    def __init__(self, nodes, arcs, kinds, turned):
        self.nodes, self.arcs, self.turned = nodes, arcs, turned
        self.kinds, self.known = kinds, {}

    def over(self, number, time):
        """The time at the other end of an arc: the arrival if it is left at this time; turned, the latest
        departure that arrives by it. None if there is none."""
        if (number, time) not in self.known:
            _, _, weight, kind = self.arcs[number - 1]
            arrive = lambda at: travel_times.arrive(self.kinds[kind - 1] if kind else None, weight, at)
            if self.turned:
                in_time = (at for at in range(time, -1, -1) if (arrive(at) if arrive(at) is not None else HORIZON + 1) <= time)
                found = next(in_time, None)
            else:
                found = arrive(time)
                found = None if found is None or found > HORIZON else found
            self.known[number, time] = found
        return self.known[number, time]

    def near(self, number):
        """The end at which the time is known first: the tail, or turned the head."""
        return self.arcs[number - 1][1 if self.turned else 0]

    def far(self, number):
        return self.arcs[number - 1][0 if self.turned else 1]

    def is_better(self, time, other):
        return other is None or (time > other if self.turned else time < other)

    def way(self, walk):
        """A walk's arcs from its known end on."""
        return walk[::-1] if self.turned else walk


def number_of(field):
    return int(field) if re.fullmatch(r"[0-9]+", field) else None


def read(question, problems, lines):
    """The problems of a report, each as its times by nodes and its lines in order; or the line of the first
    fault of its form, 0 if it ends too early."""
    at, found = 0, []
    begins, never = ("t", "none") if question.turned else ("s", "inf")

    def fields():
        return lines[at].split() if at < len(lines) else None

    for starts in problems:
        times, rows = {}, []
        for node, time in starts:
            line = fields()
            if line is None:
                return 0
            if len(line) != 3 or line[0] != begins or [number_of(it) for it in line[1:]] != [node, time]:
                return at + 1
            at += 1
        for node in range(1, question.nodes + 1):
            line = fields()
            if line is None:
                return 0
            if len(line) != 3 or line[0] != "d" or number_of(line[1]) != node:
                return at + 1
            time = None if line[2] == never else number_of(line[2])
            if line[2] != never and (time is None or time > HORIZON):
                return at + 1
            times[node] = time
            at += 1
            rows.append((at, "d", node, None))
            line = fields()
            if line is not None and line[0] == "w":
                walk = [number_of(it) for it in line[1:]]
                if None in walk or len(walk) < 2 or walk[0] != node or walk[1] != len(walk) - 2 or time is None:
                    return at + 1
                at += 1
                rows.append((at, "w", node, walk[2:]))
        found.append((times, rows))
    return at + 1 if at < len(lines) else found


def levels_of(question, starts, times):
    """The level of each node that a chain of reported tight arcs leads to."""
    levels = {node: 0 for node, time in starts if times[node] == time}
    level, grown = 0, True
    while grown:
        grown = False
        for number in range(1, len(question.arcs) + 1):
            near, far = question.near(number), question.far(number)
            if levels.get(near) == level and far not in levels and question.over(number, times[near]) == times[far] is not None:
                levels[far] = level + 1
                grown = True
        level += 1
    return levels


def is_attained(question, starts, times, node, walk):
    """Whether a walk leads from a start, at a time of that start, to its node at the reported time."""
    if not all(1 <= number <= len(question.arcs) for number in walk):
        return False
    way = question.way(walk)
    place, end = (question.near(way[0]) if way else node), node
    for time in (time for start, time in starts if start == place):
        at, now = place, time
        for number in way:
            if now is None or question.near(number) != at:
                break
            at, now = question.far(number), question.over(number, now)
        else:
            if at == end and now == times[node]:
                return True
    return False


def canonical(question, times, levels, node):
    """The walk whose last arc from the known end is the lowest tight one from a level below, and so on."""
    way = []
    while levels[node]:
        number = next(it for it in range(1, len(question.arcs) + 1)
                      if question.far(it) == node and levels.get(question.near(it)) == levels[node] - 1 and question.over(it, times[question.near(it)]) == times[node])
        way.insert(0, number)
        node = question.near(number)
    return question.way(way)


def judged(question, starts, times, rows):
    """The first fault of a problem: its name and line, or None."""
    levels = levels_of(question, starts, times)
    for line, word, node, walk in rows:
        if word == "d" and times[node] is not None and node not in levels:
            return "2 NotAttained", line
        if word == "w" and not is_attained(question, starts, times, node, walk):
            return "2 NotAttained", line
    for line, word, node, walk in rows:
        if word == "w" and walk != canonical(question, times, levels, node):
            return "5 NotCanonical", line
    for line, word, node, _ in rows:
        if word == "d":
            offers = [time for start, time in starts if start == node]
            offers += [question.over(it, times[question.near(it)]) for it in range(1, len(question.arcs) + 1) if question.far(it) == node and times[question.near(it)] is not None]
            if any(time is not None and question.is_better(time, times[node]) for time in offers):
                return "3 NotLeast", line
    return None


def verdict(question, problems, lines):
    """What `check` prints for a report, and its status."""
    found = read(question, problems, lines)
    if isinstance(found, int):
        return 5, "", f"earliest: check 1 BadLine line {found}\n"
    for starts, (times, rows) in zip(problems, found):
        fault = judged(question, starts, times, rows)
        if fault:
            return 5, "", f"earliest: check {fault[0]} line {fault[1]}\n"
    return 0, "ok\n", ""


def changed(lines):
    """Reports that differ from this one in one place: each field of each line as another number or word, each line
    left out, twice, or in the place of the next one."""
    for place, line in enumerate(lines):
        fields = line.split()
        for at, field in enumerate(fields):
            others = [str(int(field) + 1), str(max(int(field) - 1, 0)), "0" + field, "x", "inf", "none", str(2**48)] if field.isdigit() else ["0", "inf", "none", "d", "w"]
            for other in others:
                yield lines[:place] + [" ".join([*fields[:at], other, *fields[at + 1 :]])] + lines[place + 1 :]
        yield lines[:place] + [" ".join(fields[:-1])] + lines[place + 1 :]
        yield lines[:place] + [line + " 1"] + lines[place + 1 :]
        yield lines[:place] + lines[place + 1 :]
        yield lines[:place] + [line] + lines[place:]
        yield lines[:place] + lines[place + 1 : place + 2] + [line] + lines[place + 2 :]


def with_other_walks(question, lines, most=3):
    """Reports in which one walk is another sequence of at most `most` arcs that join."""
    arcs = question.arcs
    longer = [[number] for number in range(1, len(arcs) + 1)]
    walks = [[]]
    for _ in range(most):
        walks += longer
        longer = [walk + [number] for walk in longer for number in range(1, len(arcs) + 1) if arcs[walk[-1] - 1][1] == arcs[number - 1][0]]
    for place, line in enumerate(lines):
        fields = line.split()
        if fields[0] == "w":
            for walk in walks:
                ends = (arcs[walk[0] - 1][0], arcs[walk[-1] - 1][1]) if walk else ()
                if not walk or int(fields[1]) == ends[0 if question.turned else 1]:
                    yield lines[:place] + [" ".join(map(str, ["w", fields[1], len(walk), *walk]))] + lines[place + 1 :]


def with_other_times(lines, times):
    """Reports without walks in which one node has each of these times, or none."""
    plain = [line for line in lines if not line.startswith("w")]
    for place, line in enumerate(plain):
        fields = line.split()
        if fields[0] == "d":
            for time in times:
                yield plain[:place] + [f"d {fields[1]} {time}"] + plain[place + 1 :]

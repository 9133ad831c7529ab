#!/usr/bin/env python3
"""A plain slow checker, written apart from the crate, and the table of its verdicts on changed reports.

    slow_check.py table    writes the verdict on each change of one byte of a small report, as the crate's tests hold it
"""
import sys

HORIZON = 2**48 - 1


def lines_of(report):
    """The lines that are neither blank nor comments: number and fields."""
    lines = report.split(b"\n")
    if lines and lines[-1] == b"":
        lines.pop()
    spoken = []
    for number, line in enumerate(lines, 1):
        if line.endswith(b"\r"):
            line = line[:-1]
        fields = [field for field in line.replace(b"\t", b" ").split(b" ") if field]
        if fields and not fields[0].startswith(b"c"):
            spoken.append((number, fields))
    return spoken


def number(field):
    return int(field) if field and all(48 <= b <= 57 for b in field) else None


class Bad(Exception):
    pass


def read(report, nodes, problems):
    """What each problem's lines say of each node: line, time and walk; or the bad line."""
    lines = lines_of(report)
    at = 0

    def take():
        nonlocal at
        if at == len(lines):
            raise Bad(0)
        at += 1
        return lines[at - 1]

    read_problems = []
    for sources in problems:
        for node, departure in sources:
            line, fields = take()
            if len(fields) != 3 or fields[0] != b"s" or number(fields[1]) != node or number(fields[2]) != departure:
                raise Bad(line)
        said = {}
        for node in range(1, nodes + 1):
            line, fields = take()
            if len(fields) != 3 or fields[0] != b"d" or number(fields[1]) != node:
                raise Bad(line)
            if fields[2] == b"inf":
                said[node] = (line, None, None)
                continue
            time = number(fields[2])
            if time is None or time > HORIZON:
                raise Bad(line)
            walk = None
            if at < len(lines) and lines[at][1][0] == b"w":
                walk_line, fields = take()
                numbers = [number(field) for field in fields[1:]]
                if None in numbers or len(numbers) < 2 or numbers[0] != node or numbers[1] != len(numbers) - 2:
                    raise Bad(walk_line)
                walk = (walk_line, numbers[2:])
            said[node] = (line, time, walk)
        read_problems.append(said)
    if at < len(lines):
        raise Bad(lines[at][0])
    return read_problems


def attained(arcs, start, departure, walk):
    node, time = start, departure
    for e in walk:
        if not 1 <= e <= len(arcs) or arcs[e - 1][0] != node:
            return None
        tail, node, weight = arcs[e - 1]
        time += weight
        if time > HORIZON:
            return None
    return node, time


def judge(arcs, sources, said):
    times = {node: time for node, (line, time, walk) in said.items()}
    tight = [e for e, (u, v, w) in enumerate(arcs, 1) if times[u] is not None and times[u] + w == times[v]]
    level = {node: 0 for node, departure in sources if times[node] == departure}
    for depth in range(1, len(said) + 1):
        for e in tight:
            u, v, w = arcs[e - 1]
            if level.get(u) == depth - 1 and v not in level:
                level[v] = depth
    for node, (line, time, walk) in said.items():
        if time is not None and node not in level:
            return "a", line
        if walk and not any(attained(arcs, s, d, walk[1]) == (node, time) for s, d in sources):
            return "a", walk[0]
    for node, (line, time, walk) in said.items():
        if walk:
            canonical, v = [], node
            while level[v] > 0:
                e = min(e for e in tight if arcs[e - 1][1] == v and level.get(arcs[e - 1][0]) == level[v] - 1)
                canonical.insert(0, e)
                v = arcs[e - 1][0]
            if walk[1] != canonical:
                return "c", walk[0]
    for node, (line, time, walk) in said.items():
        above = HORIZON + 1 if time is None else time
        if any(s == node and d < above for s, d in sources):
            return "l", line
        if any(v == node and times[u] is not None and times[u] + w < above for u, v, w in arcs):
            return "l", line
    return "k", 0


def check(nodes, arcs, problems, report):
    try:
        read_problems = read(report, nodes, problems)
    except Bad as bad:
        return "b", bad.args[0]
    for sources, said in zip(problems, read_problems):
        letter, line = judge(arcs, sources, said)
        if letter != "k":
            return letter, line
    return "k", 0


ARCS = [(1, 2, 7), (1, 3, 2), (3, 2, 3), (2, 4, 1), (3, 4, 9)]
SMALL = b"s 1 0\nd 1 0\nd 2 5\nw 2 2 2 3\nd 3 2\nd 4 6\n"
BYTES = b"0123456789 sdwcinf\t\r\n-"

if __name__ == "__main__":
    assert check(4, ARCS, [[(1, 0)]], SMALL) == ("k", 0)
    for place in range(len(SMALL)):
        row = ""
        for byte in BYTES:
            letter, line = check(4, ARCS, [[(1, 0)]], SMALL[:place] + bytes([byte]) + SMALL[place + 1 :])
            row += f"{letter}{line}"
        sys.stdout.write(f'    b"{row}",\n')

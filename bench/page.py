"""Writes docs/performance.md and its pictures from bench/results/*.csv: python3 bench/page.py"""
import os
import sys

sys.dont_write_bytecode = True
import plots
import prepared_turns
from measure import rows_of, spread
from programs import BASE, ROOT, SEVERAL

PICTURES = os.path.join(ROOT, "docs", "pictures")
KINDS = {"plain": "plain weights", "timetables": "timetables", "patterns": "traffic patterns"}
OURS = "earliest"

HEAD = """# How fast is it?

This page and its pictures are written by `make bench` (`bench/page.py`) from `bench/results/*.csv`, which have each round of each
program. `make bench SIZE=large` adds networks of 10^7 nodes. The columns of the tables stand in
[bench/README.md](../bench/README.md#columns).

All programs of a table run in turns, one after the other, as often as its heading tells; in each round another one begins. A whole run
reads the same files, solves the same problems and writes the same report into a file, and each report is compared byte for byte with the
first one's; of a run without reading and writing the sums of the arrivals are compared. A difference ends the bench with an error. The
ratio is that of the middle times, beside the base: Dijkstra's method with a binary heap, by hand in Rust, one thread (`bench/hand`).
Where there are several processors a network is read by up to eight threads of `earliest`, whatever `--workers` says; the others read by
one thread.

The networks are road-like grids with 2.5 arcs a node (`bench/generate.rs`). With timetables a third of the arcs have one of 16 kinds; with
traffic patterns a third have one of 200 classes of 96 speeds. Searches begin at node 1, or at random nodes where there are many, and
depart at 2,520,000, which is seven in the morning where a unit is a hundredth of a second; pairs depart at 0.
"""

WHOLE = """## One problem, from files to a report

Reading, the index, one search and writing. igraph and scipy read and write by NumPy and Python. LEMON, Boost, igraph and scipy know
plain weights only.
"""

SOLVING = """## One search, without reading and writing

Ours are the proved engine's calls, timed by a proved program (`bench/several/program`); the others tell their times themselves. By one
thread it is the search of one thread, by several two heaps a worker and batches of 32.
"""

PATTERNS = """## Traffic patterns beside plain weights

The same network and source; middle times of the search alone, taken in the same rounds, and their ratio.
"""

MANY = """## 64 problems, several at once

64 sources, with timetables: `earliest run --at-once N --workers 1` beside N threads of programs by hand that take the next source each and
write the reports in their order. Ratios are to the base with one thread.
"""

PAIRS = """## Pairs

Pairs whose search reaches about 1,000 nodes each, by hand with a stamp beside each label; whole runs, and solving alone.
"""

PREPARED = """## Pairs over a prepared road

300 pairs each, departing at 0 on plain weights: by Dijkstra rank, the target being the 2^r-th node that a search settles, and far ones at
random. Ours is timed by a proved program (`bench/prepared/program`), on the road prepared and as it is; beside it is a program in plain C++ with
the same order and bounds (`bench/prepared/hand.cpp`), which are asked for from the first node on and have no end. Both number the network by
their order. A binary heap by hand stops at the target, and searches in the numbers of the file. The far pairs are searched at seven in the
morning with traffic patterns, too, by the Python package. 10,000 far pairs are whole runs of `pairs`, less the run of one. Microseconds a pair,
the least, middle and greatest of the rounds; preparations in milliseconds. That for other weights of the same arcs keeps the upward arcs
(`prepare(like=road)` from Python); memory is what `pairs` takes more with a preparation, at its peak and while it searches, arrays of searches included.
"""

ASKED = """## Asked nodes

100 nodes from each of 1,000 sources, all of them among the 5,000 nodes nearest to one (`run --nodes`); by hand a heap with stamps, whose
searches end when all asked nodes are settled. Whole runs.
"""

DIRECTIONS = """## Latest departures, and travel times by functions

16 sources by one thread: arrivals after 2,520,000, and latest departures that are in time then (`--arrive`), for which the network is
turned round. Reading is that of a run without sources; a search is a sixteenth of what the other run takes longer, with writing its
report. With points a third of the arcs have one of 200 functions through 96 points each.
"""

SCATTERED = """## Scattered numbers

The same network and sources, numbered as they were made and at random; plain weights, whole runs. The base is the network as it was made.
"""

CHECKS = """## Checking and rank errors

`check` of a report of one problem beside searching again and comparing by hand, which trusts that search; `rank` records a run over eight
heaps and tells the rank error of each pop. The base is the one by hand. `check` takes as many threads as there are processors, or one processor
(by `taskset`). A report of 64 problems is checked beside the run that writes it. Reading a report with walks takes most of the time of its check.
"""

EMBEDDED = """## From Python

The package over the library for C (`bench/python_search.py`), with NumPy where it is there: searches and their arrays of arrivals,
without reading. Middle of the rounds.
"""

SAID = {
    "matrix": """## A matrix from Python

64 sources on a grid of 10^6 nodes by four threads into NumPy's memory (`bench/matrix.py`), beside the program's own run into the null
device; seconds, the middle of fifteen rounds.
""",
    "asked_matrix": """## A matrix of asked nodes from Python

1,000 sources and 1,000 nodes among the 5,000 nearest to one, on the road-like network of 10^6 nodes (`bench/asked_matrix.py`): searches that
end when all asked nodes are settled, beside the same in plain Rust; least, middle and greatest of three rounds.
""",
    "serve": """## Over HTTP

`python -m earliest serve` on a grid of 10^5 nodes with a morning rush (`bench/serve.py`), asked by wrk for random pairs; the page in
chromium, whose departure is dragged; and requests with faults among them, each reply compared with the program's report.
""",
}

TRAPS = """## Hard shapes

Networks on which workers have little to do at once, leave their work to one thread, or aren't started at all, as on 1,000
nodes (`bench/traps.py`), with many settings: the worst of
them beside one worker, by the middle of the rounds, of whole runs.
"""


def groups(rows, field, ours_alone=False):
    """The spread of a field by (input, nodes, problems) and (program, threads), in the order of the rows."""
    found = {}
    for row in rows:
        if row[field] != "":
            at = row["input"], int(row["nodes"]), int(row["problems"])
            found.setdefault(at, {}).setdefault((row["program"], int(row["threads"])), []).append(row[field])
    return {at: {who: spread(values) for who, values in these.items()} for at, these in found.items()}


def shown(found):
    """Those of at least 10^5 nodes, or all if there are none: smaller ones are only in the pictures."""
    large = {at: these for at, these in found.items() if at[1] >= 100_000}
    return (large or found).items()


def is_ours(program):
    return program.startswith(OURS)


def seconds(value):
    return f"{value:.4f}" if value < 0.1 else f"{value:.3f}" if value < 10 else f"{value:.1f}"


def table(title, these, base, memory=None):
    """A table of programs: least, median, greatest seconds, the ratio of the median times, and what is
    faster than ours."""
    columns = ["program", "threads", "least s", "middle s", "greatest s", "beside the base"] + (["memory MB"] if memory else [])
    out = [f"**{title}**", "", "| " + " | ".join(columns) + " |", "|" + "---|" * len(columns)]
    for (program, threads), found in sorted(these.items(), key=lambda it: it[1].middle):
        name = f"**{program}**" if is_ours(program) else program
        ratio = f"{found.middle / base.middle:.2f}" if base else ""
        cells = [name, str(threads), seconds(found.least), seconds(found.middle), seconds(found.greatest), ratio]
        if memory:
            peak = memory.get((program, threads))
            cells.append(f"{peak.middle / 1024:.0f}" if peak else "")
        out.append("| " + " | ".join(cells) + " |")
    return [*out, "", *lost(these), ""]


def lost(these):
    """The programs that are faster than ours with as many threads, if there are others."""
    if all(is_ours(program) for program, threads in these):
        return []
    best = {}
    for (program, threads), found in these.items():
        if is_ours(program):
            best[threads] = min(found.middle, best.get(threads, found.middle))
    quicker = [f"{program} with {count(threads, 'thread')} ({best[threads] / found.middle:.2f} times as fast)"
               for (program, threads), found in these.items()
               if not is_ours(program) and threads in best and best[threads] > 1.005 * found.middle]
    if not quicker:
        return ["No other program is quicker with as many threads."]
    return [f"Quicker than ours with as many threads: {', '.join(quicker)}."]


def count(number, word):
    return f"{number:,} {word}" + ("" if number == 1 else "s")


def machine():
    """What is known of the machine and of the run, by name."""
    return {row["name"]: row["value"] for row in rows_of("machine")}


# The sentence on other work that was stopped for the bench.
STOPPED = "stopped while it ran"


def head(about):
    out = [HEAD]
    out += ["| | |", "|---|---|"] + [f"| {name} | {value} |" for name, value in about.items()] + [""]
    loads = [float(about.get(name, "0").split()[0]) for name in ("load before", "load after")]
    if about.get("other work") == STOPPED:
        out += ["The machine's other work was stopped while the bench ran; the load before is that of the minutes before.", ""]
    elif loads[0] > 1:
        out += [f"**The machine did other work when the bench began (a load of {loads[0]}), so these figures are rough.**", ""]
    return out


def runs(rows, rounds):
    """Whole runs and solving alone, for each input and size."""
    whole, solving, memory = groups(rows, "seconds"), groups(rows, "solve_seconds"), groups(rows, "peak_kib")
    out = [WHOLE]
    for at, these in shown(whole):
        out += table(f"{at[1]:,} nodes, {KINDS[at[0]]}, {rounds(at)} rounds", these, these.get((BASE, 1)), memory[at])
    out += ["![whole runs by nodes](pictures/time-by-nodes.svg)", "", "![memory by nodes](pictures/memory-by-nodes.svg)", "", SOLVING]
    for at, these in shown(solving):
        out += table(f"{at[1]:,} nodes, {KINDS[at[0]]}, {rounds(at)} rounds", these, these.get((BASE, 1)))
    return [*out, "![searches by threads](pictures/time-by-threads.svg)", ""]


def patterns(rows, rounds):
    """How much longer a search takes with traffic patterns, on the same network."""
    out = [PATTERNS, "| nodes | program | threads | plain s | patterns s | ratio | rounds |", "|---|---|---|---|---|---|---|"]
    solving = groups(rows, "solve_seconds")
    for at, these in shown(solving):
        for (program, threads), found in these.items() if at[0] == "patterns" else ():
            plain = solving["plain", at[1], at[2]][program, threads]
            ratio = f"{found.middle / plain.middle:.2f}"
            cells = f"{at[1]:,}", program, str(threads), seconds(plain.middle), seconds(found.middle), ratio, str(rounds(at))
            out.append("| " + " | ".join(cells) + " |")
    return [*out, ""]


def problems(rows, rounds):
    out = [MANY]
    for at, these in shown(groups(rows, "seconds")):
        out += table(f"{at[1]:,} nodes, {rounds(at)} rounds", these, these.get((BASE, 1)))
    return [*out, "![64 problems by threads](pictures/time-by-problems.svg)", ""]


def pairs(rows, rounds):
    whole, solving, out = groups(rows, "seconds"), groups(rows, "solve_seconds"), [PAIRS]
    for at, _ in shown(solving):
        title = f"{at[2]:,} pairs in {at[1]:,} nodes, {rounds(at)} rounds"
        if at in whole:
            out += table(f"{title}, whole runs", whole[at], whole[at].get((BASE, 1)))
        if any(program.startswith(OURS) for program, _ in solving[at]):
            out += table(f"{title}, solving alone", solving[at], solving[at].get((BASE, 1)))
    return out


def prepared(rows):
    """Pairs over a prepared road, beside the same search without, and a program in plain C++."""
    out = [PREPARED] if rows else []
    for network in dict.fromkeys(row["network"] for row in rows):
        out += prepared_on(network, [row for row in rows if row["network"] == network])
    return out


def prepared_on(network, rows):
    """A table of a network's pairs, and a picture."""
    found = {(row["pairs"], row["program"]): row for row in rows}
    names = list(dict.fromkeys(row["pairs"] for row in rows))
    out = [f"**{network}, {int(rows[0]['nodes']):,} nodes**", "", "| pairs | in plain C++ | earliest | beside C++ | unprepared | as quick | by hand | as quick |", "|" + "---|" * 8]
    lines = {}
    for name in names:
        scale = 1 / 1000 if name in (prepared_turns.PREPARED, prepared_turns.AGAIN) else 1
        cells, middles = [name], {}
        for program in (prepared_turns.CPP, prepared_turns.LED, prepared_turns.PLAIN, prepared_turns.HEAP):
            row = found.get((name, program))
            middles[program] = float(row["middle"]) if row else None
            cells.append(" / ".join(f"{float(row[it]) * scale:.4g}" for it in ("least", "middle", "greatest")) if row else "")
            if row and name.startswith("2^"):
                lines.setdefault(program, []).append((2 ** int(name[2:]), middles[program]))
        base, ours, plain, heap = middles.values()
        times = [f"{it / ours:.1f} times" if it else "" for it in (plain, heap)]
        cells[3:] = [f"{ours / base:.2f}" if base else "", cells[3], times[0], cells[4], times[1]]
        out.append("| " + " | ".join(cells) + " |")
    picture = "pairs-by-rank" if network == prepared_turns.GRID else f"pairs-by-rank-{network}"
    drawn(picture, f"Pairs by Dijkstra rank, {network}, microseconds each", "rank of the target", "microseconds", list(lines.items()))
    return [*out, "", f"![pairs by Dijkstra rank, {network}](pictures/{picture}.svg)", ""]


def asked(rows, rounds):
    out = [ASKED]
    for at, these in shown(groups(rows, "seconds")):
        out += table(f"{at[1]:,} nodes, {rounds(at)} rounds", these, these.get((BASE, 1)))
    return out


def directions(rows, rounds):
    """Reading and searching, forward and turned round, with each sort of travel times."""
    out = [DIRECTIONS, "| nodes | travel times | reading s | turned s | ratio | a search s | turned s | ratio | of plain | by hand s | rounds |", "|" + "---|" * 11]
    found = groups(rows, "seconds")
    for nodes in sorted({at[1] for at in found}):
        plain = None
        for kind, name in (*KINDS.items(), ("points", "points")):
            read, run = {}, {}
            for way in ("arrivals", "latest departures"):
                these = [found.get((f"{kind}, {way}", nodes, count), {}).get((OURS, 1)) for count in (0, 16)]
                if None not in these:
                    read[way], run[way] = these[0].middle, (these[1].middle - these[0].middle) / 16
            if len(run) < 2:
                continue
            forward, turned = run["arrivals"], run["latest departures"]
            plain = plain or forward
            by_hand = found.get((f"{kind}, arrivals", nodes, 16), {}).get((BASE, 1))
            cells = [f"{nodes:,}", name, seconds(read["arrivals"]), seconds(read["latest departures"]), f"{read['latest departures'] / read['arrivals']:.2f}", seconds(forward), seconds(turned), f"{turned / forward:.2f}", f"{forward / plain:.2f}", seconds(by_hand.middle / 16) if by_hand else "", str(rounds((f"{kind}, arrivals", nodes, 16)))]
            out.append("| " + " | ".join(cells) + " |")
    return [*out, ""]


def scattered(rows, rounds):
    """The times on a network numbered at random beside those on the network as it was made."""
    out = [SCATTERED, "| nodes | problems | program | threads | as made s | at random s | ratio | rounds |", "|" + "---|" * 8]
    found = groups(rows, "seconds")
    for at, these in shown(found):
        for (program, threads), value in these.items() if at[0] == "at random" else ():
            made = found["as made", at[1], at[2]][program, threads]
            cells = f"{at[1]:,}", str(at[2]), program, str(threads), seconds(made.middle), seconds(value.middle), f"{value.middle / made.middle:.2f}", str(rounds(at))
            out.append("| " + " | ".join(cells) + " |")
    return [*out, ""]


def checks(rows, rounds):
    out, peaks = [CHECKS], groups(rows, "peak_kib")
    for at, these in shown(groups(rows, "seconds")):
        kind = {"plain": "plain weights, one problem", "timetables": "timetables, one problem"}.get(at[0], f"{'plain weights' if at[0].startswith('walks') else 'timetables'}, {at[0]}")
        what = f"{at[1]:,} nodes, {kind}, {rounds(at)} rounds"
        out += table(what, these, these.get(("search again and compare, by hand", 1)), peaks.get(at))
    return out


def embedded(rows):
    """The Python package compared with the program."""
    if not rows:
        return []
    out = [EMBEDDED, "| nodes | what | middle s | ratio | to |", "|---|---|---|---|---|"]
    out += [f"| {int(row['nodes']):,} | {row['what']} | {float(row['seconds']):.4f} | {row['ratio']} | {row['to']} |" for row in rows]
    return [*out, ""]


def said():
    """What scripts of the bench printed."""
    out = []
    for name, head in SAID.items():
        rows = rows_of(name)
        if rows:
            out += [head, "| what | figure |", "|---|---|", *(f"| {row['what']} | {row['figure']} |" for row in rows), ""]
    return out


def rings(rows):
    """Networks that are hard for several workers."""
    if not rows:
        return []
    out = [TRAPS, "| network | settings | one worker s | middle of them s | worst s | worst / one | worst setting |", "|" + "---|" * 7]
    for row in rows:
        cells = [row[name] for name in ("network", "settings", "one", "middle", "worst", "ratio")] + [f"`{row['setting']}`"]
        out.append("| " + " | ".join(cells) + " |")
    return [*out, ""]


def drawn(name, *words):
    """Writes a picture, if it has lines."""
    text = plots.chart(*words)
    if text:
        os.makedirs(PICTURES, exist_ok=True)
        with open(os.path.join(PICTURES, f"{name}.svg"), "w", encoding="utf-8") as file:
            file.write(text)


def lines_by_nodes(found, kind, scale=1.0):
    """A line over nodes for each program with one thread or four; MultiQueues with four only."""
    lines = {}
    for (kind_of, nodes, _), these in found.items():
        for (program, threads), value in these.items():
            if kind_of == kind and threads in ((4,) if program in SEVERAL.values() else (1, 4)):
                lines.setdefault(f"{program}, {threads}", []).append((nodes, value.middle * scale))
    return list(lines.items())


def lines_by_threads(found, at):
    lines = {}
    for (program, threads), value in found.get(at, {}).items():
        lines.setdefault(program, []).append((threads, value.middle))
    return list(lines.items())


def pictures(whole, many):
    timed, memory, solving = groups(whole, "seconds"), groups(whole, "peak_kib"), groups(whole, "solve_seconds")
    drawn("time-by-nodes", "Whole runs by nodes, plain weights (program, threads)", "nodes", "seconds", lines_by_nodes(timed, "plain"))
    title = "Greatest memory by nodes, plain weights (program, threads)"
    drawn("memory-by-nodes", title, "nodes", "MB", lines_by_nodes(memory, "plain", 1 / 1024))
    most = max((at[1] for at in solving if at[0] == "timetables"), default=0)
    title = f"One search by threads, {most:,} nodes with timetables"
    drawn("time-by-threads", title, "threads", "seconds", lines_by_threads(solving, ("timetables", most, 1)))
    found = groups(many, "seconds")
    most = max((at[1] for at in found), default=0)
    title = f"64 problems by threads, {most:,} nodes with timetables"
    drawn("time-by-problems", title, "problems at once", "seconds", lines_by_threads(found, ("timetables", most, 64)))


def rounds_of(rows):
    """The number of rounds of a group."""
    found = {}
    for row in rows:
        at = row["input"], int(row["nodes"]), int(row["problems"])
        found[at] = max(found.get(at, 0), int(row["round"]))
    return lambda at: found[at]


def main():
    whole, many, paired, checked = (rows_of(name) for name in ("whole", "problems", "pairs", "check"))
    text = head(machine())
    parts = (runs, whole), (patterns, rows_of("patterns")), (problems, many), (pairs, paired), (asked, rows_of("asked")), (directions, rows_of("directions")), (scattered, rows_of("scattered")), (checks, checked)
    for part, rows in parts:
        if rows:
            text += part(rows, rounds_of(rows))
    text += prepared(rows_of("prepared")) + embedded(rows_of("python")) + said() + rings(rows_of("traps"))
    pictures(whole, many)
    with open(os.path.join(ROOT, "docs", "performance.md"), "w", encoding="utf-8") as file:
        file.write("\n".join(text).rstrip() + "\n")


if __name__ == "__main__":
    main()

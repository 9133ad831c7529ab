"""The commuter network of examples/, made anew: python3 tests/cli/commuter.py FOLDER

A town of 300 crossings, 20 from west to east and 15 from north to south, in two halves with a river between
the tenth and the eleventh column: a main road through the middle row, which crosses the river by the only
bridge, side streets, and a ferry further south. Times are seconds of the day. It writes commuter.gr,
commuter.tp, commuter.ss, commuter.p2p, and where the crossings lie on a map, commuter.co.
"""
import os
import sys

WIDE, HIGH, MAIN, PIER = 20, 15, 7, 12
HOME, OFFICE = (4, 11), (15, 11)
DAY = 86400

# Patterns of speeds, in per cent of free flow, by the minute of the day from which they hold.
INTO_TOWN = ((0, 100), (405, 80), (435, 55), (465, 40), (510, 55), (540, 85), (570, 100))
OUT_OF_TOWN = ((0, 100), (960, 80), (990, 50), (1020, 35), (1080, 55), (1110, 85), (1140, 100))
BRIDGE_IN = ((0, 100), (420, 60), (450, 40), (470, 12), (510, 35), (540, 70), (570, 100))
BRIDGE_OUT = ((0, 100), (975, 60), (1005, 30), (1080, 45), (1125, 80), (1155, 100))
SIDE = ((0, 100), (420, 85), (1170, 100))
# The ferry leaves the western pier each 20 minutes from 6:00 to 22:00, the eastern pier 10 minutes later.
FERRIES = tuple(range(360, 1321, 20)), tuple(range(370, 1331, 20))


def node(column, row):
    """The number of a crossing."""
    return row * WIDE + column + 1


def streets():
    """The arcs: tail, head, weight in seconds at full speed, and class."""
    for row in range(HIGH):
        for column in range(WIDE):
            here, side = node(column, row), 30 + (7 * column + 11 * row) % 21
            if column + 1 < WIDE and column != WIDE // 2 - 1:
                weight, into, out = (15, 1, 2) if row == MAIN else (side, 5, 5)
                yield here, here + 1, weight, into if column < WIDE // 2 else 5
                yield here + 1, here, weight, out if column < WIDE // 2 else 5
            if row + 1 < HIGH:
                yield here, here + WIDE, side, 5
                yield here + WIDE, here, side, 5
    west, east = node(WIDE // 2 - 1, MAIN), node(WIDE // 2, MAIN)
    yield west, east, 75, 3
    yield east, west, 75, 4
    west, east = node(WIDE // 2 - 1, PIER), node(WIDE // 2, PIER)
    yield west, east, 210, 6
    yield east, west, 210, 7


def kinds():
    """The lines of the timetables' kinds."""
    for number, pattern in enumerate((INTO_TOWN, OUT_OF_TOWN, BRIDGE_IN, BRIDGE_OUT, SIDE), 1):
        yield f"k {number} speeds {DAY} {len(pattern)}\n"
        for minute, per_cent in pattern:
            yield f"v {60 * minute} {10 * per_cent}\n"
    for number, leaves in enumerate(FERRIES, 6):
        yield f"k {number} trips {DAY} {len(leaves)}\n"
        for minute in leaves:
            yield f"v {60 * minute} 0\n"


def places():
    """The lines of the crossings' places: a hundred units from one to the next, twice as far across the
    river."""
    for row in range(HIGH):
        for column in range(WIDE):
            yield f"v {node(column, row)} {100 * (column + (column >= WIDE // 2))} {100 * (HIGH - 1 - row)}\n"


def texts():
    """The files by their names."""
    arcs = list(streets())
    yield "commuter.gr", f"c the commuter network: seconds at full speed\np sp {WIDE * HIGH} {len(arcs)}\n" + "".join(f"a {tail} {head} {weight}\n" for tail, head, weight, _ in arcs)
    yield "commuter.tp", f"p tp 7 {len(arcs)}\n" + "".join(kinds()) + "".join(f"t {number} {kind}\n" for number, (_, _, _, kind) in enumerate(arcs, 1))
    yield "commuter.co", f"p aux sp co {WIDE * HIGH}\n" + "".join(places())
    yield "commuter.ss", f"p aux sp ss 1\ns {node(*HOME)}\n"
    yield "commuter.p2p", f"p aux sp p2p 2\nq {node(*HOME)} {node(*OFFICE)}\nq {node(*HOME)} {node(*OFFICE)}\n"


if __name__ == "__main__":
    if len(sys.argv) != 2:
        sys.exit(__doc__.strip())
    for name, text in texts():
        with open(os.path.join(sys.argv[1], name), "w", encoding="ascii", newline="\n") as file:
            file.write(text)

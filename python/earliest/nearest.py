"""The node that is nearest to a place, with the distance in metres.

    python3 -m earliest.nearest town.nodes.csv 11.34,44.49 11.35,44.50
    python3 -m earliest.nearest USA-road-d.NY.co --degrees -73.97,40.78 --ss home.ss

prints a line `NODE DISTANCE ID` for each place, ID if the table has one. With --ss it writes the nodes as sources.

    from earliest.nearest import Places
    node, metres = Places.read("town.nodes.csv").nearest(11.34, 44.49)
"""
import os
import re
import sys

from .importing import writing
from .importing.maps import Places
from .importing.telling import Refused, ended

__all__ = ["Places", "Refused", "main"]


def pair_of(text):
    try:
        x, y = (float(part) for part in text.split(","))
    except ValueError:
        raise Refused(f"two coordinates are wanted, as 11.34,44.49, and not {text!r}") from None
    return x, y


def command(words):
    asked = writing.Words(__doc__, "nearest")
    asked.add_argument("nodes", help="NAME.nodes.csv of an importer, or a .co")
    asked.add_argument("place", nargs="*", help="longitude,latitude in degrees, or x,y in metres")
    unit = asked.add_mutually_exclusive_group()
    unit.add_argument("--degrees", action="store_const", const="degrees", dest="unit", help="the .co is in millionths of a degree, as those of the 9th DIMACS Challenge")
    unit.add_argument("--metres", action="store_const", const="metres", dest="unit", help="the .co is in metres")
    asked.add_argument("--end", action="store_true", help="nodes to end at, of crossings and stops that are split (default: those to start from)")
    asked.add_argument("--ss", metavar="FILE", help="write the nodes as sources")
    # Places may begin with a minus sign.
    places = [word for word in words if re.fullmatch(r"-\.?\d[^=]*,.*", word)]
    given = asked.parse_intermixed_args([word for word in words if word not in places])
    order = [word for word in words if word in given.place or word in places]
    if not order:
        asked.error("a place is wanted, as 11.34,44.49")
    pairs = [pair_of(text) for text in order]
    known = Places.read(given.nodes, given.unit)
    if known.unit == "plain":
        raise Refused(f"{given.nodes} doesn't tell its unit: give --degrees or --metres")
    ids = dict(zip(known.nodes, known.ids)) if known.ids else {}
    found = [known.nearest(*pair, use="end" if given.end else "start") for pair in pairs]
    for node, metres in found:
        print(f"{node} {metres:.1f} {ids.get(node, '')}".rstrip())
    if given.ss:
        name, end = os.path.splitext(given.ss)
        with writing.Outputs(name, network=False) as out:
            file = out.file(end)
            file.write(f"p aux sp ss {len(found)}\n" + "".join(f"s {node}\n" for node, _ in found))
    return 0


def main(words=None):
    return ended("nearest", command, words)


if __name__ == "__main__":
    sys.exit(main(sys.argv[1:]))

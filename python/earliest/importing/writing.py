"""Files that are written whole or not at all, and the texts that the importers write."""
import argparse
import csv
import os
import re

from .telling import Refused

UNITS = {"seconds": 1, "tenths": 10, "hundredths": 100, "milliseconds": 1000}
UNIT_NAMES = {1: "seconds", 10: "tenths of a second", 100: "hundredths of a second", 1000: "milliseconds"}
MOST_NODES, MOST_ARCS, MOST_CLASSES, MOST_STEPS, MOST_WEIGHT, MOST_PERIOD = 67_108_864, 268_435_456, 65_535, 65_536, 4_294_967_295, 4_294_967_296
"""The limits of the formats."""
OURS = "by python -m earliest"


def add_unit(words):
    words.add_argument("--unit", choices=sorted(UNITS), default="hundredths", help="unit of all times that are written (default: hundredths, of a second)")


def unit_comment(per_second, source):
    """The first line of a `.gr`: readers find the unit there (`unit_of`)."""
    return f"c time unit: 1/{per_second} s ({UNIT_NAMES.get(per_second, '')}); made of {cleaned(source)} {OURS}\n"


def unit_of(path):
    """How many units of time a second has, by the first comment of a `.gr`; None if it doesn't tell."""
    with open(path, encoding="ascii", errors="replace") as text:
        for line in text:
            if line.strip() and not line.lstrip().startswith("c"):
                return None
            told = re.match(r"c time unit: 1/(\d+) s\b", line)
            if told and int(told.group(1)):
                return int(told.group(1))
    return None


def cleaned(name):
    """A name in ASCII without line ends, for a comment."""
    return os.path.basename(str(name).rstrip("/")).encode("ascii", "replace").decode("ascii").replace("\n", " ").replace("\r", " ")


class Outputs:
    """Files NAME.end that get their names only when all of them are whole: `with Outputs(name) as out: out.file(".gr").write(..)`."""

    def __init__(self, name, network=True):
        self.name, self.open_files, self.notes, self.network = os.fspath(name), {}, [], network
        folder = os.path.dirname(self.name) or "."
        if not os.path.isdir(folder):
            raise Refused(f"the folder {folder} isn't there")
        if not os.path.basename(self.name):
            raise Refused(f"{self.name!r} is a folder; a name for the files is wanted, such as {self.name}town")

    def file(self, end):
        path = self.name + end
        if os.path.isdir(path):
            raise Refused(f"{path} is a folder, and a file is to be written there")
        whole = f"{path}.{os.getpid()}.part"
        self.open_files[path] = (whole, open(whole, "w", encoding="utf-8", newline="\n"))
        return self.open_files[path][1]

    def table(self, end, columns):
        """A CSV file with a line of column names; its rows go to `.writerow`."""
        rows = csv.writer(self.file(end), lineterminator="\n")
        rows.writerow(columns)
        return rows

    def __enter__(self):
        return self

    def __exit__(self, kind, value, trace):
        try:
            for _, file in self.open_files.values():
                file.close()
            if kind is None:
                for path, (whole, _) in self.open_files.items():
                    os.replace(whole, path)
                if self.network:
                    self._forget(".tp")
        finally:
            for whole, file in self.open_files.values():
                file.close()
                if os.path.exists(whole):
                    os.remove(whole)

    def _forget(self, end):
        """Removes an older file of ours that this run didn't write: it would be taken for a part of the new network."""
        path = self.name + end
        if path in self.open_files or not os.path.isfile(path):
            return
        with open(path, encoding="ascii", errors="replace") as text:
            if OURS in text.readline():
                os.remove(path)
                self.notes.append(f"removed {path} of an earlier import")

    def names(self):
        return list(self.open_files)


def limits_kept(nodes, arcs):
    if nodes == 0 or arcs == 0:
        raise Refused("nothing is left to make a network of")
    if nodes > MOST_NODES:
        raise Refused(f"{nodes} nodes are needed, and {MOST_NODES} is the most; take a smaller part")
    if arcs > MOST_ARCS:
        raise Refused(f"{arcs} arcs are needed, and {MOST_ARCS} is the most; take a smaller part")


def weight_of(seconds, per_second, what):
    """A travel time in units, rounded to the nearest."""
    weight = int(seconds * per_second + 0.5)
    if not 0 <= weight <= MOST_WEIGHT:
        raise Refused(f"{what} takes {seconds:.0f} seconds, which is beyond the greatest weight; take a coarser --unit")
    return weight


class Classes:
    """Classes of travel times, each once. Keys are ('trips', period, ((t, x), ..)) and the like."""

    def __init__(self):
        self.numbers = {}

    def number(self, kind, period, steps):
        """The number of a class, from 1."""
        if len(steps) > MOST_STEPS:
            raise Refused(f"a class of {kind} needs {len(steps)} steps, and {MOST_STEPS} is the most")
        return self.numbers.setdefault((kind, period, tuple(steps)), len(self.numbers) + 1)

    def __len__(self):
        return len(self.numbers)

    def checked(self, advice):
        if len(self.numbers) > MOST_CLASSES:
            raise Refused(f"{len(self.numbers)} different classes of travel times are needed, and {MOST_CLASSES} is the most; {advice}")

    def write(self, file, arcs, source):
        """A `.tp`; `arcs` gives (arc, class) for arcs that aren't plain, and is gone through twice."""
        used = sum(1 for _, number in arcs() if number)
        file.write(f"c made of {cleaned(source)} {OURS}\np tp {len(self.numbers)} {used}\n")
        for (kind, period, steps), number in self.numbers.items():
            file.write(f"k {number} {kind} {period} {len(steps)}\n")
            file.writelines(f"v {time} {value}\n" for time, value in steps)
        file.writelines(f"t {arc} {number}\n" for arc, number in arcs() if number)


def write_coordinates(file, places, degrees, source):
    """A `.co`: degrees, or metres. `places` gives (node, x, y) and is gone through twice; nodes without a place have None and are left out."""
    told = "1/1000000 degree (longitude, latitude)" if degrees else "1/100 metre"
    scale = 1_000_000 if degrees else 100
    known = sum(1 for _, x, y in places() if x is not None and y is not None)
    file.write(f"c coordinate unit: {told}; made of {cleaned(source)} {OURS}\np aux sp co {known}\n")
    file.writelines(f"v {node} {round(x * scale)} {round(y * scale)}\n" for node, x, y in places() if x is not None and y is not None)


def write_starts(out, sources, targets):
    """The `.ss` of the sources, and with targets the `.p2p` of each pair of both."""
    if sources:
        file = out.file(".ss")
        file.write(f"p aux sp ss {len(sources)}\n")
        file.writelines(f"s {node}\n" for node in sources)
    if sources and targets:
        file = out.file(".p2p")
        file.write(f"p aux sp p2p {len(sources) * len(targets)}\n")
        file.writelines(f"q {source} {target}\n" for source in sources for target in targets)


class Words(argparse.ArgumentParser):
    """The words of a command. The value of --from and --to may begin with a minus sign, as a place west of Greenwich does."""

    def __init__(self, doc, name):
        super().__init__(prog=f"earliest {name}", description=doc, formatter_class=argparse.RawDescriptionHelpFormatter)

    def parse_args(self, args=None, namespace=None):
        joined, words = [], list(args or [])
        while words:
            word = words.pop(0)
            joined.append(f"{word}={words.pop(0)}" if word in ("--from", "--to", "--box") and words else word)
        return super().parse_args(joined, namespace)

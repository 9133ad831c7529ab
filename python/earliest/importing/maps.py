"""Where nodes lie: coordinates files of the Challenge and the node tables of the importers."""
import csv
import math
import re

from . import geography
from .telling import Refused


class Places:
    """Nodes with their coordinates: in degrees, in metres, or in units that nobody told (`unit` is 'degrees', 'metres' or 'plain')."""

    def __init__(self, nodes, points, unit, ids=None, uses=None):
        self.nodes, self.points, self.unit, self.ids, self.uses = nodes, points, unit, ids, uses
        self._trees = {}

    @classmethod
    def read(cls, path, unit=None, scale=None):
        """Reads a `.co` or a `.nodes.csv`. For a `.co` the unit is what its first comment tells, else `unit` with millionths of a degree
        or whole metres, else plain numbers; `scale` is how many units of the file a degree or a metre has."""
        try:
            if path.endswith(".csv"):
                return cls._of_table(path)
            return cls._of_coordinates(path, unit, scale)
        except UnicodeDecodeError:
            raise Refused(f"{path} isn't a text") from None
        except FileNotFoundError:
            raise Refused(f"{path} isn't there") from None

    @classmethod
    def _of_table(cls, path):
        nodes, points, ids, uses = [], [], [], []
        with open(path, encoding="utf-8", newline="") as file:
            table = csv.DictReader(file)
            head = table.fieldnames or []
            columns = ("longitude", "latitude") if "longitude" in head else ("x", "y")
            if "node" not in head or columns[0] not in head or columns[1] not in head:
                raise Refused(f"{path} has no columns node, longitude and latitude (or x and y)")
            for row in table:
                try:
                    if row[columns[0]] == "" or row[columns[1]] == "":
                        continue
                    node, point = int(row["node"]), (float(row[columns[0]]), float(row[columns[1]]))
                except (TypeError, ValueError):
                    raise Refused(f"{path}, line {table.line_num}: a node and two coordinates are wanted") from None
                if not all(map(math.isfinite, point)):
                    raise Refused(f"{path}, line {table.line_num}: coordinates have to be finite")
                nodes.append(node)
                points.append(point)
                ids.append(row.get("id") or "")
                uses.append(row.get("use") or "both")
        return cls._checked(path, nodes, points, "degrees" if columns[0] == "longitude" else "metres", ids, uses)

    @classmethod
    def _of_coordinates(cls, path, unit, scale):
        nodes, points, told = [], [], None
        with open(path, encoding="ascii", errors="replace") as text:
            for number, line in enumerate(text, 1):
                fields = line.split()
                if not fields:
                    continue
                if fields[0].startswith("c"):
                    found = re.match(r"c coordinate unit: 1/(\d+) (degree|metre)\b", line)
                    told = told or (found and int(found.group(1)) and (int(found.group(1)), found.group(2) + "s"))
                elif fields[0] == "v" and len(fields) == 4:
                    try:
                        node, x, y = map(int, fields[1:])
                    except ValueError:
                        raise Refused(f"{path}, line {number}: a number is wanted in {' '.join(fields[1:])!r}") from None
                    nodes.append(node)
                    points.append((x, y))
                elif fields[0] != "p":
                    raise Refused(f"{path}, line {number}: a place needs a node and two coordinates: v NODE X Y")
        if unit is None and told:
            unit, scale = told[1], scale or told[0]
        if unit in ("degrees", "metres"):
            scale = scale or (told[0] if told and told[1] == unit else 1_000_000 if unit == "degrees" else 1)
            points = [(x / scale, y / scale) for x, y in points]
        return cls._checked(path, nodes, points, unit or "plain", None, None)

    @classmethod
    def _checked(cls, path, nodes, points, unit, ids, uses):
        if not nodes:
            raise Refused(f"{path}: no place of a node")
        if unit == "degrees":
            wrong = next((place for place, (x, y) in enumerate(points) if not (-180 <= x <= 180 and -90 <= y <= 90)), None)
            if wrong is not None:
                raise Refused(f"{path}: node {nodes[wrong]} lies at {points[wrong][0]:g}, {points[wrong][1]:g}, which are no degrees")
        return cls(nodes, points, unit, ids, uses)

    def on_tree(self, point):
        return geography.on_sphere(*point) if self.unit == "degrees" else (*point, 0.0)

    def nearest(self, x, y, use=None, with_scipy=True):
        """The nearest node and its distance: in metres if the unit is told, of longitude and latitude in degrees or of x and y. `use` is
        'start' or 'end': of a crossing or stop that is split only the node to start from or to end at; of several nodes at one place the
        lowest."""
        if self.unit == "degrees" and not (-180 <= x <= 180 and -90 <= y <= 90):
            raise Refused(f"{x:g}, {y:g} is no place: longitude is -180 to 180, and latitude -90 to 90")
        if not (math.isfinite(x) and math.isfinite(y)):
            raise Refused("coordinates have to be finite")
        key = use, with_scipy
        if key not in self._trees:
            chosen = [place for place in range(len(self.nodes)) if use is None or self.uses is None or self.uses[place] in ("both", use)]
            if not chosen:
                raise Refused(f"no node is there to {use} at")
            chosen.sort(key=lambda place: self.nodes[place])
            self._trees[key] = chosen, geography.Tree([self.on_tree(self.points[place]) for place in chosen], with_scipy)
        chosen, tree = self._trees[key]
        place = chosen[tree.nearest(self.on_tree((x, y)))[0]]
        return self.nodes[place], self.distance((x, y), self.points[place])

    def distance(self, first, second):
        if self.unit == "degrees":
            return geography.metres(*first, *second)
        return math.hypot(first[0] - second[0], first[1] - second[1])

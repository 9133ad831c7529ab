"""The examples, beside plain searches: what they print is what a Dijkstra over the same files finds."""
import os
import re
import subprocess
import sys
import tempfile

import plain
from optional import needs, needs_program, without
from test_engine import Case


def example(*words):
    ran = subprocess.run([sys.executable, *words], cwd=plain.EXAMPLES, capture_output=True, text=True, timeout=60)
    return ran.returncode, ran.stdout, ran.stderr


def network_of(name):
    """A network of examples/ with its timetables, read by the formats' page."""
    arcs, kinds, classes = [], [], {}
    for line in plain.read_example(name + ".gr").decode().splitlines():
        fields = line.split()
        if fields[:1] == ["a"]:
            arcs.append([int(it) for it in fields[1:]])
        elif fields[:1] == ["p"]:
            nodes = int(fields[2])
    for line in plain.read_example(name + ".tp").decode().splitlines():
        word, *fields = line.split()
        if word == "k" and fields[1] in ("speeds", "trips"):
            kinds.append((fields[1], int(fields[2]), []))
        elif word == "k":
            kinds.append((fields[1], *map(int, fields[2:])))
        elif word == "v":
            kinds[-1][2].append((int(fields[0]), int(fields[1])))
        elif word == "t":
            classes[int(fields[0])] = int(fields[1])
    return plain.Network(nodes, [(*arc, classes.get(number, 0)) for number, arc in enumerate(arcs, 1)], kinds)


class Notebook(Case):
    def near(self, shown, want, digits=1):
        """What is shown is a number rounded to `digits` digits."""
        self.assertEqual(len(shown.split(".")[1]), digits)
        self.assertLessEqual(abs(float(shown) - want), 0.5000001 * 10**-digits)

    @needs("numpy", "pandas")
    def test_notebook(self):
        status, out, said = example("notebook.py")
        self.assertEqual((status, said), (0, ""))
        blocks = {block.split("\n")[0].split(",")[0]: block.strip("\n").split("\n")[1:] for block in out.split("\n\n")}
        town = network_of("commuter")
        names = {}
        for line in plain.read_example("commuter.co").decode().splitlines():
            if line.startswith("v"):
                number, x, y = map(int, line.split()[1:])
                names[f"{chr(ord('A') + x // 100)}{1 + y // 100}"] = number
        home, work = names["E4"], names["Q4"]
        self.assertEqual((home, work, len(names)), (225, 236, 300))
        leave = 8 * 3600 + 600
        # The matrix.
        some = blocks["minutes"][0].split()
        self.assertEqual(some, ["E4", "A1", "U15", "Q4"])
        for row in blocks["minutes"][1:]:
            name, *minutes = row.split()
            least = town.least([(names[name], leave)])
            for other, shown in zip(some, minutes):
                self.near(shown, (least[names[other] - 1] - leave) / 60)
        # The profile.
        self.assertEqual(len(blocks["minutes to work"]), 9)
        for row in blocks["minutes to work"]:
            clock, minutes = row.split()
            at = int(clock[:2]) * 3600 + int(clock[3:]) * 60
            self.near(minutes, (town.least([(home, at)])[work - 1] - at) / 60)
        # The latest departure.
        hour, minute, second = map(int, re.search(r"by 8:30, leave at (\d+):(\d+):(\d+)", out).groups())
        at = hour * 3600 + minute * 60 + second
        self.assertEqual([town.least([(home, at + more)])[work - 1] <= 30600 for more in (0, 1)], [True, False])
        # The table of isochrones.
        least = town.least([(home, leave)])
        minutes = {name: (least[number - 1] - leave) / 60 for name, number in names.items()}
        edges = {"to 5": (0, 5), "to 10": (5, 10), "to 15": (10, 15), "to 20": (15, 20), "above": (20, 1e9)}
        rows = [re.fullmatch(r"(to \d+|above) +(\d+) +([\d.]+) +(\w+)", row.strip()).groups() for row in blocks["isochrones in minutes"][2:7]]
        self.assertEqual([row[0] for row in rows], list(edges))
        for band, count, last, name in rows:
            within = {it: time for it, time in minutes.items() if edges[band][0] <= time < edges[band][1]}
            self.near(last, max(within.values()))
            self.assertEqual((int(count), minutes[name]), (len(within), max(within.values())))
        way = out.split("the way to the last of them: ")[1].split("\n")[0].split()
        numbers, time = [names[it] for it in way], leave
        for one, other in zip(numbers, numbers[1:]):
            time = min(plain.arrive(town.kinds[kind], weight, time) for tail, head, weight, kind in town.arcs if (tail, head) == (one, other))
        self.assertEqual((numbers[0], time), (home, max(least)))
        # The areas, if GeoPandas is installed.
        from optional import FOUND

        if FOUND["geopandas"]:
            import shapely.geometry

            places = {line.split()[1]: tuple(map(int, line.split()[2:])) for line in plain.read_example("commuter.co").decode().splitlines() if line.startswith("v")}
            areas = dict(row.rsplit(maxsplit=1) for row in blocks["the area that the crossings of a band span"][1:])
            for band, (low, high) in edges.items():
                points = [places[str(names[it])] for it, time in minutes.items() if low <= time < high]
                self.near(areas[band], shapely.geometry.MultiPoint(points).convex_hull.area / 1e6, 2)
        else:
            self.assertIn("left out: the GeoDataFrame", out)

    @without("pandas")
    def test_without_pandas(self):
        status, out, said = example("notebook.py")
        self.assertEqual((status, out, said.startswith("notebook.py needs NumPy and pandas")), (1, "", True))


class ManySources(Case):
    def test_many_sources(self):
        status, out, said = example("many_sources.py", "commuter.gr", "commuter.tp")
        lines = out.splitlines()
        self.assertEqual((status, said, lines[0]), (0, "", "300 nodes, 1104 arcs"))
        town = network_of("commuter")
        for source, line in enumerate(lines[1:5], 1):
            least = town.least([(source, 1000)])
            time, node = max((time, node) for node, time in enumerate(least, 1))
            self.assertEqual(line, f"from {source}: node {node} is reached last, at {time}")
        walk = [int(it) for it in lines[5].replace("to it from 4: ", "").split()]
        self.assertEqual(town.walked(4, 1000, walk), (node, time))
        self.assertEqual(example("many_sources.py")[1].splitlines()[0], "2025 nodes, 5000 arcs")


class Guide(Case):
    @needs("numpy", "networkx")
    def test_guide(self):
        """What docs/guide/python.md shows is what comes."""
        import doctest
        import io
        from contextlib import redirect_stdout

        before = os.getcwd()
        os.chdir(plain.EXAMPLES)
        try:
            with redirect_stdout(io.StringIO()) as told:
                failed, tried = doctest.testfile(os.path.join(plain.ROOT, "docs", "guide", "python.md"), module_relative=False)
        finally:
            os.chdir(before)
        self.assertEqual((failed, tried > 30), (0, True), told.getvalue())


class InC(Case):
    """The examples in C and C++, with timetables and a departure."""

    def setUp(self):
        self.room = tempfile.TemporaryDirectory()

    def tearDown(self):
        self.room.cleanup()

    def built(self, compiler, name, *flags):
        """An example, compiled without a word: a way to run it."""
        folder, library = os.path.split(os.environ["EARLIEST_LIBRARY"])
        program = os.path.join(self.room.name, "example")
        words = [compiler, *flags, "-Wall", "-Wextra", "-Wpedantic", "-I" + os.path.join(plain.ROOT, "include"), name, f"-L{folder}", f"-l:{library}", f"-Wl,-rpath,{folder}", "-o", program]
        ran = subprocess.run(words, cwd=plain.EXAMPLES, capture_output=True, text=True)
        self.assertEqual((ran.returncode, ran.stderr), (0, ""))

        def run(*words):
            ran = subprocess.run([program, *map(str, words)], cwd=plain.EXAMPLES, capture_output=True, text=True, timeout=60)
            return ran.returncode, ran.stdout, ran.stderr

        return run

    @needs_program("cc")
    def test_walk_to(self):
        run, town = self.built("cc", "walk_to.c", "-std=c99"), network_of("commuter")
        for departure in (10000, 29722, 29723):
            status, out, said = run("commuter.gr", 225, departure, 236, "commuter.tp")
            arrival, *walk = map(int, re.findall(r"\d+", out.replace("node 236", "")))
            self.assertEqual((status, said, town.walked(225, departure, walk)), (0, "", (236, arrival)))
            self.assertEqual(arrival, town.least([(225, departure)])[235])
        self.assertEqual(run("four-nodes.gr", 1, 0, 4)[1], "node 4 at 6, over 2 3 4\n")
        self.assertEqual(run("four-nodes.gr", 1, 0, 4, "four-nodes.gr"), (1, "", "timetables, line 1: a kind word is not the one expected here (9 BadKind)\n"))
        self.assertEqual(run("four-nodes.gr", 1, 0)[::2], (2, "walk_to GR SOURCE DEPARTURE TARGET [TP]\n"))

    @needs_program("c++")
    def test_matrix(self):
        run, town = self.built("c++", "matrix.cpp", "-std=c++17", "-pthread"), network_of("commuter")
        nodes = [225, 1, 100, 236, 225]
        lines = []
        for source in nodes:
            least = town.least([(source, 29400)])
            lines.append(" ".join([f"{source}:", *(str(least[node - 1]) for node in nodes)]) + "\n")
        self.assertEqual(run("commuter.gr", "commuter.tp", 29400, *nodes), (0, "".join(lines), ""))
        self.assertEqual(run("commuter.gr", "commuter.tp", 29400, 301), (1, "", "matrix: a number is not that of a node (18 NoSuchNode)\n"))
        self.assertEqual(run("commuter.gr", "commuter.gr", 29400, 1)[::2], (1, "matrix: tp 2: a kind word is not the one expected here (9 BadKind)\n"))

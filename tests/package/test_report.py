"""Reports as arrays, beside the program's own reports in examples/ and beside reports written line by line here."""
import gzip
import io
import os
import random
import stat
import subprocess
import sys
import tempfile

import earliest
import plain
from earliest import report
from optional import needs, numpy
from test_engine import Case, flat

NEVER = plain.NEVER
STORED = ("four-nodes.report", "four-nodes.walks.report", "four-nodes.p2p.report", "commuter.report", "commuter.walks.report", "no-sources.joint.report", "joint-gap.report",
          "at-the-horizon.report", "loop-and-unreached.report", "every-ten.report", "cut-at-equal-keys.walks.report", "canonical-ties.walks.report")


def random_report(words, pair, turned, joint, walks, problems, nodes):
    """A report of random numbers: its lines, and each problem as (starts, times, [(node, value, walk)])."""
    lines, told = [], []
    asked = [words.randint(1, 2**32 - 1) for _ in range(nodes)]
    for _ in range(1 if joint else problems):
        starts = [words.randint(1, 99) for _ in range(3 if joint else 1)]
        times = [words.choice((0, 5, plain.HORIZON, words.randrange(2**48))) for _ in starts]
        rows = []
        if pair:
            starts = [words.randint(1, 99), words.randint(1, 99)]
            lines.append(f"{'t' if turned else 'q'} {starts[0]} {starts[1]} {times[0]}")
        else:
            lines += [f"{'t' if turned else 's'} {node} {time}" for node, time in zip(starts, times)]
        for node in ([starts[0 if turned else 1]] if pair else asked):
            value = words.choice((NEVER, 0, plain.HORIZON, words.randrange(2**48)))
            lines.append(f"d {node} {value if value != NEVER else 'none' if turned else 'inf'}")
            walk = [words.randint(1, 2**28) for _ in range(words.randrange(5))] if walks and value != NEVER and words.random() < 0.8 else None
            if walk is not None:
                lines.append(" ".join(map(str, ("w", node, len(walk), *walk))))
            rows.append((node, value, walk))
        told.append((starts, times, rows))
    return "".join(f"{line}\n" for line in lines).encode(), told


class Reads(Case):
    def test_stored_reports(self):
        """Read and written again, each is what it was, the lines of statistics aside."""
        for name in STORED:
            text = plain.read_example(name)
            out = io.BytesIO()
            report.write(out, report.read(text))
            self.assertEqual(out.getvalue(), text, name)
            self.assertEqual(b"".join(map(report.text_of, report.problems(io.BytesIO(text)))), text, name)

    def test_four_nodes(self):
        found = report.read(os.path.join(plain.EXAMPLES, "four-nodes.walks.report"))
        self.assertEqual((len(found), flat(found.sources), flat(found.departures), flat(found.nodes), [flat(it) for it in found.arrivals]), (1, [1], [0], [1, 2, 3, 4], [[0, 5, 2, 6]]))
        self.assertEqual([flat(found.walk(0, place)) for place in range(4)], [[], [2, 3], [2], [2, 3, 4]])
        self.assertEqual((found.pair, found.turned, found.joint, found.targets, found.totals), (False, False, False, None, {}))
        pairs = report.read(os.path.join(plain.EXAMPLES, "four-nodes.p2p.report"))
        self.assertEqual((flat(pairs.sources), flat(pairs.targets), flat(pairs.departures), flat(pairs.arrivals), pairs.walk(0)), ([1, 4], [4, 1], [0, 0], [6, NEVER], None))
        joint = report.read(os.path.join(plain.EXAMPLES, "joint-gap.report"))
        self.assertEqual((joint.joint, flat(joint.sources), flat(joint.departures), len(joint)), (True, [1, 2], [0, 5], 1))
        empty = report.read(b"")
        self.assertEqual((len(empty), len(empty.sources), len(empty.nodes)), (0, 0, 0))

    def test_random_reports(self):
        words = random.Random(8)
        for at in range(120):
            pair, turned, walks = at % 2 == 0, at % 3 == 0, at % 5 < 3
            joint = not pair and at % 7 == 0
            text, told = random_report(words, pair, turned, joint, walks, words.randint(1, 4), words.choice((1, 3, 50, 200)))
            found = report.read(text)
            self.assertEqual((found.pair, found.turned, found.joint, len(found)), (pair, turned, joint, len(told)))
            rows, asked = (found.departures, found.arrivals) if turned else (found.arrivals, found.departures)
            starts = found.targets if turned else found.sources
            if pair:
                self.assertEqual([list(it) for it in zip(flat(found.sources), flat(found.targets))], [it[0] for it in told])
                self.assertEqual((flat(asked), flat(rows)), ([it[1][0] for it in told], [it[2][0][1] for it in told]))
            else:
                self.assertEqual((flat(starts), flat(asked)), ([node for it in told for node in it[0]], [time for it in told for time in it[1]]))
                self.assertEqual([list(zip(flat(found.nodes), flat(row))) for row in rows], [[it[:2] for it in one[2]] for one in told])
            for problem, one in enumerate(told):
                for place, (_, _, walk) in enumerate(one[2]):
                    got = found.walk(problem, place)
                    self.assertEqual(None if got is None else flat(got), walk)
            out = io.BytesIO()
            report.write(out, found)
            self.assertEqual(out.getvalue(), text)
            self.assertTrue(all(it.walks is None for it in report.problems(text, walks=False)))

    def test_odd_white_space_and_statistics(self):
        text = b"c a comment\n\ns\t1  000\r\n d 1 00\ncx\nd 2 inf \nc seeded 7\nc pushed 340282366920938463463374607431768211455\n"
        found = report.read(text)
        self.assertEqual((flat(found.sources), [flat(it) for it in found.arrivals], found.totals), ([1], [[0, NEVER]], {"seeded": 7, "pushed": 2**128 - 1}))
        self.assertEqual([flat(it) for it in report.read(b"s 1 0\nd 1 0\nd 2 5").arrivals], [[0, 5]])

    def test_ways_to_read(self):
        text = plain.read_example("four-nodes.report")
        with tempfile.TemporaryDirectory() as room:
            for name, content in (("report", text), ("report.gz", gzip.compress(text))):
                path = os.path.join(room, name)
                with open(path, "wb") as file:
                    file.write(content)
                with open(path, "rb") as file:
                    opened = report.read(file)
                    self.assertFalse(file.closed)
                for found in (report.read(path), opened, report.read(content), report.read(io.BytesIO(content)), report.read(io.StringIO(text.decode()))):
                    self.assertEqual([flat(it) for it in found.arrivals], [[0, 5, 2, 6]])
            with open(path, "wb") as file:
                file.write(gzip.compress(text * 1000)[:-30])
            self.told(OSError, "can't be unpacked", lambda: report.read(path))
        self.told(TypeError, "has to be a path, bytes or a file", lambda: report.read(5))

    def test_faults(self):
        good = "s 1 0\nd 1 0\nd 2 5\n"
        many = "s 1 0\n" + "".join(f"d {node} {node}\n" for node in range(1, 101))
        for text, line, value in (
            ("x 1 2\n", 1, "x 1 2"), ("s 1\n", 1, "s 1"), ("s 1 0 0\n", 1, None), ("s 1 x\n", 1, None), ("s -1 0\n", 1, None), (f"s 1 {2**48}\n", 1, None), ("s 4294967296 0\n", 1, None),
            (good + "d 3\n", 4, None), (good + "d 3 none\n", 4, None), (good + "d 3 -1\n", 4, None), (good + f"d 3 {2**48}\n", 4, None), (good + "d 3 1.5\n", 4, None), (good + "d 3 \u0663\n", 4, None),
            (good + "s 2 0\nd 1 0\n", 0, None), (good + "s 2 0\nd 2 0\nd 1 0\n", 5, "d 2 0"), (good + good + "d 3 0\n", 7, None), (good + "s 2 0\ns 3 0\nd 1 0\nd 2 0\n", 0, None),
            (good + "q 1 2 0\nd 2 5\n", 4, None), ("q 1 2 0\nd 3 5\n", 2, None), ("q 1 2 0\nq 1 2 0\nd 2 0\n", 2, None), ("q 1 2 0\nd 2 5\nd 2 5\n", 3, None), ("q 1 2 0\n", 0, None),
            ("w 1 0\n", 1, None), ("s 1 0\nd 1 0\nw 2 0\n", 3, None), ("s 1 0\nd 1 0\nw 1 1\n", 3, None), ("s 1 0\nd 1 0\nw 1 0 5\n", 3, None), ("s 1 0\nd 1 inf\nw 1 0\n", 3, None), ("s 1 0\nd 1 0\nw 1 0\nw 1 0\n", 4, None),
            ("t 1 0\nd 1 inf\n", 2, None), ("t 1 2 0\nd 2 0\n", 2, None), ("d 1 0\ns 1 0\nd 1 0\n", 2, None), ("s 1 0\nt 1 0\nd 1 0\n", 2, None),
            (many.replace("d 50 50", "d 50 inff"), 51, "d 50 inff"), (many.replace("d 50 50", f"d 50 {2**64 + 7}"), 51, None), (many.replace("d 50 50", f"d 50 {NEVER}"), 51, None), (many.replace("d 50 50", "d 50"), 51, None),
            (many.replace("d 50 50", f"d {2**32} 50"), 51, None), (many.replace("d 50 50", "d 50 none"), 51, None), (many + many.replace("d 50 50", "d 51 50"), 152, "d 51 50"), (many + many.replace("d 100 100\n", ""), 0, None),
            (many.replace("d 50 50", "d 50 5 0"), 51, None), (many.replace("d 50 50", "d5 0 50"), 51, None), (many + many + "d 101 5\n", 203, "d 101 5"),
        ):
            with self.assertRaises(earliest.InputFailure, msg=text) as caught:
                report.read(text.encode())
            self.assertEqual((caught.exception.file, caught.exception.line, caught.exception.number), ("report", line, 31), text[:300])
            if value:
                self.assertEqual(caught.exception.value, value)
        with self.assertRaises(earliest.InputFailure) as caught:
            list(report.problems(os.path.join(plain.EXAMPLES, "four-nodes.gr")))
        self.assertEqual((caught.exception.file, caught.exception.line), (os.path.join(plain.EXAMPLES, "four-nodes.gr"), 1))

    def test_large_reports(self):
        """A report of 32 problems, 30 MB, problem by problem within the memory of a few."""
        with tempfile.TemporaryDirectory() as room:
            path = os.path.join(room, "report")
            with open(path, "wb") as file:
                lines = "".join(f"d {node} {node + 2**30 if node % 7 else 'inf'}\n" for node in range(1, 50001)).encode()
                for source in range(1, 33):
                    file.write(b"s %d %d\n" % (source, source) + lines)
            text = "import sys, plain\n" \
                   "from earliest import report, NEVER\n" \
                   "from earliest._numbers import numpy\n" \
                   "before = plain.peak()\n" \
                   "found = [(int(it.starts[0]), int(it.times[0]), len(it.nodes), int(it.values[0]), int(it.values[6]), int(it.values[-1])) for it in report.problems(sys.argv[1])]\n" \
                   "assert found == [(s, s, 50000, 1 + 2**30, NEVER, 50000 + 2**30) for s in range(1, 33)], found[:3]\n" \
                   "print(plain.peak() - before)\n"
            environment = {**os.environ, "PYTHONPATH": os.pathsep.join((os.environ["PYTHONPATH"], plain.HERE))}
            ran = subprocess.run([sys.executable, "-c", text, path], env=environment, capture_output=True, text=True, timeout=60)
            self.assertEqual((ran.returncode, ran.stderr), (0, ""))
            self.assertLess(int(ran.stdout), 33000)  # Read as a whole it takes 60,000 KB and more; a block has 4,096.


class Writes(Case):
    def setUp(self):
        self.net = plain.network(51)
        self.road = earliest.Road(self.net.gr(), self.net.tp())

    def wanted(self, starts, joint=False):
        text = ""
        for one in [starts] if joint else [[it] for it in starts]:
            text += "".join(f"s {source} {departure}\n" for source, departure in one) + "".join(f"d {node} {'inf' if it == NEVER else it}\n" for node, it in enumerate(self.net.least(one), 1))
        return text.encode()

    def written(self, *what, **words):
        out = io.BytesIO()
        report.write(out, *what, **words)
        return out.getvalue()

    def test_answers(self):
        starts = [(3, 10), (9, 0), (3, 200)]
        self.assertEqual(self.written(self.road.search(*zip(*starts))), self.wanted(starts))
        self.assertEqual(self.written(self.road.search(3, 10)), self.wanted(starts[:1]))
        self.assertEqual(self.written(self.road.search([3, 9], [10, 0], joint=True)), self.wanted(starts[:2], True))
        self.assertEqual(self.written(self.road.search([], joint=True)), self.wanted([], True))
        self.assertEqual(self.written(report.problems(self.wanted(starts))), self.wanted(starts))
        self.assertEqual(self.written(self.road.named(range(40)).search(2, 10)), self.wanted(starts[:1]))

    def test_walks(self):
        sources = [3, 9, 12]
        text = self.written(self.road.search(sources, 40), walks=True)
        self.assertIsNone(self.road.check(sources, text, 40))
        self.assertEqual(b"".join(it for it in text.splitlines(True) if not it.startswith(b"w")), self.wanted([(it, 40) for it in sources]))
        self.assertEqual(text.count(b"\nw "), sum(it != NEVER for source in sources for it in self.net.least([(source, 40)])))
        self.assertEqual(self.written(self.road.search(3, 40), walks=True), text[: text.index(b"s 9 ")])
        with open(os.path.join(plain.EXAMPLES, "four-nodes.gr"), "rb") as file:
            self.assertEqual(self.written(earliest.Road.read(file).search([1]), walks=True), plain.read_example("four-nodes.walks.report"))

    def test_the_town_s_report(self):
        town = earliest.Road.read(os.path.join(plain.EXAMPLES, "commuter.gr"), os.path.join(plain.EXAMPLES, "commuter.tp"))
        self.assertEqual(self.written(town.search([225], 27600)), plain.read_example("commuter.report"))

    def test_a_file_is_whole_or_not_there(self):
        with tempfile.TemporaryDirectory() as room:
            path = os.path.join(room, "report")
            report.write(path, self.road.search([3], 10))
            with open(path, "rb") as file:
                self.assertEqual(file.read(), self.wanted([(3, 10)]))
            os.chmod(path, 0o600)

            def cut():
                yield from report.problems(self.wanted([(9, 0)]))
                raise ValueError("no more")

            self.told(ValueError, "no more", lambda: report.write(path, cut()))
            with open(path, "rb") as file:
                self.assertEqual((file.read(), os.listdir(room)), (self.wanted([(3, 10)]), ["report"]))
            report.write(path, self.road.search([9]))
            with open(path, "rb") as file:
                self.assertEqual((file.read(), os.listdir(room), os.stat(path).st_mode & 0o777), (self.wanted([(9, 0)]), ["report"], 0o600))
            with self.assertRaises(FileNotFoundError):
                report.write(os.path.join(room, "nothing", "report"), self.road.search([9]))

    def test_links_devices_and_descriptors(self):
        """A link stays a link, and a device or a descriptor is written to: what a log has already stays there."""
        with tempfile.TemporaryDirectory() as room:
            path, link, log, long = (os.path.join(room, name) for name in ("report", "link", "log", "x" * 255))
            os.symlink(path, link)
            report.write(link, self.road.search([3], 10))
            report.write(long, self.road.search([3], 10))
            for name in (path, long):
                with open(name, "rb") as file:
                    self.assertEqual(file.read(), self.wanted([(3, 10)]))
            self.assertTrue(os.path.islink(link))
            # A wrong body must not harm the system that the tests run on, as root perhaps: nothing in /dev or /proc is replaced.
            text = "import os, sys\n" \
                   "from earliest import report\n" \
                   "def guarded(call):\n" \
                   "    def guard(part, to, *more, **words):\n" \
                   "        if os.path.abspath(to).startswith(('/dev/', '/proc/')):\n" \
                   "            raise SystemExit(f'{to} would be replaced')\n" \
                   "        return call(part, to, *more, **words)\n" \
                   "    return guard\n" \
                   "os.replace, os.rename = guarded(os.replace), guarded(os.rename)\n" \
                   "report.write(sys.argv[1], report.read(sys.argv[2]))\n"
            wrote = lambda to, **more: subprocess.run([sys.executable, "-c", text, to, path], stderr=subprocess.PIPE, text=True, timeout=30, **more)
            for to in ("/dev/stdout", "/dev/fd/1", "/proc/self/fd/1"):
                with open(log, "wb") as out:
                    out.write(b"c a log\n")
                with open(log, "ab") as out:
                    self.assertEqual(wrote(to, stdout=out).stderr, "")
                with open(log, "rb") as file:
                    self.assertEqual(file.read(), b"c a log\n" + self.wanted([(3, 10)]))
            self.assertEqual(wrote("/dev/null").stderr, "")
            pipe = os.path.join(room, "pipe")
            os.mkfifo(pipe)
            reader = subprocess.Popen(["cat", pipe], stdout=subprocess.PIPE)
            try:
                self.assertEqual(wrote(pipe).stderr, "")
                self.assertTrue(stat.S_ISFIFO(os.stat(pipe).st_mode))
                self.assertEqual(reader.communicate(timeout=30)[0], self.wanted([(3, 10)]))
            finally:
                reader.kill()
                reader.wait()
                os.unlink(pipe)
            with self.assertRaises(OSError):
                report.write(room, self.road.search([3]))
            self.assertEqual(sorted(os.listdir(room)), ["link", "log", "report", "x" * 255])

    @needs("numpy")
    def test_arrays(self):
        made = report.Report(sources=numpy.array([1]), departures=numpy.array([7]), nodes=numpy.array([1, 2]), arrivals=numpy.array([[7, NEVER]], dtype="uint64"))
        self.assertEqual(self.written(made), b"s 1 7\nd 1 7\nd 2 inf\n")
        found = report.read(self.wanted([(3, 10), (9, 0)]))
        self.assertEqual((found.arrivals.dtype, found.arrivals.shape, found.nodes.dtype, found.sources.dtype, found.departures.dtype), (numpy.dtype("uint64"), (2, 40), numpy.dtype("uint32"), numpy.dtype("uint32"), numpy.dtype("uint64")))

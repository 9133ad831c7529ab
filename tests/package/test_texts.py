"""Texts of all kinds: paths, open files, bytes, packed by gzip; faults with their file and line; NUL bytes."""
import gzip
import io
import os
import pathlib
import tempfile

import earliest
import plain
from test_engine import Case, flat

NET = plain.network(31)
WANT = NET.least([(2, 100)])


class Reads(Case):
    def setUp(self):
        self.room = tempfile.TemporaryDirectory()

    def tearDown(self):
        self.room.cleanup()

    def file(self, name, text):
        path = os.path.join(self.room.name, name)
        with open(path, "wb") as file:
            file.write(text)
        return path

    def test_ways_to_read(self):
        gr, tp = NET.gr(), NET.tp()
        paths = self.file("x.gr", gr), self.file("x.tp", tp)
        packed = self.file("x.gr.gz", gzip.compress(gr)), self.file("x.tp.gz", gzip.compress(tp))
        twice = self.file("two.gr.gz", gzip.compress(gr[:200]) + gzip.compress(gr[200:]))
        for one, other in (paths, packed, (gr, tp), (gzip.compress(gr), gzip.compress(tp)), (pathlib.Path(paths[0]), pathlib.Path(packed[1])), (paths[0], tp), (bytearray(gr), memoryview(tp)), (io.BytesIO(gr), io.BytesIO(tp)),
                           (io.StringIO(gr.decode()), io.StringIO(tp.decode())), (twice, packed[1]), (paths[0], io.BytesIO(gzip.compress(tp)))):
            road = earliest.Road.read(one, other)
            self.assertEqual((road.nodes, road.arcs, flat(road.search(2, 100).arrivals)), (40, 120, WANT))
        with open(paths[0], "rb") as one, gzip.open(packed[1], "rb") as other:
            self.assertEqual(flat(earliest.Road.read(one, other).search(2, 100).arrivals), WANT)
        self.assertEqual(flat(earliest.Road(gzip.compress(gr), gzip.compress(tp)).search(2, 100).arrivals), WANT)
        self.assertNotEqual(flat(earliest.Road.read(paths[0]).search(2, 100).arrivals), WANT)

    def test_faults_have_their_file(self):
        right, ill = self.file("right.gr", NET.gr()), b"p sp 2 2\na 1 2 5\na 1 3 5\n"
        path, packed, tp = self.file("ill.gr", ill), self.file("ill.gr.gz", gzip.compress(ill)), self.file("ill.tp", b"p tp 1 0\nk 1 every 0 0\n")
        for call, file, line, number, value in ((lambda: earliest.Road.read(path), path, 3, 6, "a 1 3 5"), (lambda: earliest.Road.read(pathlib.Path(path)), path, 3, 6, "a 1 3 5"), (lambda: earliest.Road.read(packed), packed, 3, 6, "a 1 3 5"),
                                                (lambda: earliest.Road.read(ill), "gr", 3, 6, "a 1 3 5"), (lambda: earliest.Road.read(io.BytesIO(ill)), "gr", 3, 6, "a 1 3 5"), (lambda: earliest.Road.read(right, tp), tp, 2, 6, "k 1 every 0 0"),
                                                (lambda: earliest.Road.read(right, b""), "tp", 0, 1, None), (lambda: earliest.Road.read(b""), "gr", 0, 1, None), (lambda: earliest.Road(ill, None, ("mine.gr", "mine.tp")), "mine.gr", 3, 6, "a 1 3 5")):
            with self.assertRaises(earliest.InputFailure) as caught:
                call()
            it = caught.exception
            self.assertEqual((it.file, it.line, it.number, it.value), (file, line, number, value))
            self.assertTrue(str(it).startswith(f"{file} {line}: {number} {it.name}: "), str(it))
        with open(path, "rb") as file, self.assertRaises(earliest.InputFailure) as caught:
            earliest.Road.read(file)
        self.assertEqual(caught.exception.file, path)

    def test_nul_bytes(self):
        """A text continues behind a NUL byte: an arc there is an arc, and a fault there is one."""
        self.assertEqual(flat(earliest.Road(b"p sp 2 1\nc \0 a comment\na 1 2 3\n").search(1).arrivals), [0, 3])
        self.assertEqual(flat(earliest.Road(b"p sp 2 1\na 1 2 3\n", b"p tp 1 1\nc\0\nk 1 every 10 4\nt 1 1\n").search(1).arrivals), [0, 7])
        for text, line, number in ((b"p sp 2 1\na 1 2 3\n\0\n", 3, 3), (b"p sp 2 1\na 1 2 3\0\n", 2, 5), (b"p sp 2 1\n\0a 1 2 3\n", 2, 3)):
            with self.assertRaises(earliest.InputFailure) as caught:
                earliest.Road(text)
            self.assertEqual((caught.exception.line, caught.exception.number), (line, number))
        with self.assertRaises(earliest.InputFailure) as caught:
            earliest.Road(plain.FOUR).check([1], b"s 1 0\nd 1 0\nd 2 5\nd 3 2\nd 4 6\n\0\n")
        self.assertEqual((caught.exception.line, caught.exception.number), (6, 31))
        self.assertIsNone(earliest.Road(plain.FOUR).check([1], b"c\0\ns 1 0\nd 1 0\nd 2 5\nd 3 2\nd 4 6\n"))

    def test_refusals(self):
        for value in (None, 5, 1.5, ["x.gr"]):
            self.told(TypeError, "has to be a path, bytes or a file", lambda: earliest.Road.read(value))
        for value in ("p sp 1 0\n", None, 5):
            self.told(TypeError, "has to be bytes", lambda: earliest.Road(value))
        self.told(TypeError, "has to be bytes", lambda: earliest.Road(b"p sp 1 0\n", "p tp 0 0\n"))
        self.told(TypeError, "has to be bytes", lambda: earliest.Road.of_arcs(1, [], [], [], [], "p tp 0 0\n"))
        self.told(TypeError, "passed as bytes", lambda: earliest.Road.read("p sp 1 0\na 1 1 1\n"))
        with self.assertRaises(FileNotFoundError):
            earliest.Road.read(os.path.join(self.room.name, "x.gr"))
        with self.assertRaises(IsADirectoryError):
            earliest.Road.read(self.room.name)
        for text in (gzip.compress(NET.gr())[:-20], b"\x1f\x8bnothing", gzip.compress(NET.gr())[:30] + b"x" * 40):
            path = self.file("ill.gr.gz", text)
            self.told(OSError, f"{path} is packed by gzip, and can't be unpacked", lambda: earliest.Road.read(path))
            self.told(OSError, "gr is packed by gzip", lambda: earliest.Road(text))

    def test_a_caller_s_text_that_changes(self):
        text = bytearray(plain.FOUR)
        road = earliest.Road.read(text)
        text[:] = b"x" * len(text)
        import pickle

        self.assertEqual(flat(pickle.loads(pickle.dumps(road)).search(1).arrivals), [0, 5, 2, 6])

    def test_a_library_that_is_not_there(self):
        """Nothing is loaded before the first call, which says what is missing."""
        import subprocess
        import sys

        for library, told in (("/nothing/libearliest.so", "run `make lib` in the repository"), (self.file("ill.so", b"nothing"), "can't be loaded")):
            text = "import earliest, earliest.report\nprint(earliest.__version__)\ntry: earliest.Road(b'p sp 1 0\\n')\nexcept ImportError as error: print(error)\n"
            ran = subprocess.run([sys.executable, "-c", text], env={**os.environ, "EARLIEST_LIBRARY": library}, capture_output=True, text=True)
            self.assertEqual((ran.returncode, ran.stderr, ran.stdout.split("\n")[0]), (0, "", earliest.__version__))
            self.assertIn(told, ran.stdout)
            self.assertIn(library, ran.stdout)

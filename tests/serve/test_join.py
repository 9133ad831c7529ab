"""The joiner: parts that are whole make the report of the whole, to the byte; each part that failed or is missing is refused."""
import os
import shutil
import subprocess
import sys
import tempfile
import unittest

from served import LONG, example, program


def python(*words):
    ran = subprocess.run([sys.executable, "-m", "earliest", *words], stdin=subprocess.DEVNULL, capture_output=True, text=True, timeout=LONG)
    return ran.returncode, ran.stderr


class Join(unittest.TestCase):
    @classmethod
    def setUpClass(cls):
        cls.made = tempfile.TemporaryDirectory(prefix="join-")
        cls.words = ("--tp", example("commuter.tp"))
        cls.sources = os.path.join(cls.made.name, "x.ss")
        with open(cls.sources, "w", encoding="ascii") as file:
            file.write("p aux sp ss 7\n" + "".join(f"s {node}\n" for node in (225, 1, 30, 225, 7, 300, 12)))
        cls.whole = program("run", example("commuter.gr"), cls.sources, *cls.words, "--depart", "29000", "--gap", "60", "--walks")
        folder = os.path.join(cls.made.name, "parts")
        assert python("parts", cls.sources, "3", folder, "--depart", "29000", "--gap", "60") == (0, "")
        with open(os.path.join(folder, "parts.txt"), encoding="ascii") as file:
            cls.parts = [line.split() for line in file]
        for part, depart, gap in cls.parts:
            program("run", example("commuter.gr"), part, *cls.words, "--depart", depart, "--gap", gap, "--walks", "-o", part + ".report")

    @classmethod
    def tearDownClass(cls):
        cls.made.cleanup()

    def setUp(self):
        self.room = tempfile.TemporaryDirectory(prefix="join-")
        self.folder = os.path.join(self.room.name, "parts")
        # A copy elsewhere: parts.txt has the paths of the folder that was cut into.
        shutil.copytree(os.path.join(self.made.name, "parts"), self.folder)
        self.list, self.out = os.path.join(self.folder, "parts.txt"), os.path.join(self.room.name, "report")
        text = open(self.list, encoding="ascii").read().replace(self.made.name, self.room.name)
        with open(self.list, "w", encoding="ascii") as file:
            file.write(text)

    def tearDown(self):
        self.room.cleanup()

    def path(self, name):
        return os.path.join(self.folder, name)

    def refused(self, said, *words):
        status, told = python("join", self.list, self.out, *words)
        self.assertEqual((status, os.path.exists(self.out)), (1, False), told)
        self.assertIn(said, told)
        self.assertNotIn("Traceback", told)

    def edited(self, name, change):
        with open(self.path(name), encoding="ascii") as file:
            text = file.read()
        new = change(text)
        self.assertNotEqual(new, text)
        with open(self.path(name), "w", encoding="ascii") as file:
            file.write(new)

    def test_the_whole(self):
        self.assertEqual(python("join", self.list, self.out), (0, ""))
        with open(self.out, encoding="ascii") as file:
            self.assertEqual(file.read(), self.whole)
        self.assertEqual(sorted(os.listdir(self.room.name)), ["parts", "report"])

    def test_pairs(self):
        pairs, folder = self.path("x.p2p"), self.path("cut")
        with open(pairs, "w", encoding="ascii") as file:
            file.write("p aux sp p2p 5\n" + "".join(f"q {one} {other}\n" for one, other in ((225, 236), (1, 300), (9, 9), (300, 1), (225, 236))))
        self.assertEqual(python("parts", pairs, "2", folder, "--depart", "29000", "--gap", "60"), (0, ""))
        with open(os.path.join(folder, "parts.txt"), encoding="ascii") as file:
            for part, depart, gap in map(str.split, file):
                program("pairs", example("commuter.gr"), part, *self.words, "--depart", depart, "--gap", gap, "-o", part + ".report")
        self.assertEqual(python("join", os.path.join(folder, "parts.txt"), self.out), (0, ""))
        with open(self.out, encoding="ascii") as file:
            self.assertEqual(file.read(), program("pairs", example("commuter.gr"), pairs, *self.words, "--depart", "29000", "--gap", "60"))

    def test_a_report_is_missing(self):
        os.unlink(self.path("2.ss.report"))
        self.refused("2.ss has no report")
        self.refused("1 of 3 parts have to run again")

    def test_a_report_ends_early(self):
        for cut in (lambda text: text[:-1], lambda text: text[: len(text) // 2], lambda text: text[: text.index("\nd 100 ") + 1], lambda text: ""):
            with self.subTest():
                self.setUp()
                self.edited("3.ss.report", cut)
                self.refused("3.ss.report is not the report of")

    def test_the_only_problem_of_a_part_ends_early(self):
        folder = self.path("cut")
        self.assertEqual(python("parts", self.sources, "7", folder, "--depart", "29000", "--gap", "60"), (0, ""))
        self.list = os.path.join(folder, "parts.txt")
        with open(self.list, encoding="ascii") as file:
            for part, depart, gap in map(str.split, file):
                program("run", example("commuter.gr"), part, *self.words, "--depart", depart, "--gap", gap, "--walks", "-o", part + ".report")
        self.edited("cut/4.ss.report", lambda text: text[: text.index("d 100 ")])
        self.refused("4.ss has 99 arrivals")

    def test_a_report_of_another_part(self):
        shutil.copy(self.path("1.ss.report"), self.path("2.ss.report"))
        self.refused("2.ss.report is not the report of")
        self.edited("1.ss.report", lambda text: text.replace("s 225 29000", "s 225 29001"))
        self.refused("1.ss.report is not the report of")

    def test_a_line_too_much(self):
        self.edited("1.ss.report", lambda text: text + "d 300 12\n")
        self.refused("arrivals")
        self.setUp()
        self.edited("1.ss.report", lambda text: text + "c searches 3\n")
        self.refused("it has the line `c searches 3`")

    def test_a_status(self):
        for name in ("1.ss.status", "2.ss.status"):
            with open(self.path(name), "w", encoding="ascii") as file:
                file.write("0\n" if name.startswith("1") else "3\n")
        self.refused("2.ss failed")

    def test_a_joblog(self):
        head = "Seq\tHost\tStarttime\tJobRuntime\tSend\tReceive\tExitval\tSignal\tCommand\n"

        def log(*rows):
            path = self.path("log")
            with open(path, "w", encoding="ascii") as file:
                file.write(head + "".join(f"{at}\t:\t1.0\t0.1\t0\t0\t{status}\t{killed}\tearliest run x.gr {self.path(part)} -o {self.path(part)}.report\n" for at, (part, status, killed) in enumerate(rows, 1)))
            return path

        good = [("1.ss", 0, 0), ("2.ss", 0, 0), ("3.ss", 0, 0)]
        self.refused("2.ss failed: exit status 2, signal 0", "--joblog", log(good[0], ("2.ss", 2, 0), good[2]))
        self.refused("2.ss failed: exit status 0, signal 9", "--joblog", log(good[0], ("2.ss", 0, 9), good[2]))
        self.refused("3.ss failed: it has no line in the log", "--joblog", log(*good[:2]))
        # The last run of a part counts.
        self.assertEqual(python("join", self.list, self.out, "--joblog", log(("2.ss", 1, 0), *good)), (0, ""))

    def test_wrong_lists(self):
        for text in ("", "1.ss 0\n", "1.ss x 0\n"):
            with open(self.list, "w", encoding="ascii") as file:
                file.write(text)
            self.refused("parts.txt")

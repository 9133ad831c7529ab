"""The commands of `python -m earliest`."""
import contextlib
import io
import os
import subprocess
import sys
import tempfile

import plain
from earliest import __main__ as commands
from earliest import parts
from test_engine import Case


def ran(*words, cwd=None, env=None, **more):
    run = subprocess.run([sys.executable, "-m", "earliest", *words], cwd=cwd, capture_output=True, text=True, timeout=60, env={**os.environ, **(env or {})}, **more)
    return run.returncode, run.stdout, run.stderr


class Table(Case):
    def test_help(self):
        status, out, said = ran("--help")
        self.assertEqual((status, said), (0, ""))
        listed = [line.split()[0] for line in out.splitlines() if line.startswith("  ")]
        self.assertEqual(listed, [name for name in commands.COMMANDS if commands.source_of(commands.COMMANDS[name])])
        self.assertIn("parts", listed)
        self.assertIn("Cuts a file of sources", out)
        for name in listed:
            with open(commands.source_of(commands.COMMANDS[name]), encoding="utf-8") as file:
                self.assertTrue(commands.help_line(file.name), name)
        self.assertEqual(ran("-h"), (0, out, ""))
        self.assertEqual(ran(), (2, "", out))

    def test_version(self):
        import earliest

        self.assertEqual(ran("--version"), (0, earliest.__version__ + "\n", ""))

    def test_no_such_command(self):
        status, out, said = ran("nothing")
        self.assertEqual((status, out, said.startswith("earliest: there is no command nothing; there are parts")), (2, "", True))

    def test_names(self):
        self.assertLessEqual({"parts", "osm", "gtfs", "sumo", "functions", "nearest", "isochrones"}, set(commands.COMMANDS))
        for name, module in commands.COMMANDS.items():
            self.assertEqual(module, f"earliest.{name}")

    def test_a_module_that_is_not_there(self):
        """A command without its module is left out of the list, and is no command."""
        commands.COMMANDS["absent"] = "earliest.absent"
        try:
            self.assertNotIn("absent", commands.usage())
            with contextlib.redirect_stderr(io.StringIO()) as said:
                self.assertEqual(commands.main(["absent"]), 2)
            self.assertIn("no command absent", said.getvalue())
        finally:
            del commands.COMMANDS["absent"]

    def test_the_library_is_not_needed(self):
        with tempfile.TemporaryDirectory() as room:
            self.assertEqual(ran("parts", os.path.join(plain.EXAMPLES, "road.ss"), "2", room, env={"EARLIEST_LIBRARY": "/nothing"}), (0, "", ""))

    def test_status_and_closed_pipe(self):
        for words, status in ((["parts", "--help"], 0), (["parts"], 2), (["parts", "/nothing", "1", "/nothing"], 1)):
            self.assertEqual(ran(*words)[0], status)
        for unbuffered in ([], ["-u"]):
            reader, writer = os.pipe()
            os.close(reader)
            try:
                run = subprocess.run([sys.executable, *unbuffered, "-m", "earliest", "--help"], stdout=writer, stderr=subprocess.PIPE, text=True)
            finally:
                os.close(writer)
            self.assertEqual((run.returncode, run.stderr), (4, ""))


class Parts(Case):
    def setUp(self):
        self.room = tempfile.TemporaryDirectory()

    def tearDown(self):
        self.room.cleanup()

    def cut(self, name, text, *words):
        """The parts of a text: the lines of each, and those of parts.txt."""
        path, folder = os.path.join(self.room.name, name), os.path.join(self.room.name, "parts")
        with open(path, "w", encoding="ascii") as file:
            file.write(text)
        with contextlib.redirect_stderr(io.StringIO()) as said:
            status = parts.main([path, words[0], folder, *words[1:]])
        if status:
            return status, said.getvalue().replace(self.room.name + os.sep, "")
        with open(os.path.join(folder, "parts.txt"), encoding="ascii") as file:
            told = [line.split() for line in file]
        texts = []
        for name, *_ in told:
            with open(name, encoding="ascii") as file:
                texts.append(file.read())
        return texts, [[os.path.basename(it[0]), *it[1:]] for it in told]

    def test_sources(self):
        text = "c sources\np aux sp ss 5\ns 1\n\ncx 7\ns 2\ns\t3\nc\ns 4\ns 5\n"
        self.assertEqual(self.cut("x.ss", text, "2", "--depart", "100", "--gap", "7"), (["p aux sp ss 2\ns 1\ns 2\n", "p aux sp ss 3\ns 3\ns 4\ns 5\n"], [["1.ss", "100", "7"], ["2.ss", "114", "7"]]))

    def test_pairs(self):
        text = "p aux sp p2p 3\nq 1 2\nq 3 4\nq 5 6\n"
        self.assertEqual(self.cut("x.p2p", text, "3", "--gap", "1"), (["p aux sp p2p 1\nq 1 2\n", "p aux sp p2p 1\nq 3 4\n", "p aux sp p2p 1\nq 5 6\n"], [["1.p2p", "0", "1"], ["2.p2p", "1", "1"], ["3.p2p", "2", "1"]]))

    def test_none(self):
        self.assertEqual(self.cut("x.ss", "p aux sp ss 0\n", "1"), (["p aux sp ss 0\n"], [["1.ss", "0", "0"]]))

    def test_answers_of_parts(self):
        """The answers of the parts at their own departures are those of the whole."""
        import earliest

        net = plain.network(61)
        road = earliest.Road(net.gr(), net.tp())
        sources = [7, 1, 30, 7, 22]
        texts, told = self.cut("x.ss", "p aux sp ss 5\n" + "".join(f"s {it}\n" for it in sources), "3", "--depart", "50", "--gap", "35")
        found = []
        for text, (_, depart, gap) in zip(texts, told):
            own = [int(line.split()[1]) for line in text.splitlines() if line.startswith("s")]
            found += [list(it.arrivals) for it in road.search(own, [int(depart) + at * int(gap) for at in range(len(own))])]
        self.assertEqual(found, [net.least([(source, 50 + at * 35)]) for at, source in enumerate(sources)])

    def test_refusals(self):
        for text, words, told in (("p aux sp ss 1\ns 1\n", ["2"], "parts: 1 lines can't be cut into 2 parts\n"), ("p aux sp ss 1\ns 1\n", ["0"], "parts: 1 lines can't be cut into 0 parts\n"), ("p sp 1 0\n", ["1"], "parts: x, line 1: the first line is to be `p aux sp ss N` or `p aux sp p2p N`\n"),
                                  ("", ["1"], "parts: x: there is no problem line\n"), ("p aux sp ss 2\ns 1\ns 2\n", ["1", "--depart", str(plain.HORIZON), "--gap", "1"], f"parts: the last departure is above {plain.HORIZON}\n"),
                                  ("p aux sp ss 0\n", ["1", "--gap", "-1"], "parts: --depart and --gap are at least 0\n")):
            self.assertEqual(self.cut("x", text, *words), (1, told))
        with contextlib.redirect_stderr(io.StringIO()) as said:
            self.assertEqual(parts.main([os.path.join(plain.EXAMPLES, "road.ss"), "2", os.path.join(plain.EXAMPLES, "road.ss", "parts")]), 1)
        self.assertTrue(said.getvalue().startswith("parts: ") and said.getvalue().count("\n") == 1)

"""What the program has to do on words and files: its status, its output, what it says and which file it leaves. All of it comes from
docs/guide/commands.md, from the readers of reading.py and from the reference."""
import re

import reading
import verdicts
from reference import HORIZON, Road, report_of_pairs, report_of_run

# The files of each command, in the order of its words, and its options by the table of the guide.
COMMANDS = {"run": ("gr", "ss"), "pairs": ("gr", "p2p"), "rank": ("gr", "ss"), "check": ("gr", "ss", "report")}
MOST_NAMES = {**{command: len(names) for command, names in COMMANDS.items()}, "explain": 1, "formats": 0}
VALUED = {
    "tp": "run pairs rank check", "depart": "run pairs rank check", "departs": "run pairs check", "arrive": "run pairs check", "arrives": "run pairs check",
    "gap": "run pairs rank check", "nodes": "run", "workers": "run pairs rank", "at-once": "run pairs", "batch": "run pairs", "heaps": "run pairs rank",
    "turns": "run pairs", "seed": "run pairs rank", "prepare": "pairs", "output": "run pairs rank",
}
FLAGS = {"joint": "run check", "walks": "run pairs", "stats": "run pairs", "progress": "run pairs rank check", "explain": "run pairs rank check"}
LIMITS = {
    "depart": (0, HORIZON), "arrive": (0, HORIZON), "gap": (0, HORIZON), "workers": (1, 16), "at-once": (1, 16), "batch": (1, 64), "heaps": (2, 8),
    "turns": (0, 10**9), "seed": (0, 2**64 - 1),
}
FAULTS = [*map(str, range(1, 16)), "check 1", "check 2", "check 3", "check 5"]
FAULT_NAMES = [*reading.NAMES.values(), "TooLarge", "ReadFailed", "WriteFailed", "OutOfMemory", "BadOption", "OpenFailed", *verdicts.NAMES.values()]
# A larger network isn't searched by the reference.
MOST_NODES = 20_000
FOLDER = None
"""What stands for a folder among the files."""
BUILT_IN = b"s 1 0\nd 1 0\nd 2 5\nd 3 2\nd 4 6\n"

# Lines of --explain, lines of --progress, and the totals of --stats.
LINES = rb"(?:[^\n]*\n){0,2}"
PROGRESS = rb"(?:earliest: [^\n]* s\n|earliest: prepar[^\n]*\n)*"
TOTALS = b"".join(rb"c %b [0-9]+\n" % name for name in b"seeded pushed popped stale scanned returned drained finish".split())


class TooLarge(Exception):
    """The files ask for more than the reference can answer."""


class Refused(Exception):
    """The command line refuses its words."""


class Shown(Exception):
    """A text is asked for, as help."""


class Ended(Exception):
    """The command ends with a status and a line."""

    def __init__(self, status, line):
        self.status, self.line = status, line.encode()
        super().__init__(line)


class Wanted:
    """What has to come out: the status, standard output as bytes or a pattern, standard error as a pattern, and the file that is written with
    its content. `totals` says that lines of --stats follow the output."""

    def __init__(self, status, out=b"", err=rb"", file=None, totals=False):
        self.status, self.out, self.err, self.file, self.totals = status, out, err, file, totals

    def fault(self, status, out, err):
        """What is wrong with an outcome; None if nothing is."""
        if self.totals:
            found = re.search(TOTALS + rb"\Z", out)
            if not found:
                return "the output doesn't end with the eight totals"
            out = out[: found.start()]
        if status is None:
            return "the run doesn't end"
        if status != self.status:
            return f"the status is {status}, and {self.status} is right"
        if not (self.out.fullmatch(out) if isinstance(self.out, re.Pattern) else out == self.out):
            return f"standard output is {out[:600]!r}, and right is {getattr(self.out, 'pattern', self.out)[:600]!r}"
        if not re.fullmatch(self.err, err):
            return f"standard error is {err[:600]!r}, and right is {self.err!r}"
        return None


REFUSED = Wanted(2, b"", rb"error: [^\n]+\n(?:[^\x00-\x08\x0b-\x1f]*\n)?")
HELP = Wanted(0, re.compile(rb"[^\x00-\x08\x0b-\x1f]+\n"))


def parsed(command, words):
    """The files and options among a command's words: `-` and what follows `--` are names of files, and an option has its value behind it or
    behind `=`."""
    names, options, rest = [], {}, list(words)
    only_names = False
    while rest:
        word = rest.pop(0)
        if only_names or word == "-" or not word.startswith("-"):
            names.append(word)
            if len(names) > MOST_NAMES[command]:
                raise Refused(f"one name too many: {word}")
            continue
        if word == "--":
            only_names = True
            continue
        if word.startswith("--"):
            name, has_value, value = word[2:].partition("=")
        else:
            name, value = {"o": "output", "h": "help"}.get(word[1], ""), word[2:]
            has_value, value = bool(value) and name != "help", value[1:] if value.startswith("=") else value
        if name == "help" and not has_value:
            raise Shown()
        if command not in {**VALUED, **FLAGS}.get(name, "").split() or name in options or (name in FLAGS and has_value):
            raise Refused(word)
        if name in VALUED and not has_value:
            if not rest or (rest[0].startswith("-") and rest[0] != "-"):
                raise Refused(f"{word} has no value")
            value = rest.pop(0)
        options[name] = value
    if len(names) < len(COMMANDS.get(command, ())):
        raise Refused("a name is missing")
    return names, options


class Model:
    """The program beside files: a dict of their contents by name, FOLDER for a folder."""

    def __init__(self, files, read_before=None):
        """`read_before` has what was read of texts, which serves again."""
        self.files, self.read_before = {**files, ".": FOLDER}, {} if read_before is None else read_before

    def wanted(self, words, given=b""):
        """What has to come out. `given` is standard input."""
        try:
            return self._asked(words, given)
        except Refused:
            return REFUSED
        except Shown:
            return HELP

    def _asked(self, words, given):
        if not words:
            return Wanted(0, BUILT_IN)
        head, rest = words[0], words[1:]
        if head in ("-h", "--help", "-V", "--version"):
            raise Shown()
        if head == "help":
            if len(rest) > 1 or (rest and rest[0] not in (*COMMANDS, "explain", "formats", "help")):
                raise Refused(f"no command {rest}")
            raise Shown()
        if head not in MOST_NAMES:
            raise Refused(f"no command {head}")
        names, options = parsed(head, rest)
        if head not in COMMANDS:
            if names and names[0] not in FAULTS and names[0].lower() not in [name.lower() for name in FAULT_NAMES]:
                raise Refused(f"no fault {names}")
            raise Shown()
        more = LINES if "explain" in options else b""
        try:
            return self._command(head, dict(zip(COMMANDS[head], names)), options, given)
        except Ended as end:
            return Wanted(end.status, b"", re.escape(end.line) + more)

    def _command(self, command, names, options, given):
        values = self._values(options)
        named = {"tp": "tp", "departs": "times", "arrives": "times", "nodes": "nodes"}
        names = {**names, **{word: options[name] for name, word in named.items() if name in options}}
        order = [word for word in ("gr", "ss", "p2p", "tp", "times", "nodes", "report") if word in names]
        if [names[word] for word in order].count("-") > 1:
            raise Ended(2, "earliest: 14 BadOption\n")
        for word in order:
            if names[word] != "-" and names[word] not in self.files:
                raise Ended(4, f"earliest: {word}: 15 OpenFailed\n")
        output = options.get("output", "-")
        if output != "-" and (output == "" or "/" in output or self.files.get(output, b"") is FOLDER):
            raise Ended(4, "earliest: out: 15 OpenFailed\n")
        texts = {word: given if names[word] == "-" else self.files[names[word]] for word in order}
        return self._answered(command, texts, order, options, values, output)

    def _values(self, options):
        """The numbers of the options, with 0 for departures; they may contradict each other."""
        bad = Ended(2, "earliest: 14 BadOption\n")
        values = {"depart": 0, "gap": 0}
        for name, (least, most) in LIMITS.items():
            if name in options:
                value = reading.number_of(options[name].encode("utf-8", "surrogateescape"))
                if value is None or not least <= value <= most:
                    raise bad
                values[name] = value
        if options.get("prepare", "yes") not in ("yes", "no"):
            raise bad
        for exclude in (("depart", "departs", "arrive", "arrives"), ("departs", "arrives", "gap")):
            if sum(name in options for name in exclude) > 1:
                raise bad
        values["depart"] = values.get("arrive", values["depart"])
        return values

    def _read(self, word, text, reader, *words):
        """The value of a text, or the line of its fault."""
        if text is FOLDER:
            raise Ended(4, f"earliest: {word}: 11 ReadFailed\n")
        key = word, text, words
        if key not in self.read_before:
            try:
                self.read_before[key] = reader(text, *words)
            except reading.Fault as fault:
                self.read_before[key] = Ended(1, f"earliest: {word} {fault}\n")
        value = self.read_before[key]
        if isinstance(value, Ended):
            raise value
        return value

    def _network(self, gr):
        nodes, arcs = self._read("gr", gr, reading.network)
        if nodes > MOST_NODES:
            raise TooLarge()
        return nodes, arcs

    def _road(self, texts):
        """The road of the texts, the same one for the same texts."""
        nodes, arcs = self._network(texts["gr"])
        kinds, classes = self._read("tp", texts["tp"], reading.timetables, len(arcs)) if "tp" in texts else ((), {})
        key = "road", texts["gr"], texts.get("tp")
        if key not in self.read_before:
            self.read_before[key] = Road(nodes, arcs, kinds, [classes.get(number, 0) for number in range(1, len(arcs) + 1)])
        return self.read_before[key]

    def _when(self, texts, values, count):
        """The times of this many starts."""
        if "times" in texts:
            return self._read("times", texts["times"], reading.times, count)
        return [values["depart"] + at * values["gap"] for at in range(count)]

    def problems(self, question):
        """The problems of a question about net.gr and net.ss, and whether it is turned round."""
        _, options = parsed("run", ["net.gr", "net.ss", *question])
        nodes, _ = self._network(self.files["net.gr"])
        starts = self._read("ss", self.files["net.ss"], reading.sources, nodes)
        texts = {"times": self.files["net.times"]} if {"departs", "arrives"} & set(options) else {}
        problems = list(zip(starts, self._when(texts, self._values(options), len(starts))))
        return [problems] if "joint" in options else [[start] for start in problems], bool({"arrive", "arrives"} & set(options))

    def road(self, question):
        """The road of a question about net.gr, with timetables if it names them."""
        return self._road({"gr": self.files["net.gr"], **({"tp": self.files["net.tp"]} if "--tp" in question else {})})

    def _answered(self, command, texts, order, options, values, output):
        nodes, _ = self._network(texts["gr"])
        starts = self._read(order[1], texts[order[1]], reading.pairs if command == "pairs" else reading.sources, nodes)
        road = self._road(texts)
        turned = "arrive" in options or "arrives" in options
        when = self._when(texts, values, len(starts))
        asked = self._read("nodes", texts["nodes"], reading.sources, nodes) if "nodes" in texts else None
        if texts.get("report", b"") is FOLDER:
            raise Ended(4, "earliest: report: 11 ReadFailed\n")
        if when and when[-1] > HORIZON:
            raise Ended(2, "earliest: 14 BadOption\n")
        problems = list(zip(starts, when))
        if command != "pairs":
            problems = [problems] if "joint" in options else [[start] for start in problems]
        said = PROGRESS if "progress" in options else b""
        if command == "check":
            wrong = verdicts.verdict(road, problems, texts["report"], turned)
            if wrong:
                raise Ended(5, f"earliest: {wrong}\n")
            told = rb"earliest: checked: problems [0-9]+, nodes [0-9]+, walks [0-9]+\n" if "progress" in options or "explain" in options else b""
            return Wanted(0, b"ok\n", said + told)
        if command == "rank":
            out = re.compile(b"".join(rb"s %d %d\nr [0-9]+ [0-9]+ [0-9]+\n" % start for (start,) in problems))
        elif command == "run":
            out = report_of_run(road, problems, turned, "walks" in options, asked)
        else:
            out = report_of_pairs(road, [(*pair, time) for pair, time in problems], turned, "walks" in options)
        totals = "stats" in options
        if output == "-":
            return Wanted(0, out, said, totals=totals)
        return Wanted(0, b"", said, file=(output, Wanted(0, out, totals=totals)))

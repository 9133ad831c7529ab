"""Reports of `earliest run` and `earliest pairs` as arrays: read whole or problem by problem, and written.

    report = earliest.report.read("report")
    report.sources, report.departures    # a place for each problem
    report.nodes                         # a place for each `d` line of a problem
    report.arrivals                      # a row for each problem, NEVER for `inf`
    earliest.report.write("again", report)

A report with `--arrive` tells latest departures: there `targets` and `arrivals` have a place for each problem, and `departures` has the rows. A line
that isn't what its place asks is an InputFailure (31 BadLine) with file and line.
"""
from __future__ import annotations

import array
import contextlib
import gzip
import io
import os
import re
import stat
import zlib
from typing import Any, Dict, Iterator, List, NamedTuple, Optional, Tuple

from . import _numbers, _texts
from ._failures import InputFailure
from ._library import HORIZON, NEVER
from ._numbers import numpy

BLOCK = 1 << 22
MANY = 32
"""How many lines `d` in a row are read at once."""
_END_OF_LINES_D = re.compile(rb"\n(?!d )")
_DIGITS = re.compile(rb"[0-9]+")


class Problem(NamedTuple):
    """One problem of a report. Arrays are those of NumPy, else of the module array."""

    pair: bool
    """Whether it is one of `earliest pairs`: a source and a target."""
    turned: bool
    """Whether it tells latest departures, as with `--arrive`."""
    starts: Any
    """The sources, uint32: one, or several of a joint problem. The targets of a turned problem. Of a pair the source and the target."""
    times: Any
    """When they depart, uint64; when they have to be reached, in a turned problem. Of a pair one time."""
    nodes: Any
    """The nodes of the lines `d`, uint32."""
    values: Any
    """Their arrivals, uint64, or latest departures of a turned problem; NEVER for `inf` and `none`."""
    walks: Optional[List[Any]]
    """The arcs of the line `w` behind each line `d`, uint32, or None if there is no such line; None if the problem has no line `w`."""


class Report:
    """A report. Shapes, for p problems and n lines `d` in each:

    - of `run`: `sources` and `departures` (p,), or (k,) for the k sources of a joint one; `nodes` (n,); `arrivals` (p, n);
    - of `run --arrive`: `targets` and `arrivals` (p,) or (k,); `nodes` (n,); `departures` (p, n);
    - of `pairs`: `sources`, `targets`, `departures` and `arrivals` (p,).

    Nodes are uint32; times are uint64, NEVER for `inf` and `none`. `totals` has the numbers of the lines `c` of `--stats`.
    """

    def __init__(self, pair: bool = False, turned: bool = False, joint: bool = False, sources: Any = None, targets: Any = None, departures: Any = None,
                 arrivals: Any = None, nodes: Any = None, walks: Optional[List[Optional[List[Any]]]] = None, totals: Optional[Dict[str, int]] = None):
        self.pair, self.turned, self.joint = pair, turned, joint
        self.sources, self.targets, self.departures, self.arrivals, self.nodes = sources, targets, departures, arrivals, nodes
        self.walks, self.totals = walks, totals or {}

    def __len__(self):
        """How many problems it has."""
        return len(self.departures if self.turned else self.arrivals)

    def walk(self, problem: int, place: int = 0) -> Optional[Any]:
        """The arcs of the line `w` behind line `d` number `place` of a problem, both counted from 0; None if there is none."""
        of_problem = self.walks[problem] if self.walks else None
        return of_problem[place] if of_problem else None

    def problems(self) -> Iterator[Problem]:
        """Its problems, one after the other."""
        rows, asked = (self.departures, self.arrivals) if self.turned else (self.arrivals, self.departures)
        starts = self.targets if self.turned else self.sources
        for at in range(len(self)):
            walks = self.walks[at] if self.walks else None
            if self.pair:
                node = self.sources[at] if self.turned else self.targets[at]
                yield Problem(True, self.turned, _array("I", [self.sources[at], self.targets[at]]), asked[at : at + 1], _array("I", [node]), rows[at : at + 1], walks)
            elif self.joint:
                yield Problem(False, self.turned, starts, asked, self.nodes, rows[at], walks)
            else:
                yield Problem(False, self.turned, starts[at : at + 1], asked[at : at + 1], self.nodes, rows[at], walks)

    def __repr__(self):
        what = "pairs" if self.pair else "problems"
        return f"<earliest.report.Report of {len(self)} {what}{', latest departures' if self.turned else ''}>"


def _array(code: str, values: Any):
    if numpy is not None:
        return numpy.array(values, dtype=_numbers.TYPES[code])
    return array.array(code, values)


# Reading

def read(source: _texts.Source, walks: bool = True) -> Report:
    """A whole report: of a path, an open file or bytes, packed by gzip or not. Without `walks` lines `w` are passed over."""
    totals: Dict[str, int] = {}
    found = list(problems(source, walks, totals))
    if not found:
        none32, none64 = _array("I", []), _array("Q", [])
        return Report(sources=none32, departures=none64, arrivals=_rows([], none32), nodes=none32, totals=totals)
    first = found[0]
    of_walks = [it.walks for it in found] if any(it.walks for it in found) else None
    report = Report(first.pair, first.turned, not first.pair and len(first.starts) != 1, walks=of_walks, totals=totals)
    if first.pair:
        report.sources, report.targets = (_array("I", [it.starts[at] for it in found]) for at in (0, 1))
        asked, rows = _array("Q", [it.times[0] for it in found]), _array("Q", [it.values[0] for it in found])
    else:
        starts = first.starts if report.joint else _array("I", [it.starts[0] for it in found])
        asked = first.times if report.joint else _array("Q", [it.times[0] for it in found])
        report.nodes, rows = first.nodes, _rows([it.values for it in found], first.nodes)
        if first.turned:
            report.targets = starts
        else:
            report.sources = starts
    report.departures, report.arrivals = (rows, asked) if first.turned else (asked, rows)
    return report


def _rows(rows, nodes):
    if numpy is None:
        return rows
    return numpy.stack(rows) if rows else numpy.empty((0, len(nodes)), dtype=numpy.uint64)


def problems(source: _texts.Source, walks: bool = True, totals: Optional[Dict[str, int]] = None) -> Iterator[Problem]:
    """The problems of a report, one after the other, so that a report of any length takes the memory of one problem. `totals` is filled
    with the numbers of `--stats`, which stand at the end."""
    with contextlib.ExitStack() as stack:
        file, name = _opened(source, stack)
        yield from _Parser(name, walks, totals if totals is not None else {}).problems(file)


def _opened(source, stack) -> Tuple[Any, str]:
    """A file of bytes, without its packing, and its name."""
    file: Any
    if isinstance(source, (bytes, bytearray, memoryview)):
        file, name = io.BytesIO(bytes(source)), "report"
    elif isinstance(source, (str, os.PathLike)):
        name = os.fspath(source)
        file = stack.enter_context(open(name, "rb"))
    elif hasattr(source, "read"):
        name = getattr(source, "name", "report")
        name, file = name if isinstance(name, str) else "report", _Bytes(source)
    else:
        raise TypeError(f"a report has to be a path, bytes or a file that is open for reading, not {type(source).__name__}")
    buffered = stack.enter_context(io.BufferedReader(file, BLOCK)) if not isinstance(file, (io.BytesIO, io.BufferedReader)) else file
    if buffered.peek(2)[:2] == b"\x1f\x8b" if hasattr(buffered, "peek") else buffered.getvalue()[:2] == b"\x1f\x8b":
        return gzip.GzipFile(fileobj=buffered), name
    return buffered, name


class _Bytes(io.RawIOBase):
    """A caller's file as one of bytes; it stays open."""

    def __init__(self, file):
        self.file, self.rest = file, b""

    def readable(self):
        return True

    def readinto(self, room):
        text = self.rest or self.file.read(len(room))
        text = text.encode() if isinstance(text, str) else text
        room[: len(text)], self.rest = text[: len(room)], text[len(room) :]
        return min(len(text), len(room))


class _Parser:
    """Problems of lines."""

    def __init__(self, name: str, walks: bool, totals: Dict[str, int]):
        self.name, self.with_walks, self.totals, self.line = name, walks, totals, 0
        self.first: Optional[Problem] = None
        self._begin(None, False)
        self.any = False

    def _begin(self, pair: Optional[bool], turned: bool):
        """A problem of which nothing is known yet but its kind."""
        self.pair, self.turned = pair, turned
        self.starts: List[int] = []
        self.times: List[int] = []
        self.nodes: List[Any] = []
        self.values: List[Any] = []
        self.lone_nodes: List[int] = []
        self.lone_values: List[int] = []
        self.count, self.after_d = 0, False
        self.walks: List[Any] = []

    def wrong(self, line: bytes):
        shown = line.rstrip(b"\r\n")[:100].decode("utf-8", "backslashreplace")
        return InputFailure(self.name, self.line, 31, shown)

    def problems(self, file) -> Iterator[Problem]:
        for block in _blocks(file, self.name):
            at = 0
            while at < len(block):
                if numpy is not None and block.startswith(b"d ", at):
                    end = _END_OF_LINES_D.search(block, at)
                    stop = end.start() + 1 if end else len(block)
                    if self._many(block[at:stop]):
                        at = stop
                        continue
                stop = block.find(b"\n", at) + 1 or len(block)
                self.line += 1
                line = block[at:stop]
                fields = line.split()
                at = stop
                if not fields or fields[0].startswith(b"c"):
                    self._total(fields)
                elif fields[0] == b"d":
                    self._d(line, fields)
                elif fields[0] == b"w":
                    self._w(line, fields)
                else:
                    done = self._start(line, fields)
                    if done:
                        yield done
        self.line = 0
        done = self._ended()
        if done:
            yield done

    def _total(self, fields):
        if len(fields) == 3 and fields[0] == b"c" and fields[2].isdigit():
            self.totals[fields[1].decode("ascii", "backslashreplace")] = int(fields[2])

    def _number(self, line, field, most):
        if not _DIGITS.fullmatch(field) or len(field.lstrip(b"0")) > 20 or int(field) > most:
            raise self.wrong(line)
        return int(field)

    def _start(self, line, fields) -> Optional[Problem]:
        """A line `s`, `t` or `q`, and the problem that it ends."""
        kinds = {(b"s", 3): (False, False), (b"t", 3): (False, True), (b"q", 4): (True, False), (b"t", 4): (True, True)}
        kind = kinds.get((fields[0], len(fields)))
        if kind is None or (self.any and (bool(self.pair), self.turned) != kind):
            raise self.wrong(line)  # All problems are of one kind.
        done = None
        if self.after_d or kind[0]:
            if self.any and not self.starts:
                raise self.wrong(line)  # A problem without sources is the only one.
            if self.any:
                done = self._ended(line)
            self._begin(*kind)
        self.pair, self.turned, self.any = kind[0], kind[1], True
        for field in fields[1:-1]:
            self.starts.append(self._number(line, field, 2**32 - 1))
        self.times.append(self._number(line, fields[-1], HORIZON))
        return done

    def _may_have_d(self, line):
        """Whether a line `d` may stand here: each pair has one."""
        if self.pair and self.count == 1:
            raise self.wrong(line)
        if self.pair is None:
            self.pair = False
        self.any = self.after_d = True

    def _d(self, line, fields):
        self._may_have_d(line)
        if len(fields) != 3:
            raise self.wrong(line)
        node = self._number(line, fields[1], 2**32 - 1)
        if self.pair and node != self.starts[0 if self.turned else 1]:
            raise self.wrong(line)
        if not self.pair and self.first is not None and (self.count >= len(self.first.nodes) or node != self.first.nodes[self.count]):
            raise self.wrong(line)
        self.lone_nodes.append(node)
        self.lone_values.append(NEVER if fields[2] == (b"none" if self.turned else b"inf") else self._number(line, fields[2], HORIZON))
        self.count += 1

    def _many(self, text: bytes) -> bool:
        """Takes many lines `d` at once, if all of them are plain; else none, and each is looked at by itself."""
        lines = text.count(b"\n")
        if lines < MANY or self.pair or not text.endswith(b"\n"):
            return False
        word = b"none" if self.turned else b"inf"
        nevers = text.count(word)
        plain = text.replace(word, b"%d" % NEVER) if nevers else text
        if plain.count(b"\nd ") != lines - 1 or plain.translate(None, b"0123456789") != b"d  \n" * lines:
            return False
        found = numpy.fromstring(plain.replace(b"d ", b"").decode("ascii"), dtype=numpy.uint64, sep=" ")
        if len(found) != 2 * lines:
            return False
        nodes, values = found[0::2], found[1::2].copy()
        if int(nodes.max()) >= 2**32 or int((values > HORIZON).sum()) != nevers:
            return False
        if self.first is not None:
            want = self.first.nodes[self.count : self.count + lines]
            if len(want) != lines or not numpy.array_equal(want, nodes):
                return False
        self._may_have_d(text)
        self._settle()
        self.nodes.append(nodes.astype(numpy.uint32) if self.first is None else want)
        self.values.append(values)
        self.count += lines
        self.line += lines
        return True

    def _settle(self):
        """Moves what was taken line by line behind what was taken at once."""
        if self.lone_nodes:
            self.nodes.append(_array("I", self.lone_nodes))
            self.values.append(_array("Q", self.lone_values))
            self.lone_nodes, self.lone_values = [], []

    def _w(self, line, fields):
        told = self.count and (self.lone_values[-1] if self.lone_values else self.values[-1][-1]) != NEVER
        if not told or len(self.walks) >= self.count or len(fields) < 3:
            raise self.wrong(line)
        node = self.lone_nodes[-1] if self.lone_nodes else int(self.nodes[-1][-1])
        if self._number(line, fields[1], 2**32 - 1) != node or self._number(line, fields[2], 2**32 - 1) != len(fields) - 3:
            raise self.wrong(line)
        self.walks += [None] * (self.count - 1 - len(self.walks))
        self.walks.append(_array("I", [self._number(line, field, 2**32 - 1) for field in fields[3:]]) if self.with_walks else None)

    def _ended(self, line: bytes = b"") -> Optional[Problem]:
        """The problem that ends here, if there is one."""
        if not self.any:
            return None
        self._settle()
        if self.pair and self.count != 1 or (self.first is not None and not self.pair and self.count != len(self.first.nodes)):
            raise self.wrong(line)
        walks = None
        if any(it is not None for it in self.walks):
            walks = self.walks + [None] * (self.count - len(self.walks))
        problem = Problem(bool(self.pair), self.turned, _array("I", self.starts), _array("Q", self.times), _joined("I", self.nodes), _joined("Q", self.values), walks)
        if self.first is None:
            self.first = problem._replace(walks=None, values=None)
        elif not self.pair and len(self.first.starts) != len(problem.starts):
            raise self.wrong(line)
        if not self.pair and len(problem.starts) != 1 and self.first.nodes is not problem.nodes:
            raise self.wrong(line)  # A joint problem is the only one.
        return problem


def _joined(code, parts):
    if len(parts) == 1:
        return parts[0]
    if numpy is not None:
        return numpy.concatenate(parts) if parts else _array(code, [])
    whole = array.array(code)
    for part in parts:
        whole += part
    return whole


def _blocks(file, name) -> Iterator[bytes]:
    """The bytes of a file, cut at ends of lines."""
    rest: List[bytes] = []
    while True:
        try:
            block = file.read(BLOCK)
        except (EOFError, gzip.BadGzipFile, zlib.error) as error:
            raise OSError(f"{name} is packed by gzip, and can't be unpacked: {error}") from error
        if not block:
            break
        end = block.rfind(b"\n") + 1
        if not end:
            rest.append(block)
            continue
        yield b"".join([*rest, block[:end]])
        rest = [block[end:]] if end < len(block) else []
    if rest:
        yield b"".join(rest)


# Writing

def of_answers(answers: Any, walks: bool = False) -> Report:
    """The report of an `Answer` or of `Answers`, as `earliest run` writes it, with walks or without. Nodes are written by their numbers."""
    many = answers if hasattr(answers, "__getitem__") else [answers]
    road, rows = answers.road, [it._found.arrivals() for it in many]
    joint = not hasattr(answers, "__getitem__") and len(answers._sources) != 1
    starts = [(node, when) for it in many for node, when in zip(it._sources, it._departures)]
    of_walks: Optional[List[Optional[List[Any]]]] = None
    if walks:
        of_walks = [[None if time == NEVER else _array("I", it._found.walk(node)) for node, time in enumerate(row, 1)] for it, row in zip(many, rows)]
    nodes = _array("I", range(1, road.nodes + 1))
    return Report(joint=joint, sources=_array("I", [it[0] for it in starts]), departures=_array("Q", [it[1] for it in starts]), nodes=nodes,
                  arrivals=_rows(rows, nodes), walks=of_walks)


def write(to: Any, report: Any, walks: bool = False) -> None:
    """Writes a Report, `Answers`, an `Answer` or an iterable of Problems, as the program writes its reports, the lines `c` aside.

    `to` is a path, or a file that is open for writing bytes. A file of a path is there whole or not at all. `walks` asks for the
    walks of `Answers` and of an `Answer`; those that a report has are written.
    """
    if hasattr(report, "_sources") or hasattr(report, "_starts"):
        found = of_answers(report, walks).problems()
    else:
        found = report.problems() if isinstance(report, Report) else iter(report)
    if not isinstance(to, (str, os.PathLike)):
        for problem in found:
            to.write(text_of(problem))
        return
    path = os.fspath(to)
    if _is_stream(path):
        # What is there already, as the log that standard output goes to, stays.
        with open(path, "ab") as file:
            for problem in found:
                file.write(text_of(problem))
        return
    path = os.path.realpath(path)
    with _part_beside(path) as part:
        try:
            for problem in found:
                part.write(text_of(problem))
            part.close()
            if os.path.exists(path):
                os.chmod(part.name, stat.S_IMODE(os.stat(path).st_mode))
            os.replace(part.name, path)
        except BaseException:
            with contextlib.suppress(OSError):
                os.unlink(part.name)
            raise


def _is_stream(path: str) -> bool:
    """Whether a path names a device, a pipe or a descriptor, which is written to and never replaced."""
    return os.path.abspath(path).startswith(("/dev/", "/proc/")) or (os.path.exists(path) and not os.path.isfile(path) and not os.path.isdir(path))


def _part_beside(path: str):
    """A new file in the folder of a path, which takes its place when it is whole."""
    at = 0
    while True:
        try:
            return open(os.path.join(os.path.dirname(path), f".report-{os.getpid()}-{at}.part"), "xb")
        except FileExistsError:
            at += 1


def text_of(problem: Problem) -> bytes:
    """The lines of a problem."""
    word, starts, times = ("t" if problem.turned else "s"), [int(it) for it in problem.starts], [int(it) for it in problem.times]
    if problem.pair:
        lines = [f"{'t' if problem.turned else 'q'} {starts[0]} {starts[1]} {times[0]}\n"]
    else:
        lines = [f"{word} {node} {time}\n" for node, time in zip(starts, times)]
    never = "none" if problem.turned else "inf"
    told = [f"d {node} {never if time == NEVER else time}\n" for node, time in zip(problem.nodes.tolist(), problem.values.tolist())]
    if problem.walks:
        told = [line if walk is None else f"{line}{' '.join(['w', line.split()[1], str(len(walk)), *map(str, walk)])}\n" for line, walk in zip(told, problem.walks)]
    return "".join([*lines, *told]).encode()

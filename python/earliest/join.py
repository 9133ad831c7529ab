"""Joins the reports of parts into the report of the whole, and refuses parts that failed or are missing.

    python -m earliest join FOLDER/parts.txt REPORT [--joblog LOG] [--suffix .report]

FOLDER/parts.txt is what `python -m earliest parts` wrote; the report of the part FOLDER/1.ss is FOLDER/1.ss.report. A part has failed if its
report is missing, ends early, or has other sources, targets or departures than the part, or if a file FOLDER/1.ss.status has another number
than 0, or if the log of GNU parallel (--joblog) has another exit status than 0 for the part. REPORT is written whole or not at all. With a
part that failed the status is 1, and each such part is named with what is wrong.
"""
from __future__ import annotations

import argparse
import os
import re
import sys
from typing import Any, Dict, Iterator, List, Optional, Tuple

from . import parts as cutting
from ._places import write_whole


class Refused(Exception):
    """Why parts can't be joined."""


def parts_of(path: str) -> List[Tuple[str, int, int]]:
    """The parts: file, departure of its first source, and how much later each next one departs."""
    found = []
    with open(path, encoding="utf-8") as text:
        for number, line in enumerate(text, 1):
            fields = line.rstrip("\n").rsplit(" ", 2)
            if len(fields) != 3 or not fields[1].isdigit() or not fields[2].isdigit():
                raise Refused(f"{path}, line {number}: a part is `FILE DEPART GAP`")
            found.append((fields[0], int(fields[1]), int(fields[2])))
    if not found:
        raise Refused(f"{path} has no part")
    return found


def place_of(part: str, parts: str) -> str:
    """Where a part is: under its own path, or if the folder was moved beside parts.txt."""
    beside = os.path.join(os.path.dirname(os.path.abspath(parts)), os.path.basename(part))
    return part if os.path.exists(part) or not os.path.exists(beside) else beside


def heads_of(part: str, depart: int, gap: int) -> List[bytes]:
    """The lines with which the problems of a part begin."""
    head, lines = cutting.read(part)
    word = "s" if head[-1] == "ss" else "q"
    return [f"{word} {line.split(' ', 1)[1]} {depart + at * gap}".encode() for at, line in enumerate(lines)]


def fault_of(report: str, heads: List[bytes]) -> Tuple[Optional[str], int]:
    """What is wrong with the report of a part, None if nothing is, and how many arrivals its problems have: the problems have to be those
    of the part, each with as many arrivals."""
    at, lines, shape, last = 0, 0, 0, b"\n"
    with open(report, "rb") as text:
        for line in text:
            last = line
            word = line[:2]
            if word in (b"s ", b"q "):
                shape = lines if at == 1 else shape
                if at and (not lines or lines != shape):
                    return f"problem {at} has {lines} arrivals, and the first one {shape}", shape
                if at == len(heads) or line.split() != heads[at].split():
                    wanted = heads[at].decode() if at < len(heads) else "nothing"
                    return f"problem {at + 1} begins with `{line.decode('ascii', 'replace').strip()[:60]}`, and not with `{wanted}`", shape
                at, lines = at + 1, 0
            elif word == b"d " and at:
                lines += 1
            elif word != b"w ":
                return f"it has the line `{line.decode('ascii', 'replace').strip()[:60]}`", shape
    shape = lines if at == 1 else shape
    if not last.endswith(b"\n"):
        return "its last line is cut", shape
    if at != len(heads):
        return f"it has {at} of {len(heads)} problems", shape
    if at and (not lines or lines != shape):
        return f"problem {at} has {lines} arrivals, and the first one {shape}", shape
    return None, shape


def failed_jobs(log: str, parts: List[str]) -> Dict[str, str]:
    """Parts whose last line in a log of GNU parallel has another status or signal than 0. A part that has no line isn't done."""
    last: Dict[str, str] = {}
    with open(log, encoding="utf-8", errors="replace") as text:
        for number, line in enumerate(text):
            fields = line.rstrip("\n").split("\t", 8)
            if number == 0 or len(fields) < 9:
                continue
            words = set(re.split(r"[\s'\"<>;=]+", fields[8].replace("\\", "")))
            for part in parts:
                if part in words:
                    last[part] = "" if fields[6] == "0" and fields[7] == "0" else f"exit status {fields[6]}, signal {fields[7]}"
    return {part: last.get(part, "it has no line in the log") for part in parts if last.get(part, "none")}


def faults(parts: str, listed: List[Tuple[str, int, int]], suffix: str, log: Optional[str]) -> Iterator[str]:
    """A sentence for each part that failed or is missing."""
    jobs = failed_jobs(log, [part for part, _, _ in listed]) if log else {}
    shapes: Dict[str, int] = {}
    for part, depart, gap in listed:
        place = place_of(part, parts)
        status = read_status(place + ".status")
        if part in jobs:
            yield f"{part} failed: {jobs[part]}"
        elif status not in (None, "0"):
            yield f"{part} failed: {place}.status has {status or 'nothing'}"
        elif not os.path.exists(place):
            yield f"{part} is missing"
        elif not os.path.exists(place + suffix):
            yield f"{part} has no report: {place}{suffix} is missing"
        else:
            heads = heads_of(place, depart, gap)
            wrong, shape = fault_of(place + suffix, heads)
            if wrong:
                yield f"{place}{suffix} is not the report of {part}: {wrong}"
            elif heads:
                shapes[part] = shape
    # A report that was cut between two lines of its only problem has fewer arrivals than the others.
    most = max(shapes.values(), default=0)
    for part, shape in shapes.items():
        if shape < most:
            yield f"{part} has {shape} arrivals in each problem, and another part has {most}"


def read_status(path: str) -> Optional[str]:
    """What the file of a job's exit status has; None if there is no such file."""
    try:
        with open(path, encoding="ascii", errors="replace") as text:
            return text.read().strip()[:40]
    except FileNotFoundError:
        return None


def pieces(paths: List[str]) -> Iterator[bytes]:
    """The bytes of files, one after the other."""
    for path in paths:
        with open(path, "rb") as file:
            while True:
                block = file.read(1 << 20)
                if not block:
                    break
                yield block


def main(words: Optional[List[str]] = None) -> int:
    """Joins reports: the status."""
    command = argparse.ArgumentParser(prog="python -m earliest join", description=__doc__, formatter_class=argparse.RawDescriptionHelpFormatter)
    command.add_argument("parts", metavar="FOLDER/parts.txt")
    command.add_argument("report", metavar="REPORT", help="the file to write")
    command.add_argument("--joblog", metavar="LOG", help="the log of GNU parallel")
    command.add_argument("--suffix", default=".report", help="what a report's name has after that of its part (default: %(default)s)")
    asked: Any = command.parse_args(words)
    try:
        listed = parts_of(asked.parts)
        wrong = list(faults(asked.parts, listed, asked.suffix, asked.joblog))
        for line in wrong:
            sys.stderr.write(f"join: {line}\n")
        if wrong:
            sys.stderr.write(f"join: {len(wrong)} of {len(listed)} parts have to run again; {asked.report} is not written\n")
            return 1
        write_whole(asked.report, pieces([place_of(part, asked.parts) + asked.suffix for part, _, _ in listed]))
    except (Refused, cutting.Refused, OSError, UnicodeDecodeError) as fault:
        sys.stderr.write(f"join: {fault}\n")
        return 1
    return 0


if __name__ == "__main__":
    sys.exit(main())

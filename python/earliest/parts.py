"""Cuts a file of sources (or of pairs) into parts, so that many processes or machines share the work.

    python -m earliest parts FILE COUNT FOLDER [--depart T] [--gap G]

writes FOLDER/1.ss .. FOLDER/COUNT.ss (or .p2p), each with as many sources as the others or one more, in their
order, and FOLDER/parts.txt with a line for each part: its file, and the values of --depart and --gap with
which `earliest` gives its sources the departures that they have in the whole (source i, from 0, departs at T
+ i * G). The reports of the parts, one after another, are the report of the whole.
"""
import argparse
import os
import sys

KINDS = {("p", "aux", "sp", "ss"): ".ss", ("p", "aux", "sp", "p2p"): ".p2p"}
HORIZON = 2**48 - 1


class Refused(Exception):
    """Why a file can't be cut."""


def read(file):
    """The words of the problem line, and the lines of the sources or pairs."""
    head, lines = None, []
    try:
        with open(file, encoding="ascii") as text:
            for number, line in enumerate(text, 1):
                fields = line.split()
                if not fields or fields[0].startswith("c"):
                    continue
                if head is None:
                    head = tuple(fields[:-1])
                    if head not in KINDS:
                        raise Refused(f"{file}, line {number}: the first line is to be `p aux sp ss N` or `p aux sp p2p N`")
                else:
                    lines.append(" ".join(fields))
    except (OSError, UnicodeDecodeError) as error:
        raise Refused(f"{file}: {error}") from error
    if head is None:
        raise Refused(f"{file}: there is no problem line")
    return head, lines


def cut(head, lines, count, folder, depart, gap):
    """Writes the parts."""
    if not 1 <= count <= max(len(lines), 1):
        raise Refused(f"{len(lines)} lines can't be cut into {count} parts")
    if depart < 0 or gap < 0:
        raise Refused("--depart and --gap are at least 0")
    if depart + max(len(lines) - 1, 0) * gap > HORIZON:
        raise Refused(f"the last departure is above {HORIZON}")
    os.makedirs(folder, exist_ok=True)
    with open(os.path.join(folder, "parts.txt"), "w", encoding="ascii") as list_of_parts:
        for part in range(count):
            first, end = len(lines) * part // count, len(lines) * (part + 1) // count
            name = os.path.join(folder, f"{part + 1}{KINDS[head]}")
            with open(name, "w", encoding="ascii") as out:
                out.write(" ".join((*head, str(end - first))) + "\n")
                out.writelines(f"{line}\n" for line in lines[first:end])
            list_of_parts.write(f"{name} {depart + first * gap} {gap}\n")


def main(words=None):
    """Cuts a file; the words are those of the command line if none are given."""
    parser = argparse.ArgumentParser(prog="python -m earliest parts", description=__doc__, formatter_class=argparse.RawDescriptionHelpFormatter)
    parser.add_argument("file")
    parser.add_argument("count", type=int)
    parser.add_argument("folder")
    parser.add_argument("--depart", type=int, default=0)
    parser.add_argument("--gap", type=int, default=0)
    asked = parser.parse_args(words)
    try:
        cut(*read(asked.file), asked.count, asked.folder, asked.depart, asked.gap)
    except (Refused, OSError) as fault:
        print(f"parts: {fault}", file=sys.stderr)
        return 1
    return 0


if __name__ == "__main__":
    sys.exit(main())

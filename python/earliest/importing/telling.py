"""Refusals and summaries."""
import csv
import sys


class Refused(Exception):
    """An input that can't be used, as one sentence for the user."""


def ended(name, command, words):
    """Runs a command with its words, those of the process if they are None; what it refuses becomes one line on standard error. Returns the
    exit status."""
    try:
        return command(sys.argv[1:] if words is None else list(words)) or 0
    except Refused as fault:
        print(f"{name}: {fault}", file=sys.stderr)
        return 1
    except SystemExit as end:  # argparse has told the user already
        return end.code if isinstance(end.code, int) else 2
    except BrokenPipeError:
        sys.stderr.close()
        return 1
    except OSError as fault:
        print(f"{name}: {fault.filename or 'input'}: {fault.strerror or fault}", file=sys.stderr)
        return 1
    except (UnicodeDecodeError, csv.Error) as fault:
        print(f"{name}: a file isn't the text that it should be: {fault}", file=sys.stderr)
        return 1
    except MemoryError:
        print(f"{name}: there isn't enough memory", file=sys.stderr)
        return 3


class Summary:
    """What an importer took and what it left out, with counts and the first ids of each reason."""

    SHOWN = 3

    def __init__(self):
        self.taken, self.left, self.notes = {}, {}, []

    def take(self, what, count=1):
        self.taken[what] = self.taken.get(what, 0) + count

    def leave(self, why, which=None, count=1):
        """Counts something that was left out. `which` is its id; the first few are shown."""
        entry = self.left.setdefault(why, [0, []])
        entry[0] += count
        if which is not None and len(entry[1]) < self.SHOWN:
            entry[1].append(str(which))

    def note(self, sentence):
        """Something that a user has to know and that has no count."""
        if sentence not in self.notes:
            self.notes.append(sentence)

    def reasons(self):
        """What was left out so far, the most first, as the end of a refusal's sentence."""
        most = sorted(((why, count) for why, (count, _) in self.left.items() if count), key=lambda it: -it[1])[:4]
        return "; left out were " + ", ".join(f"{count} {why}" for why, count in most) if most else ""

    def lines(self):
        yield "taken:"
        yield from (f"  {count} {what}" for what, count in self.taken.items() if count)
        left = {why: entry for why, entry in self.left.items() if entry[0]}
        if left:
            yield "left out or changed:"
            for why, (count, which) in left.items():
                shown = f" ({', '.join(which)}{', ..' if count > len(which) else ''})" if which else ""
                yield f"  {count} {why}{shown}"
        if self.notes:
            yield "to know:"
            yield from (f"  {note}" for note in self.notes)

    def tell(self, out=None):
        out = out or sys.stdout
        for line in self.lines():
            print(line, file=out)

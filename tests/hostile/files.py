"""Valid files of which one is damaged, or two. It is a failure if the program reports something else of what is still valid than the reference, or doesn't
refuse the rest with the first fault and its line, with one line on standard error, without output, and with no file left."""
import roads
from model import TooLarge
from reference import HORIZON

WHAT = "mutated files"
ASKED = 8
BYTES = b"0123456789 \t\n\r\x00acdefhijklmnopqrstvxz-+.,:#\x0b\x0c\x7f\xa0\xff"
FIELDS = [
    *b"a s q k v t p c sp aux ss p2p at tp plain every closed rush speeds trips points Speeds cc -1 +1 1.0 1e3 0x1 1_0 1,2 nan inf none".split(), b"", b"\x00",
    b"\xff", b"\xd9\xa3",
]
LINES = [*b"|c|x|p|p sp 1 0|a 1 1 1|s 1|q 1 1|t 1 0|t 0|v 0 1|k 1 plain| |c x| c".split(b"|"), b"\r", b"\r\r", b"\x00", b"\x1a"]
POWERS = [2**16, 10**6, 2**26, 2**28, 2**31, 2**32, 2**48, 2**63, 2**64]
LIMITS = [0, 1, *(power + step for power in POWERS for step in (-1, 0, 1)), 10**20, 10**40]
PADS = [b"c" * 70_000 + b"\n", b"c a comment of some words\n" * 3_000, b"\n" * 66_000, b" \t\r\n" * 20_000]


def case(trial, words):
    road, scale = roads.road(words, 60) if words.random() < 0.993 else roads.large_road(words)
    whole = roads.files(words, road, scale)
    for _ in range(ASKED):
        command = words.choice(["run", "run", "pairs", "rank", "check"])
        files = {**whole, "net.report": words.choice([b"", b"s 1 0\nd 1 0\n"])}
        asked = roads.asking(words, command, roads.question(words, whole, scale, command))
        names = [name for name in files if name in asked and name != "net.report"]
        for name in [words.choice(names)] if words.random() < 0.9 else names:
            files[name] = damaged(words, files[name])
        trial.put(files)
        try:
            wrong = trial.judge(*roads.piped(words, files, asked))
        except TooLarge:
            continue
        status, _, said = trial.was
        if not wrong and said.count(b"\n") != (status != 0) and not {"--explain", "--progress"} & set(asked):
            wrong = f"an error is one line: {trial.was}"
        yield wrong


def damaged(words, text):
    """A text that was changed somewhere, once or a few times."""
    for _ in range(words.choice([1, 1, 1, 2, 3])):
        text = words.choice([of_bytes, of_bytes, of_numbers, of_numbers, of_fields, of_lines, of_lines, of_whole, of_kinds, of_kinds])(words, text)
    if words.random() < 0.02:
        at = words.choice([0, text.find(b"\n") + 1, text.rfind(b"\n") + 1])
        text = text[:at] + words.choice(PADS) + text[at:]
    return text


def of_bytes(words, text):
    """A byte or some bytes are deleted, doubled, put in or replaced."""
    at, length = words.randint(0, len(text)), words.choice([1, 1, 1, 2, 5])
    some, any_byte = bytes(words.choice(BYTES) for _ in range(length)), bytes([words.getrandbits(8)])
    front, part, rest = text[:at], text[at : at + length], text[at + length :]
    return words.choice([front + rest, front + part + part + rest, front + some + part + rest, front + some + rest, front + any_byte + text[at + 1 :]])


def places(text):
    """The places at which the fields of a text begin and end."""
    found, begin = [], None
    for at, byte in enumerate(text + b"\n"):
        if byte in b" \t\r\n":
            if begin is not None:
                found.append((begin, at))
            begin = None
        elif begin is None:
            begin = at
    return found


def of_numbers(words, text):
    """A number becomes a near one, another one of the text, one at a limit, or one that is the same in 32 or 64 bits."""
    found = [(begin, end) for begin, end in places(text) if text[begin:end].isdigit() and end - begin < 100]
    if not found:
        return text
    begin, end = words.choice(found)
    was, near = (int(text[slice(*it)]) for it in ((begin, end), words.choice([it for it in found if abs(it[0] - begin) < 40])))
    other = words.choice([
        near, near + 1, max(0, near - 1), was + 1, max(0, was - 1), was + 2**32, was + 2**64, was + 2**48, was * 10, was // 10, words.choice(LIMITS),
        words.choice(LIMITS), words.getrandbits(words.randint(1, 70)), words.randint(0, 50),
    ])
    zeros = b"0" * words.choice([0, 0, 0, 1, 25, 5000])
    return text[:begin] + words.choice([zeros + b"%d" % other] * 20 + [b"%d" % other + zeros]) + text[end:]


def of_kinds(words, text):
    """A line of a kind gets numbers at their limits; or a line of a step a time and a value at the limits that the steps around it set. Texts without
    kinds stay."""
    lines = text.split(b"\n")
    chosen = [at for at, line in enumerate(lines) if line[:2] in (b"k ", b"v ")]
    if not chosen:
        return text
    at = words.choice(chosen)
    fields = lines[at].split()
    if fields[0] == b"k" and len(fields) > 3:
        period = words.choice([0, 1, 7, 2**32 - 1, 2**32, 2**32 + 1])
        begin = words.choice([0, 5, HORIZON - 1, HORIZON, HORIZON + 1])
        numbers = {
            b"every": [period, words.choice([0, max(0, period - 1), period, 7])],
            b"closed": [begin, words.choice([begin, begin + 1, HORIZON, HORIZON + 1])],
            b"rush": [begin, words.choice([begin, begin + 1, HORIZON]), words.choice([0, 2**32, 2**32 + 1])],
        }.get(fields[2], [period, words.choice([0, 1, 2, 65_536, 65_537])])
        kept = fields[3:] if fields[2] in (b"speeds", b"trips", b"points") else []
        fields[3:] = [words.choice([b"%d" % number, *kept[at : at + 1]]) for at, number in enumerate(numbers)]
    elif fields[0] == b"v" and all(field.isdigit() and len(field) < 20 for field in fields[1:]) and len(fields) == 3:
        others = [[int(field) for field in lines[other].split()[-2:] if field.isdigit() and len(field) < 20] for other in (at - 1, (at + 1) % len(lines))]
        before, after = [other if len(other) == 2 else [0, 0] for other in others]
        time = words.choice([int(fields[1]), before[0], before[0] + 1, max(0, after[0] - 1), after[0], sum(before)])
        near = [max(0, sum(before) - time), max(0, sum(before) - time - 1), max(0, sum(after) - time), max(0, sum(after) - time + 1)]
        fields[1:] = [b"%d" % time, b"%d" % words.choice([int(fields[2]), *near, 0, 10**6, 10**6 + 1, 2**32, 2**32 + 1])]
    lines[at] = b" ".join(fields)
    return b"\n".join(lines)


def of_fields(words, text):
    """A field is replaced by a word, left out, doubled, or changes its place with another one."""
    found = places(text)
    if not found:
        return words.choice(FIELDS)
    begin, end = words.choice(found)
    other, its_end = words.choice(found)
    if words.random() < 0.3 and end <= other:
        return text[:begin] + text[other:its_end] + text[end:other] + text[begin:end] + text[its_end:]
    return text[:begin] + words.choice([words.choice(FIELDS), words.choice(FIELDS), b"", text[begin:end] + b" " + text[begin:end]]) + text[end:]


def of_lines(words, text):
    """Lines are left out, doubled, swapped, moved, joined, cut in two or put in."""
    lines = text.split(b"\n")
    at, other = words.randrange(len(lines)), words.randrange(len(lines))
    line = lines[at]
    how = words.randrange(7)
    if how == 0:
        del lines[at]
    elif how == 1:
        lines.insert(other, line)
    elif how == 2:
        lines[at], lines[other] = lines[other], line
    elif how == 3:
        lines.insert(other, lines.pop(at))
    elif how == 4 and at + 1 < len(lines):
        lines[at : at + 2] = [line + words.choice([b"", b" ", b"\r", b"\x00"]) + lines[at + 1]]
    elif how == 5:
        cut = words.randint(0, len(line))
        lines[at : at + 1] = [line[:cut], line[cut:]]
    else:
        lines.insert(at, words.choice(LINES))
    return b"\n".join(lines)


def of_whole(words, text):
    """The text is cut, doubled, emptied, or has other line ends, blanks or first bytes."""
    cut = words.randint(0, len(text))
    ends = words.choice([b"\r\n", b"\r", b"\n\n", b"\r\r\n", b" \n ", b"\x00\n"])
    blanks = words.choice([b"\t", b"  ", b"\xa0", b"\x0b", b", "])
    return words.choice([
        text[:cut], text[:cut], text[cut:], text + text, b"", text.rstrip(b"\n"), text.upper(), text.replace(b"\n", ends), text.replace(b"\n", ends),
        text.replace(b" ", blanks), b"\xef\xbb\xbf" + text, b"\x1f\x8b" + text, text + b"\x00", b"\x00" + text, text + b"\x1a", text + b"\r",
    ])

"""Random command lines, right ones with something changed and words at random, on files, missing and damaged ones, and folders. It is a failure
if the status isn't the documented one, if an error isn't the line of the guide or the sentence of the command line, if a refused command
writes to standard output or leaves a file, or if the report of a right command isn't the reference's."""
import roads
from files import damaged
from model import COMMANDS, FAULT_NAMES, FAULTS, FLAGS, FOLDER, LIMITS, VALUED, TooLarge

WHAT = "command lines"
ASKED = 20
GOOD = {
    "workers": ["1", "4", "16", "007"], "at-once": ["1", "3", "16"], "batch": ["1", "64"], "heaps": ["2", "8", "0003"], "turns": ["0", "5", "1000000000"],
    "seed": ["0", "18446744073709551615"], "prepare": ["yes", "no"], "depart": ["0", "17", "281474976710655"], "arrive": ["0", "99", "281474976710655"],
    "gap": ["0", "1", "60"],
}
BAD = [
    "", "x", "1.0", "1e3", "0x10", "8:00", " 5", "5 ", "1_0", "1,000", "\u0663", "\uff11", "five", "Yes", "YES", "true", "99999999999999999999999999",
    "18446744073709551616", "18446744073709551617", "281474976710656", "4294967297", "1000000001", "\u00e9", "5;", "*", "inf", "none", "5\t", "1\n",
]
NAMES = [
    "net.gr", "net.ss", "net.p2p", "net.tp", "net.times", "net.nodes", "net.report", "nothing", "folder", "damaged.gr", "damaged.ss", "damaged.tp", "empty",
    "-", "", "nothing/net.gr", "net.gr/x", ".",
]
ORDER = ["net.gr", "net.ss", "net.p2p", "net.tp", "net.times", "net.nodes", "net.report"]
ODD = [
    "--fast", "--walk", "--Walks", "--WALKS", "-w", "-x", "-5", "--", "---", "--=", "--tp", "--gap", "-o", "--output", "--no-walks", "--walks=yes", "--joint=",
    "--help", "-h", "--help=x", "-hh", "-V", "--version", "\u2014walks", "--workers=", "--gap=-1", "net.gr", "more", "run", "help", "-oout", "-o=out",
    "--output=out", "-o-", "--depart=0", "--depart 5",
]
HEADS = [
    "run", "pairs", "rank", "check", "explain", "formats", "help", "Run", "runs", "ru", "", "walk", "--run", "-r", "-h", "--help", "-V", "--version", "earliest",
    "--", "-", "net.gr",
]
EXPLAINED = [*FAULTS, *FAULT_NAMES, *map(str.lower, FAULT_NAMES), "0", "16", "-1", "", "4", "check 4", "x"]


def case(trial, words):
    road, scale = roads.road(words, 20)
    files = roads.files(words, road, scale)
    files.update({f"damaged.{word}": damaged(words, files.get(f"net.{word}", b"")) for word in ("gr", "ss", "tp")})
    files.update({"folder": FOLDER, "empty": b"", "net.report": b"s 1 0\nd 1 0\n"})
    trial.put(files)
    for _ in range(ASKED):
        asked = words.choice([changed] * 7 + [at_random] * 3 + [short])(words, files, scale)
        given = files[words.choice(["net.gr", "net.ss", "empty"])] if "-" in asked or "--" in asked else b""
        try:
            yield trial.judge(asked, given)
        except TooLarge:
            pass


def option(words):
    """An option with a value that is good or bad, in one word or two; now and then one of another command."""
    name = words.choice([*VALUED, *FLAGS])
    if name in FLAGS:
        return [f"--{name}"]
    good = GOOD.get(name, NAMES if name != "output" else ["out", "out", "-", "folder", "", "nothing/out"])
    value = words.choice(good if words.random() < 0.7 else BAD)
    if name in LIMITS and words.random() < 0.3:
        value = str(words.choice([max(0, LIMITS[name][0] - 1), *LIMITS[name], LIMITS[name][1] + 1]))
    return [f"--{name}={value}"] if words.random() < 0.3 and value else [f"--{name}", value]


def changed(words, files, scale):
    """A right command line in which a word or some are left out, doubled, replaced, moved or put in, or some files are others."""
    command = words.choice(list(COMMANDS))
    asked = roads.asking(words, command, roads.question(words, files, scale, command))
    if command == "run" and "--nodes" not in asked and words.random() < 0.4:
        asked += ["--nodes", "net.nodes"]
    for _ in range(words.choice([0, 1, 1, 1, 2, 3])):
        at, how = words.randint(1, len(asked)), words.randrange(12)
        if how == 0:
            del asked[at : at + 1]
        elif how == 1:
            asked[at:at] = asked[at : at + 1]
        elif how == 2:
            asked[at : at + 1] = [words.choice([*NAMES, *NAMES, *BAD, *ODD])]
        elif how == 3:
            asked.insert(at, asked.pop(words.randint(1, len(asked) - 1)))
        elif how == 4:
            asked.insert(at, words.choice(ODD))
        elif how < 8:
            asked[at:at] = option(words)
        else:
            part, last = words.choice([0.5, 1]), words.choice([ORDER, ORDER[3:], ORDER[4:]])
            others = words.choice([NAMES, ["nothing"], ["nothing", "folder"], ["-"], ["damaged.gr", "damaged.ss", "damaged.tp", "empty"]])
            asked = [words.choice(others) if word in last and words.random() < part else word for word in asked]
    return asked


def at_random(words, files, scale):
    """A command with words at random."""
    command = words.choice([*COMMANDS] * 10 + HEADS)
    asked = [command, *words.choice([[], ["net.gr"], ["net.gr", "net.p2p" if command == "pairs" else "net.ss"]])]
    for _ in range(words.randint(0, 5)):
        asked += words.choice([option(words), [words.choice(NAMES)], [words.choice(ORDER)], [words.choice(ODD)]])
    return asked


def short(words, files, scale):
    """No word, one, or a fault to be explained."""
    head, fault = words.choice(HEADS), words.choice(EXPLAINED)
    return words.choice([[], [head], ["explain", fault], ["help", head], ["explain", "1", "2"], ["formats", head]])

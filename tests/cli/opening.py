"""Files that can't be opened: for each command, each file missing and each two, and which of them is
reported."""
import itertools

# The words of each command with its files, in the order in which they are opened: the file's word, and its
# name.
COMMANDS = {
    "run": (["run", "{gr}", "{ss}", "--nodes", "{nodes}", "--departs", "{times}", "--tp", "{tp}"], ("gr", "ss", "tp", "times", "nodes")),
    "pairs": (["pairs", "{gr}", "{p2p}", "--arrives", "{times}", "--tp", "{tp}"], ("gr", "p2p", "tp", "times")),
    "rank": (["rank", "{gr}", "{ss}", "--tp", "{tp}"], ("gr", "ss", "tp")),
    "check": (["check", "{gr}", "{ss}", "{report}", "--tp", "{tp}", "--departs", "{times}"], ("gr", "ss", "tp", "times", "report")),
}
THERE = {"gr": "every-ten.gr", "ss": "four-nodes.ss", "p2p": "every-ten.p2p", "tp": "every-ten.tp", "times": "one-time.times", "nodes": "four-nodes.ss", "report": "every-ten.report"}


def cases():
    """Words and the expected result: the first missing file in the order of opening is reported, and
    nothing is read."""
    for words, files in COMMANDS.values():
        for missing in itertools.chain(itertools.combinations(files, 1), itertools.combinations(files, 2)):
            names = {word: "nothing" if word in missing else name for word, name in THERE.items()}
            yield [word.format(**names) for word in words], (4, b"", f"earliest: {missing[0]}: 15 OpenFailed\n".encode())

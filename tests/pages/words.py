"""Counts phrases with a plainer form in comments and pages: python3 tests/pages/words.py

Reads the comments of crates/, tests/, tools/, bench/ and docs/, and the pages of docs/. Prints each phrase
that is left without a reason, and how often each phrase is left. `run.py` runs it as one of its tests.
"""
import ast
import fnmatch
import glob
import io
import os
import re
import sys
import tokenize

ROOT = os.path.normpath(os.path.join(os.path.dirname(os.path.abspath(__file__)), "..", ".."))

# A phrase, its pattern between word boundaries, and what to write.
PHRASES = (
    ("where", r"where(?!\.md)", "if"),
    ("answers", r"answers? (?:how|whether|what|so|the status|the number|an error|a fault)|(?:and|that|which) answers", "returns"),
    ("so many", r"so many", "this many, n bytes"),
    ("let go", r"let(?:s|ting)? (?:\w+ )?go", "drop, free"),
    ("is told", r"(?:is|are|was|were|be) told", "is reported, learns"),
    ("tells", r"tells?", "says, reports, writes"),
    ("of its own", r"of (?:its|their|his|one's) own", "separate, own"),
    ("that is there", r"that (?:is|are) there", "existing"),
    ("by hand", r"by hand", "in plain Rust, a proof written for it"),
    ("looks at none", r"looks? at (?:none|no)", "inspects none"),
    ("comes to", r"what\b[^.;:]{0,60}\b(?:comes?|came) to", "result, outcome"),
    ("stands", r"(?:stands?|stood)", "is, means"),
    ("goes on", r"(?:goes|go|going|went) on", "continues"),
    ("nobody", r"nobody", "no thread, no node"),
    ("want of", r"want of", "refused memory"),
    ("borne", r"borne", "retried, tolerated"),
)

# Phrases that are counted in comments alone.
OF_COMMENTS = ("tells", "stands", "nobody", "want of", "borne")

# Why a phrase may stay.
PLACE = "a place, no condition"
LISTED = "the crate's line in crates.txt"
WRITTEN = "written by the bench, whose tables name the programs in plain Rust so"

# Phrases that may stay: the files, a phrase or all, and the reason.
ALLOWED = (
    ("crates/ea_messages/src/lib.rt", "is told", LISTED),
    ("crates/test_no_memory/src/lib.rt", "where", LISTED),
    ("docs/design/*", "where", PLACE),
    ("docs/guide/questions.md", "by hand", "by a person"),
    ("docs/performance.md", None, WRITTEN),
    ("tests/cli/commuter.py", "where", PLACE),
)


def marked(lines, marks):
    """The comments behind one of the marks, each block of whole lines as one: the first line and the text
    of each."""
    blocks, last = [], None
    for number, line in enumerate(lines, 1):
        found = re.match(rf"\s*({marks})(?!\S*[-=]{{3}})\s?(.*)", line)
        behind = None if found else re.search(rf"\S\s+(?:{marks})\s+([^\"]*)$", line)
        if found and last == number - 1:
            blocks[-1][1] += " " + found[2]
        elif found or behind:
            blocks.append([number, found[2] if found else behind[1]])
        last = number if found else None
    return blocks


def of_python(text):
    """The comments and docstrings of a Python file: the line and the text of each."""
    for token in tokenize.generate_tokens(io.StringIO(text).readline):
        if token.type == tokenize.COMMENT and not token.string.startswith("#!"):
            yield token.start[0], token.string[1:]
    for node in ast.walk(ast.parse(text)):
        if isinstance(node, (ast.Module, ast.ClassDef, ast.FunctionDef)) and ast.get_docstring(node):
            yield node.body[0].lineno, ast.get_docstring(node)


def of_page(text):
    """The lines of a page without its commands: the number and the text of each."""
    bare = re.sub(r"(?ms)^```.*?^```", lambda block: "\n" * block[0].count("\n"), text)
    for number, line in enumerate(bare.splitlines(), 1):
        yield number, line


def comments_of(path):
    """The comments of a file, or the lines of a page: the line and the text of each, without quotations
    and links."""
    with open(os.path.join(ROOT, path), encoding="utf-8") as file:
        text = file.read()
    if path.endswith(".py"):
        found = of_python(text)
    elif path.endswith(".md"):
        found = of_page(text)
    elif path.endswith(".sh"):
        found = marked(text.splitlines(), "#(?!!)")
    elif path.endswith((".antt", ".antt.txt")):
        found = marked(text.splitlines(), "--")
    elif path.endswith((".c", ".cpp", ".hpp")):
        found = marked(text.splitlines(), r"//|/\*|\*(?=\s|/)")
    else:
        found = marked(text.splitlines(), r"//[/!]?")
    for number, comment in found:
        yield number, re.sub(r"`[^`]*`|\"[^\"]*\"|\]\([^)]*\)", "``", " ".join(comment.split()))


def files():
    """The paths of the files with comments, and of the pages."""
    kinds = (".rt", ".antt", ".py", ".sh", ".rs", ".c", ".cpp", ".hpp", ".rt.txt", ".antt.txt")
    for folder in ("crates", "tests", "tools", "bench", "docs"):
        for path in sorted(glob.glob(os.path.join(ROOT, folder, "**", "*"), recursive=True)):
            path = os.path.relpath(path, ROOT)
            is_page = path.startswith("docs/") and path.endswith(".md")
            if (path.endswith(kinds) or is_page) and not re.search(r"/(?:out|results|must-fail)/", path):
                yield path


def left():
    """Each phrase that is left: its path, its line, the phrase, and the reason if it may stay."""
    for path in files():
        for number, comment in comments_of(path):
            for phrase, pattern, _ in PHRASES:
                if path.endswith(".md") and phrase in OF_COMMENTS:
                    continue
                for _ in re.findall(rf"(?i)\b(?:{pattern})\b", comment):
                    reasons = [reason for place, name, reason in ALLOWED if fnmatch.fnmatch(path, place) and name in (None, phrase)]
                    yield path, number, phrase, reasons[0] if reasons else None


def results():
    """Whether no comment and no page has a phrase without a reason, for each phrase; whether each reason
    for a comment is still needed."""
    found = list(left())
    plainer = {phrase: instead for phrase, _, instead in PHRASES}
    for phrase in plainer:
        wrong = [f"{path}:{number}" for path, number, name, reason in found if name == phrase and not reason]
        yield f"\"{phrase}\" for \"{plainer[phrase]}\": {', '.join(wrong[:20])}", not wrong
    for place, phrase, reason in ALLOWED:
        if phrase and not place.startswith("docs/"):
            used = any(fnmatch.fnmatch(path, place) and name == phrase for path, _, name, _ in found)
            yield f"\"{phrase}\" may stay in {place}: {reason}", used


def main():
    found = list(left())
    for path, number, phrase, reason in found:
        if not reason:
            print(f"{path}:{number}: {phrase}")
    for phrase, _, _ in PHRASES:
        print(f"{phrase}: {sum(name == phrase for _, _, name, _ in found)} left")
    return 1 if any(not reason for _, _, _, reason in found) else 0


if __name__ == "__main__":
    sys.exit(main())

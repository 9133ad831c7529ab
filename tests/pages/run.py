"""Tests the pages: python3 tests/pages/run.py [PROGRAM]

What a page names must exist: crates, files, scripts, functions, links. What a page counts must equal what the
code has. With a program, its exit statuses must be those of the page on the life of a run. The last line is
`N passed, M failed`.
"""
import glob
import importlib.util
import os
import re
import resource
import subprocess
import sys
import tempfile
from urllib.parse import unquote

sys.dont_write_bytecode = True
import words
ROOT = os.path.normpath(os.path.join(os.path.dirname(os.path.abspath(__file__)), "..", ".."))
CODE = (".rt", ".antt", ".py", ".sh", ".rs", ".c", ".cpp", ".h", ".hpp", ".edit", ".txt")

# The most words of a folder or a page.
MOST_WORDS = {"docs/design": 9_000, "docs/guide": 9_000, "README.md": 700}

# Phrases with a plainer form. Pages for maintainers have none of them.
PLAINER = ("so many", "is told", "let go of", "by hand", "of its own")

# Names of the toolchain that pages quote from its messages.
OF_THE_TOOLCHAIN = {"also_shares", "shr_at", "allocate"}


def text_of(path):
    """The text of a file of the repository."""
    with open(os.path.join(ROOT, path), encoding="utf-8") as file:
        return file.read()


def found(*patterns):
    """The files of the repository that a pattern names, by their paths from its root."""
    paths = {path for pattern in patterns for path in glob.glob(os.path.join(ROOT, pattern), recursive=True)}
    return sorted(os.path.relpath(path, ROOT) for path in paths if os.path.isfile(path))


PAGES = found("README.md", "docs/**/*.md", "bench/**/*.md", "examples/*.md", "crates/*/README.md")
MAINTAINERS = found("docs/design/*.md", "docs/decisions/*.md", "docs/lab-notes.md")


def crates():
    """The crates of crates.txt with the comment before each."""
    comment, listed = "", {}
    for line in text_of("crates.txt").splitlines():
        if line.startswith("#"):
            comment = line[1:].strip()
        elif ":" in line:
            listed[re.split(r"[\s:]", line)[0]] = comment
    return listed


def sources():
    """The paths of the files with code."""
    return [path for folder in ("crates", "tools", "tests", "bench", "include", "python", "docs/pictures")
            for path in found(f"{folder}/**/*") if path.endswith(CODE) and "/out/" not in path and "/results/" not in path]


def words_in(text):
    """The number of words of a text, without marks of tables and lists."""
    return sum(1 for word in text.split() if re.search(r"\w", word))


def is_defined(name, path):
    """Whether a file defines a function, a type or a constant of this name."""
    text = text_of(path)
    if path.endswith(".antt"):
        return re.search(rf"(?m)^\s*(?:[a-z]+ )*pub (?:record |data )?{name}\b", text) is not None
    return re.search(rf"(?m)^\s*(?:.*\b(?:fn|const|struct|enum|trait|def|class)\s+{name}\b|{name} = )", text) is not None


def rows(page, columns):
    """The rows of a page's tables with this many columns, without heads."""
    for line in text_of(page).splitlines():
        cells = [cell.strip() for cell in line.strip().strip("|").split(" | ")]
        if line.startswith("|") and len(cells) == columns and not set(line) <= set("|-: "):
            yield cells


def constants():
    """The constants of the table of design/where.md: file and value by name."""
    return {cells[0].strip("`"): (cells[1].strip("`"), int(cells[2].replace(",", "")))
            for cells in rows("docs/design/where.md", 3) if re.fullmatch(r"[\d,]+", cells[2])}


def decisions_are_there():
    """Each row of design/where.md: the file is there, and defines the name."""
    count = 0
    for question, file, name in rows("docs/design/where.md", 3):
        if question in ("The question", "Question", "Constant"):
            continue
        path, name = (file.strip("`"), (question if re.fullmatch(r"[\d,]+", name) else name).strip("`"))
        is_there = os.path.isfile(os.path.join(ROOT, path))
        count += 1
        yield f"where.md: {question}: {path}, {name}", is_there and is_defined(name, path)
    yield "where.md has its rows", count >= 100


def constants_are_equal():
    """Each constant of design/where.md has the value in the code."""
    for name, (path, value) in constants().items():
        said = re.search(rf"const {name}: \w+ = ([\d_]+);", text_of(path))
        yield f"where.md: {name} is {value}", said is not None and int(said[1].replace("_", "")) == value


def numbers_in_prose():
    """Numbers in pages that the code has too: those followed by a constant's name, the number of nodes
    from which workers start, the bytes of reports that a thread keeps, and the number of threads that
    read."""
    known = {name: value for name, (_, value) in constants().items()}
    starts = {known[name] for name in ("FEW_NODES", "FEW_FOR_TWO", "MANY_NODES", "MANY_FOR_TWO")}
    readers = {"eight", str(known["MOST_OTHERS"] + 1), str(known["MOST_READERS"])}
    units = {"MB": 10**6, "MiB": 2**20, "KiB": 2**10, "KB": 10**3}
    seen = {"nodes": 0, "reports": 0, "threads": 0}
    for page in PAGES:
        if page in ("docs/performance.md", "docs/lab-notes.md") or page.startswith(("docs/decisions/", "bench/", "crates/")):
            continue
        text = " ".join(text_of(page).split())
        for number, unit, name in re.findall(r"(\d[\d,]*)(?: (MiB|MB|KiB|KB|\w+))?[^.`(\d]{0,60}\(`([A-Z_]{4,})`\)", text):
            if name in known:
                yield f"{page}: {number} {unit} ({name})", int(number.replace(",", "")) * units.get(unit, 1) == known[name]
        for number in re.findall(r"(?:from|fewer than) (\d[\d,]{3,}) nodes", text):
            seen["nodes"] += 1
            yield f"{page}: workers and {number} nodes", int(number.replace(",", "")) in starts
        for number, unit in re.findall(r"(\d[\d,]*) (MB|MiB) of reports", text):
            seen["reports"] += 1
            yield f"{page}: {number} {unit} of reports", int(number.replace(",", "")) * units[unit] == known["KEPT"]
        for number in re.findall(r"\bread\w* by (?:up to|at most) (\w+) threads", text):
            seen["threads"] += 1
            yield f"{page}: read by {number} threads", number in readers
    for name, count in seen.items():
        yield f"some page says how many: {name}", count > 0


def numbers_of(path):
    """The constants of a file with Rattle code that are whole numbers, by name."""
    return {name: int(value.replace("_", "")) for name, value in re.findall(r"(?m)^pub const (\w+): \w+ = ([\d_]+);", text_of(path))}


def help_has_the_values():
    """The help of each option has the limits and the default of the code, and no option with a number is
    left out here."""
    known = numbers_of("crates/ea_base/src/limits.rt") | numbers_of("crates/ea_options/src/defaults.rt")
    ranges = {
        "workers": (1, known["MOST_WORKERS"]), "at-once": (1, known["MOST_AT_ONCE"]), "batch": (1, known["MOST_BATCH"]),
        "heaps": (known["LEAST_HEAPS"], known["MOST_HEAPS"]), "turns": (0, known["MOST_TURNS"]), "seed": (0, 2**64 - 1),
        "depart": (0, known["HORIZON"]), "gap": (0, known["HORIZON"]), "arrive": (0, known["HORIZON"]),
    }
    defaults = {
        "heaps": f"[default: {known['DEFAULT_HEAPS']}]", "turns": f"[default: {known['DEFAULT_TURNS']}]", "seed": f"[default: {known['DEFAULT_SEED']}]",
        "batch": f"[default: 1 with one worker, else {known['DEFAULT_BATCH']}]", "depart": f"[default: {known['DEFAULT_DEPARTURE']}]",
        "gap": f"[default: {known['DEFAULT_GAP']}]", "workers": f"[default: 1 with --at-once above 1, else {known['DEFAULT_COUNTED_WORKERS']} with --stats",
    }
    said = dict(re.findall(r'"([a-z-]+)",\s*"[A-Z]+",\s*"([^"]+)",', text_of("crates/ea_options/src/arguments.rt")))
    for name, (least, most) in ranges.items():
        yield f"help of --{name}: {least} to {most}", re.search(rf"\b{least} to {most}\b", said.get(name, "")) is not None
    for name, default in defaults.items():
        yield f"help of --{name}: {default}", default in said.get(name, "")
    for name, text in said.items():
        yield f"help of --{name}: its numbers are looked at", name in ranges or re.search(r"\d to \d", text) is None


def names_are_there():
    """The crates, files and scripts that pages name exist."""
    listed, everything = set(crates()), found("**/*")
    bases = {os.path.basename(path) for path in everything}
    for page in PAGES:
        text = text_of(page)
        names = set(re.findall(r"\b(?:ea|test)_\w+", text)) | set(re.findall(r"\b\w+_tests\b", text))
        for name in sorted(names):
            if not name.startswith("test_") or f"`{name}`" in text:
                yield f"{page}: the crate {name}", name in listed
        for path in sorted(set(re.findall(r"\b(?:crates|tools|tests|bench|include|python)/[\w./*-]*\w", text))):
            if not re.search(r"[A-Z]{3}", path):
                here = os.path.join(os.path.dirname(page), path)
                yield f"{page}: the file {path}", bool(glob.glob(os.path.join(ROOT, path)) or glob.glob(os.path.join(ROOT, here)))
        for name in sorted(set(re.findall(r"`([\w-]+\.(?:rt|antt|py|sh|edit))`", text))):
            yield f"{page}: the file {name}", name in bases


def identifiers_are_there():
    """Each name of code that a page for maintainers has in backquotes occurs in some file with code."""
    known = set(re.findall(r"\w+", "\n".join(text_of(path) for path in sources()))) | OF_THE_TOOLCHAIN
    for page in MAINTAINERS:
        for name in sorted({name for said in re.findall(r"`([^`\n]+)`", text_of(page)) for name in re.findall(r"[A-Za-z_]\w+", said)}):
            yield f"{page}: the name {name}", name in known or name in crates()


def anchors(path):
    """The anchors of a page's headings."""
    return {re.sub(r"[^\w -]", "", head.lower()).strip().replace(" ", "-") for head in re.findall(r"(?m)^#+ (.*)$", text_of(path))}


def links_lead_somewhere():
    """Each relative link leads to a file, and to a heading of it if it names one."""
    for page in PAGES:
        bare = re.sub(r"(?s)```.*?```|`[^`\n]*`", "", text_of(page))
        for link in re.findall(r"\]\(([^)\s]+)\)", bare):
            if re.match(r"[a-z]+:", link):
                continue
            path, _, anchor = unquote(link).partition("#")
            target = os.path.normpath(os.path.join(os.path.dirname(page), path)) if path else page
            is_there = os.path.exists(os.path.join(ROOT, target))
            yield f"{page}: the link {link}", is_there and (not anchor or anchor in anchors(target))


def crates_say_one_thing():
    """The first line of a crate's README, its comment in crates.txt and the first line of its root file
    are equal."""
    for crate, comment in crates().items():
        lines = [line for line in text_of(f"crates/{crate}/README.md").splitlines() if line]
        yield f"{crate}: README.md and crates.txt", lines[:2] == [f"# {crate}", comment]
        root = next(path for path in found(f"crates/{crate}/src/lib.rt", f"crates/{crate}/src/main.rt"))
        yield f"{crate}: {os.path.basename(root)} and crates.txt", text_of(root).startswith(f"//! {comment}\n")


def pages_are_short():
    """Folders and pages keep their limits of words."""
    for place, most in MOST_WORDS.items():
        pages = found(place) if place.endswith(".md") else found(f"{place}/*.md")
        count = sum(words_in(text_of(page)) for page in pages)
        if pages:
            yield f"{place}: {count} words, at most {most}", count <= most


def words_are_plain():
    """Pages for maintainers have no phrase with a plainer form."""
    for page in MAINTAINERS:
        text = " ".join(text_of(page).lower().split())
        for phrase in PLAINER:
            yield f"{page}: \"{phrase}\"", re.search(rf"\b{phrase}\b", text) is None


def words_are_swept():
    """Comments and pages have no phrase with a plainer form, unless words.py has a reason for it."""
    yield from words.results()


def run_is_drawn():
    """The life of a run: each step changes the crate, as often as the page says; the functions exist; the
    picture shows the steps."""
    path = os.path.join(ROOT, "docs", "pictures", "life_of_a_run.py")
    spec = importlib.util.spec_from_file_location("life_of_a_run", path)
    picture = importlib.util.module_from_spec(spec)
    spec.loader.exec_module(picture)
    steps = picture.steps()
    names = [crate for crate, _ in steps]
    yield "life-of-a-run.md: each step changes the crate", all(one != other for one, other in zip(names, names[1:]))
    said = re.search(r"The crate changes (\d+) times", text_of("docs/design/life-of-a-run.md"))
    yield "life-of-a-run.md: how often the crate changes", said is not None and int(said[1]) == len(steps) - 1
    for number, (crate, functions) in enumerate(steps, 1):
        for name in functions:
            short = name.split("::")[-1]
            if re.fullmatch(r"[a-z_]+", short) and len(short) > 1 and short not in crates() and short != "clap":
                yield f"life-of-a-run.md: step {number}: {crate} has {name}", any(is_defined(short, it) for it in found(f"crates/{crate}/src/**/*.rt"))
    yield "the picture is drawn from the steps", text_of("docs/pictures/life-of-a-run.svg") == picture.drawn()


def decisions_are_short():
    """A decision has three lines, and a line in the index."""
    index = re.findall(r"(?m)^- \[([\w-]+)\]\(\1\.md\): (.*)$", text_of("docs/decisions/README.md"))
    entries = []
    for page in found("docs/decisions/*.md"):
        name = os.path.basename(page)[:-3]
        if name == "README":
            continue
        yield f"{page}: of a crate", name == "repository" or name in crates()
        for entry in text_of(page).strip().split("\n\n")[1:]:
            lines = [line.rstrip() for line in entry.splitlines()]
            is_well = len(lines) == 3 and re.fullmatch(r"\*\*.*\*\*", lines[0]) and lines[1].startswith("Reason: ") and lines[2].startswith("Cost: ")
            yield f"{page}: three lines: {lines[0]}", bool(is_well)
            entries.append((name, lines[0].strip("*")))
    yield "the index has each decision once", sorted(index) == sorted(entries)


def status(program, *words, **how):
    """The exit status of the program."""
    examples = os.path.join(ROOT, "examples")
    return subprocess.run([program, *words], cwd=examples, stdin=subprocess.DEVNULL, stdout=how.get("out", subprocess.DEVNULL),
                          stderr=subprocess.DEVNULL, timeout=60, preexec_fn=how.get("before")).returncode


def little_memory():
    """Leaves the process very little memory."""
    resource.setrlimit(resource.RLIMIT_DATA, (2**20, 2**20))


def statuses(program):
    """How a run ends early, in the words of the page on the life of a run."""
    run = ("run", "four-nodes.gr", "four-nodes.ss")
    with tempfile.TemporaryDirectory(prefix="pages-") as room:
        wrong = os.path.join(room, "wrong")
        for content in ("p sp 4\n", "s 1 1\n"):
            with open(wrong, "w", encoding="ascii") as file:
                file.write(content)
            if content.startswith("p"):
                yield "a text has a fault", status(program, "run", wrong, "four-nodes.ss")
            else:
                yield "a report is refused", status(program, "check", "four-nodes.gr", "four-nodes.ss", wrong)
        yield "a file can't be opened", status(program, "run", os.path.join(room, "none.gr"), "four-nodes.ss")
        yield "a file can't be read", status(program, "run", room, "four-nodes.ss")
    yield "words that ask for nothing", status(program, "walk")
    yield "a departure is beyond the horizon", status(program, "run", "joint-gap.gr", "joint-gap.ss", "--depart", "1", "--gap", "281474976710655")
    yield "memory is refused", status(program, "run", *["x" * 100_000] * 15, before=little_memory)
    with open("/dev/full", "wb") as full:
        yield "the output can't be written", status(program, *run, out=full)


def runs_end_so(program):
    """The exit statuses of the page on the life of a run are the program's."""
    said = {what: int(number) for what, _, number in rows("docs/design/life-of-a-run.md", 3) if number.isdigit()}
    came = dict(statuses(program))
    yield "life-of-a-run.md: how a run ends early, each once", sorted(said) == sorted(came)
    for what, number in came.items():
        yield f"life-of-a-run.md: {what}: status {number}", said.get(what) == number


def main(words):
    passed = failed = 0
    checks = [decisions_are_there, constants_are_equal, numbers_in_prose, help_has_the_values, names_are_there, identifiers_are_there, links_lead_somewhere,
              crates_say_one_thing, pages_are_short, words_are_plain, words_are_swept, run_is_drawn, decisions_are_short]
    found_by = [(check.__name__, check()) for check in checks]
    if words:
        found_by.append((runs_end_so.__name__, runs_end_so(os.path.abspath(words[0]))))
    for check, results in found_by:
        for name, is_well in results:
            passed, failed = passed + is_well, failed + (not is_well)
            if not is_well:
                print(f"FAILED {check}: {name}")
    print(f"{passed} passed, {failed} failed")
    return 1 if failed else 0


if __name__ == "__main__":
    sys.exit(main(sys.argv[1:]))

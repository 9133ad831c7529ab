"""The commands in the documents: each block of README.md, docs/, docs/guide/ and docs/design/ whose first
line begins with `$ ` is run in a folder that has bin/earliest, examples/, python/ and tools/ like the
repository, with the Python package among the modules, and must give what the block shows.

A line that begins with `$ ` is a command; a `\\` at its end continues it in the next line, and `<<'END'` up
to the line `END`. What follows is its whole output, standard output first, then standard error; `..` matches
any lines. A command ends with status 0, or with N if it ends in `# status N`. The blocks of a document run
one after another in one folder.
"""
import os
import re
import shutil
import subprocess
import tempfile

ROOT = os.path.normpath(os.path.join(os.path.dirname(os.path.abspath(__file__)), "..", ".."))


def documents():
    """The names of the documents."""
    folders = [os.path.join("docs", part) for part in ("", "guide", "design") if os.path.isdir(os.path.join(ROOT, "docs", part))]
    pages = [os.path.join(folder, name) for folder in folders for name in sorted(os.listdir(os.path.join(ROOT, folder))) if name.endswith(".md")]
    return ["README.md", *map(os.path.normpath, pages)]


def commands(text):
    """The commands of a document and the output shown for each."""
    for block in re.findall(r"(?ms)^```\w*\n(\$ .*?)^```", text):
        for command, shown in re.findall(r"(?ms)^\$ ((?:[^\n]*\\\n)*[^\n]*)\n(.*?)(?=^\$ |\Z)", block):
            if command.endswith("<<'END'"):
                text, shown = shown.split("END\n", 1)
                command += f"\n{text}END\n"
            yield command, shown


def pattern(shown):
    """The pattern for what is shown."""
    lines = [re.escape(line) if line != "..\n" else r"(?:.*\n)*" for line in shown.splitlines(True)]
    return "".join(lines)


def run_in(room, name):
    """The commands of a document, run in a folder: for each its status and whether the output is the one
    shown."""
    with open(os.path.join(ROOT, name), encoding="utf-8") as file:
        shown_there = list(commands(file.read()))
    for command, shown in shown_there:
        status = re.search(r"# status (\d+)$", command)
        environment = {**os.environ, "PYTHONPATH": os.path.join(ROOT, "python")}
        ran = subprocess.run(["bash", "-c", command], cwd=room, env=environment, stdin=subprocess.DEVNULL, capture_output=True, text=True, timeout=100)
        said = ran.stdout + ran.stderr
        is_shown = re.fullmatch(pattern(shown), said) is not None
        yield f"{name}: {command}", (ran.returncode, is_shown or said), (int(status[1]) if status else 0, True)


def results(program):
    """Each command with its result and the expected one. There is at least one command."""
    found = []
    for name in documents():
        with tempfile.TemporaryDirectory(prefix="document-") as room:
            os.mkdir(os.path.join(room, "bin"))
            os.symlink(os.path.abspath(program), os.path.join(room, "bin", "earliest"))
            for folder in ("examples", "python", "tools"):
                shutil.copytree(os.path.join(ROOT, folder), os.path.join(room, folder))
            found += run_in(room, name)
    return [("commands in documents", len(found) >= 15, True), *found]

"""Commands for files: python -m earliest COMMAND .."""
from __future__ import annotations

import ast
import importlib
import importlib.util
import os
import sys
from typing import Dict, List, Optional

COMMANDS: Dict[str, str] = {
    "parts": "earliest.parts",
    "osm": "earliest.osm",
    "gtfs": "earliest.gtfs",
    "sumo": "earliest.sumo",
    "functions": "earliest.functions",
    "nearest": "earliest.nearest",
    "isochrones": "earliest.isochrones",
    "latest": "earliest.latest",
    "serve": "earliest.serve",
    "join": "earliest.join",
}
"""The module of each command. Each has `main(words) -> status`, and the first line of its docstring is its line of help. A command whose
module isn't there is left out."""


def source_of(module: str) -> Optional[str]:
    """Where a module's source is; None if there is no such module."""
    found = importlib.util.find_spec(module)
    return found.origin if found else None


def help_line(path: str) -> str:
    """The first line of a module's docstring, which is read and not run."""
    with open(path, encoding="utf-8") as file:
        return (ast.get_docstring(ast.parse(file.read())) or "").split("\n")[0]


def there() -> Dict[str, str]:
    """The commands whose modules are there, with the paths of these."""
    paths = {name: source_of(module) for name, module in COMMANDS.items()}
    return {name: path for name, path in paths.items() if path}


def usage() -> str:
    """What there is to ask for."""
    from ._version import VERSION

    lines = [f"  {name:<12}{help_line(path)}" for name, path in there().items()]
    return "\n".join([f"earliest {VERSION}: python -m earliest COMMAND ..", "", *lines, "", "`python -m earliest COMMAND --help` tells the words of a command.", ""])


def main(words: List[str]) -> int:
    """Runs a command: its status."""
    if not words or words[0] in ("-h", "--help", "help"):
        (sys.stdout if words else sys.stderr).write(usage())
        return 0 if words else 2
    if words[0] == "--version":
        from ._version import VERSION

        print(VERSION)
        return 0
    if words[0] not in there():
        sys.stderr.write(f"earliest: there is no command {words[0]}; there are {', '.join(there())}\n")
        return 2
    return importlib.import_module(COMMANDS[words[0]]).main(words[1:]) or 0


def run() -> int:
    """The command of the command line. If the reader of a pipe is gone (broken pipe), the exit status is 4 and no message is written."""
    try:
        status = main(sys.argv[1:])
        sys.stdout.flush()
        return status
    except BrokenPipeError:
        # At exit the interpreter flushes what is left in the buffer; send it to the null device.
        os.dup2(os.open(os.devnull, os.O_WRONLY), sys.stdout.fileno())
        return 4


if __name__ == "__main__":
    sys.exit(run())

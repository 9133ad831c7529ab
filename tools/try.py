"""Runs a command of the program without proof: python3 tools/try.py WORD ..

The program is run by `rt try`, which proves nothing and is slow on large files; `make run` builds the proved
one. It gets copies of the files that words name.
"""
import os
import shlex
import subprocess
import sys

sys.dont_write_bytecode = True
import repository


def handed_in(words, folder):
    """The words with each file's name as the program finds it, and the flags of `rt try` that pass the
    files."""
    told, flags = [], []
    for word in words:
        option, equals, value = word.rpartition("=") if word.startswith("-") else ("", "", word)
        path = os.path.join(folder, value)
        if os.path.isfile(path):
            name = f"{len(flags)}-{os.path.basename(value)}"
            flags += ["--data", f"{name}={os.path.abspath(path)}"]
            word = option + equals + name
        told.append(word)
    return told, flags


def main(words):
    told, flags = handed_in(words, os.getcwd())
    print(f"earliest {shlex.join(words)}: run with no proof (rt try); make run builds the proved program", file=sys.stderr, flush=True)
    program = os.path.join(repository.ROOT, "crates", "earliest_program")
    return subprocess.run(["rt", "try", *flags, *(["--", *told] if told else [])], cwd=program).returncode


if __name__ == "__main__":
    sys.exit(main(sys.argv[1:]))

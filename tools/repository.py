"""The repository for its scripts: its path, its crates as crates.txt lists them, `rt` and the tools as
modules."""
import importlib.machinery
import importlib.util
import os
import shutil
import sys

ROOT = os.path.normpath(os.path.join(os.path.dirname(os.path.abspath(__file__)), ".."))


def listed():
    """The lines of crates.txt by crate, and the crates and libraries that each needs."""
    lines, uses = {}, {}
    with open(os.path.join(ROOT, "crates.txt"), encoding="utf-8") as file:
        for line in file:
            words, found, stands_on = line.partition("#")[0].partition(":")
            if found:
                lines[words.split()[0]] = line
                uses[words.split()[0]] = stands_on.split()
    return lines, uses


def below(name, uses):
    """The crates of the repository that a crate needs, without itself."""
    found, left = [], list(uses[name])
    while left:
        one = left.pop()
        if one in uses and one not in found:
            found.append(one)
            left += uses[one]
    return found


def module(name, path):
    """A Python file as a module."""
    loader = importlib.machinery.SourceFileLoader(name, path)
    made = importlib.util.module_from_spec(importlib.util.spec_from_loader(name, loader))
    loader.exec_module(made)
    return made


def tool(name):
    """A script of tools/ as a module."""
    return module(name, os.path.join(ROOT, "tools", name + ".py"))


def kit():
    """`rt` as a module, and its library."""
    program = os.path.realpath(shutil.which("rt"))
    sys.path.insert(0, os.path.dirname(program))
    return module("rt", program), importlib.import_module("rtlib")

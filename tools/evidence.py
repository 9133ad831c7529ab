"""The origin of packages: BUILD.txt, which is in them, and PROOF.txt, which is beside them."""
import os
import re
import shutil
import subprocess
from calendar import timegm

import archives
import repository

# What a line of a gate's log says of what was proved and counted, without the seconds that it took.
COUNTED = re.compile(r"((?:rt ci|tests/\w+): \d+ passed, \d+ failed), \d+ s|(rt: ok; .*)|(\d+ passed, \d+ failed)")


class Refused(Exception):
    """What keeps packages from being made."""


def said(*words):
    """What a command writes, or nothing if it isn't there or fails."""
    try:
        ran = subprocess.run(words, cwd=repository.ROOT, stdin=subprocess.DEVNULL, capture_output=True, text=True, errors="replace")
    except OSError:
        return ""
    return ran.stdout.strip() if ran.returncode == 0 else ""


def text_of(path):
    """The text of a file of the repository."""
    with open(os.path.join(repository.ROOT, path), encoding="utf-8") as file:
        return file.read()


def version():
    """The version, of the file VERSION."""
    return text_of("VERSION").strip()


def commit():
    """The commit that is checked out, if this is a repository of git."""
    return said("git", "rev-parse", "HEAD") if os.path.exists(os.path.join(repository.ROOT, ".git")) else ""


def released():
    """The day of the version, as CHANGELOG.md has it."""
    return re.search(rf"(?m)^## \[{re.escape(version())}\] - (\d{{4}}-\d\d-\d\d)$", text_of("CHANGELOG.md"))[1]


def epoch():
    """The one time of everything that is packed: SOURCE_DATE_EPOCH, else the commit's, else the day of the last version."""
    given = os.environ.get("SOURCE_DATE_EPOCH", "")
    if given and not given.isdecimal():
        raise Refused(f"SOURCE_DATE_EPOCH is no number: {given}")
    if given or commit():
        return int(given or said("git", "log", "-1", "--format=%ct"))
    return timegm((*map(int, released().split("-")), 0, 0, 0))


def changed():
    """The files that differ from the commit."""
    return said("git", "diff", "--name-only", "HEAD").splitlines() if commit() else []


def as_numbers(text):
    """A version as numbers that can be compared."""
    return tuple(map(int, text.split(".")))


def glibc(path):
    """The oldest glibc that has all symbols which a program or a library takes from it."""
    if not shutil.which("objdump"):
        raise Refused("objdump is not there, which tells the oldest glibc: install binutils")
    found = set(re.findall(r"GLIBC_(\d+(?:\.\d+)+)\)?", said("objdump", "-T", path)))
    if not found:
        raise Refused(f"{path} takes no symbol from glibc, so it is no program or library that `make all lib` built")
    return max(found, key=as_numbers)


def kernel(program):
    """The oldest kernel that the program's start-up code was built for, as its ABI note has it."""
    found = re.search(r"OS: Linux, ABI: ([\d.]+)", said("readelf", "-n", program))
    return found[1] if found else "unknown"


def made_by(path):
    """The compilers and linkers that left their names in a program or a library."""
    lines = said("readelf", "-p", ".comment", path).splitlines()
    return [found[1].strip() for found in (re.match(r"\s*\[\s*\w+\]\s+(.*)", line) for line in lines) if found]


def kit(program):
    """The kit of the README, if the program was built by it."""
    named = re.search(r"rattle-kit-\S+ logic (\w+)", text_of("README.md"))
    built = re.search(r"rattle logic=(\w+)", " ".join(made_by(program)))
    if not named or not built:
        raise Refused("the README names no kit" if built else "the program doesn't name the kit that built it")
    if not built[1].startswith(named[1]):
        raise Refused(f"the program was built by a kit with logic {built[1]}, and the README names {named[0]}: run `make all lib`")
    return named[0]


def build_text(program, static, shared):
    """BUILD.txt: the same for every build of one commit, if builds repeat."""
    lines = [f"earliest {version()}, x86_64-linux", f"commit {commit() or 'unknown'}"]
    lines += [f"  changed since: {line}" for line in changed()]
    lines += [f"kit {kit(program)}", f"SOURCE_DATE_EPOCH {epoch()}", ""]
    for path, name in ((program, "bin/earliest"), (static, "lib/libearliest.a"), (shared, "lib/libearliest.so")):
        lines.append(f"{archives.sha256(path)}  {name}")
    for path, name in ((program, "bin/earliest"), (shared, "lib/libearliest.so")):
        lines += ["", f"{name} needs glibc {glibc(path)} or later" + (f" and Linux {kernel(program)} or later (its ABI note)" if path == program else "")]
        lines += [f"  made by {it}" for it in made_by(path)]
    return "\n".join(lines) + "\n"


def of_the_gate(log):
    """What a log of the gate counts, or that none was given."""
    if not log:
        return ["unknown: no log of the gate was given. `make test > gate.log; make dist LOG=gate.log` writes it here."]
    with open(log, encoding="utf-8", errors="replace") as file:
        lines = file.read().splitlines()
    counted = [next(filter(None, found.groups())) for found in map(COUNTED.fullmatch, lines) if found]
    if not lines or not re.fullmatch(r"\d+ passed, 0 failed", lines[-1]) or not any(it.startswith("rt ci: ") for it in counted):
        raise Refused(f"{log} is no log of a gate that passed: its last line has to be `N passed, 0 failed`, and a line counts what rt ci passed")
    return [it for it in counted if not it[0].isdigit()] + counted[-1:]


def proof_text(build, counted, packages):
    """PROOF.txt: the origin of the packages, what the gate said, and how to make the same bytes."""
    here = said("rt", "version")
    lines = ["Packages", "", *(f"{archives.sha256(path)}  {os.path.basename(path)}" for path in packages), "", "Build", "", build]
    lines += ["The packer takes the program, the library and the log of the gate as it finds them. It can't tell which sources they were",
              "built from; a build of the commit can (below). rt here: " + (here or "not there") + ".", ""]
    lines += ["What the gate proved and counted", "", *counted, "", "docs/claims.md says what is proved, tested and trusted.", ""]
    lines += ["How to make the same bytes", "", f"git checkout {commit() or 'COMMIT'}",
              "make all lib                 # needs the kit named above, and the compilers",
              f"SOURCE_DATE_EPOCH={epoch()} make dist",
              "make reproduce BUILD=1       # builds twice, in two folders, and compares"]
    return "\n".join(lines) + "\n"

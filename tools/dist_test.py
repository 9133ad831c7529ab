"""Installs the packages of dist/ on bare Debian systems and tries them: python3 tools/dist_test.py [SUITE ..]

A suite is a name that debootstrap knows; without one, the stable Debian and the one before it. Each is made anew in a folder of /tmp, without
compilers, from the server that MIRROR names or deb.debian.org, tried by packaging/try-installed.sh, and removed. On a system whose glibc is
older than the program needs, the program and the Debian package have to refuse it, and the rest has to work. Needs root and debootstrap; the
last line is `N passed, M failed`.
"""
import os
import re
import shutil
import subprocess
import sys
import tempfile

sys.dont_write_bytecode = True
import archives
import evidence
import repository

ROOT = repository.ROOT
DIST, PROGRAM = os.path.join(ROOT, "dist"), os.path.join(ROOT, "bin", "earliest")
SUITES = ("stable", "oldstable")
MIRROR = os.environ.get("MIRROR", "http://deb.debian.org/debian")
# What is mounted in a name space goes with it, so that nothing but the folder has to be removed.
APART = ("unshare", "--mount", "--propagation", "private")
# The page, and the modules of Python by which the wheel is installed.
EXTRA = "man-db,python3,python3-venv"


def first_example():
    """The README's first block of commands and what it shows, with the program found by PATH."""
    block = next(re.finditer(r"(?ms)^```\n(\$ .*?)^```", evidence.text_of("README.md")))[1]
    commands = [line[2:].replace("bin/earliest", "earliest") for line in block.splitlines() if line.startswith("$ ")]
    shown = [line for line in block.splitlines() if not line.startswith("$ ")]
    # The folder of the documents may be the system's.
    script = "examples=$PWD\nroom=$(mktemp -d) && cd \"$room\" && ln -s \"$examples/examples\" examples\n" + "\n".join(commands)
    return script + "\n", "\n".join(shown) + "\n"


def python_example(program):
    """What examples/many_sources.py has to print, from the reports of a program."""
    arcs = re.search(r"(?m)^p sp (\d+) (\d+)", evidence.text_of("examples/road.gr"))
    lines = [f"{arcs[1]} nodes, {arcs[2]} arcs"]
    with tempfile.TemporaryDirectory() as room:
        archives.put(room, "four.ss", "p aux sp ss 4\ns 1\ns 2\ns 3\ns 4\n")
        files = ["examples/road.gr", os.path.join(room, "four.ss"), "--tp", "examples/road.tp"]
        words = [program, "run", *files, "--depart", "1000", "--walks"]
        report = subprocess.run(words, cwd=ROOT, stdout=subprocess.PIPE, text=True, check=True).stdout
    for source, part in enumerate(re.split(r"(?m)^s .*\n", report)[1:], 1):
        time, node = max((int(time), int(node)) for node, time in re.findall(r"(?m)^d (\d+) (\d+)$", part))
        lines.append(f"from {source}: node {node} is reached last, at {time}")
        # A line of a walk counts its arcs first.
        walk = re.search(rf"(?m)^w {node} \d+ ?(.*)$", part)[1]
    return "\n".join([*lines, f"to it from 4: {walk}"]) + "\n"


def filled(room):
    """Puts the packages, the expected outputs and the script into a system."""
    root = os.path.join(room, "root")
    shutil.copytree(DIST, os.path.join(root, "dist"))
    script, shown = first_example()
    for name, text in (("example.sh", script), ("example.out", shown), ("python.out", python_example(PROGRAM))):
        archives.put(root, f"wanted/{name}", text)
    archives.copy(os.path.join(ROOT, "packaging", "try-installed.sh"), root, "try-installed.sh", is_program=True)


def tried(suite):
    """Makes a system, tries the packages on it and removes it: how many steps passed and failed."""
    room = tempfile.mkdtemp(prefix=f"earliest-{suite}-")
    try:
        words = [*APART, "debootstrap", "--variant=minbase", f"--include={EXTRA}", suite, room, MIRROR]
        made = subprocess.run(words, capture_output=True, text=True, errors="replace")
        if made.returncode:
            print(f"FAILED {suite}: debootstrap: {(made.stdout + made.stderr).strip().splitlines()[-1]}")
            return 0, 1
        filled(room)
        needed = evidence.glibc(PROGRAM)
        inside = f'mount -t proc proc "{room}/proc" && exec chroot "{room}" /root/try-installed.sh {evidence.version()} {needed}'
        ran = subprocess.run([*APART, "sh", "-c", inside], capture_output=True, text=True, errors="replace")
        print("".join(f"{suite}: {line}\n" for line in (ran.stdout + ran.stderr).splitlines()), end="", flush=True)
        passed, failed = (len(re.findall(rf"(?m)^{word} ", ran.stdout)) for word in ("ok", "FAILED"))
        return passed, failed + (passed == 0 or ran.returncode != 0)
    finally:
        shutil.rmtree(room, ignore_errors=True)


def lacking():
    """What keeps systems from being made here."""
    if os.geteuid() != 0:
        return "it needs root"
    absent = [name for name in ("debootstrap", "unshare", "chroot") if not shutil.which(name)]
    return f"{absent[0]} is not there: apt-get install {'debootstrap' if absent[0] == 'debootstrap' else 'util-linux coreutils'}" if absent else None


def main(words):
    why = lacking()
    if why:
        print(f"dist-test: nothing is tried: {why}", file=sys.stderr)
        return 1
    if not os.path.isfile(os.path.join(DIST, "SHA256SUMS")):
        print("dist-test: dist/ has no packages: run `make dist` first", file=sys.stderr)
        return 1
    passed = failed = 0
    for suite in words or SUITES:
        well, ill = tried(suite)
        passed, failed = passed + well, failed + ill
    print(f"{passed} passed, {failed} failed")
    return 1 if failed else 0


if __name__ == "__main__":
    sys.exit(main(sys.argv[1:]))

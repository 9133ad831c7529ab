"""Outputs of reports: streams and descriptors by name; files that are replaced, kept or unchanged; part
files that a killed run left; and processes that begin with closed descriptors."""
import os
import shutil
import signal
import stat
import subprocess
import tempfile
import time

HERE = os.path.dirname(os.path.abspath(__file__))
EXAMPLES = os.path.join(HERE, "..", "..", "examples")
FILES = ["four-nodes.gr", "four-nodes.ss"]
NOBODY = 65534
# How late a network comes, in seconds: progress is reported from the first on.
PAUSE = 2.0


def read(*path):
    """The content of a file; None if it is missing."""
    try:
        with open(os.path.join(*path), "rb") as file:
            return file.read()
    except FileNotFoundError:
        return None


REPORT = read(EXAMPLES, "four-nodes.report")


def ran(program, words, **how):
    """Status, standard output and standard error of the program among the examples."""
    how = {"stdin": subprocess.DEVNULL, "stdout": subprocess.PIPE, "stderr": subprocess.PIPE, "cwd": EXAMPLES, "timeout": 60, **how}
    run = subprocess.run([program, *words], **how)
    return run.returncode, run.stdout, run.stderr


def streams(program, folder):
    """Names of descriptors: their earlier content stays, and no link of the system is replaced."""
    try:
        yield from _streams(program, folder)
    finally:
        # A program that replaces these as root leaves the machine without them.
        for name, number in (("/dev/stdout", 1), ("/dev/stderr", 2)):
            if not os.path.islink(name) and os.geteuid() == 0:
                os.remove(name)
                os.symlink(f"/proc/self/fd/{number}", name)


def _streams(program, folder):
    link = os.path.join(folder, "link")
    os.symlink("/dev/stdout", link)
    yield "-o /dev/stdout, captured", ran(program, ["run", *FILES, "-o", "/dev/stdout"]), (0, REPORT, b"")
    for name in ("/dev/stdout", "/dev/fd/1", "/proc/self/fd/1", "/proc/thread-self/fd/1", "/dev/../dev/stdout", link):
        log = os.path.join(folder, "log")
        with open(log, "wb") as file:
            file.write(b"before\n")
        with open(log, "ab") as file:
            status = ran(program, ["run", *FILES, "-o", name], stdout=file)[::2]
        yield f"-o {name} >> log", (status, read(log)), ((0, b""), b"before\n" + REPORT)
    yield "/dev/stdout is still a link", os.path.islink("/dev/stdout"), True
    yield "-o /dev/stderr", ran(program, ["run", *FILES, "-o", "/dev/stderr"]), (0, b"", REPORT)
    for name in ("/dev/stderr", "/dev/fd/2"):
        with open(log, "wb") as file:
            file.write(b"before\n")
        with open(log, "ab") as file:
            status = ran(program, ["run", *FILES, "-o", name], stderr=file)[:2]
        yield f"-o {name} 2>> log", (status, read(log)), ((0, b""), b"before\n" + REPORT)
    yield "/dev/stderr is still a link", os.path.islink("/dev/stderr"), True
    reader, writer = os.pipe()
    yield "-o /dev/fd/N, a pipe", ran(program, ["run", *FILES, "-o", f"/dev/fd/{writer}"], pass_fds=(writer,)), (0, b"", b"")
    os.close(writer)
    with open(reader, "rb") as pipe:
        yield "what came through it", pipe.read(), REPORT
    log = os.path.join(folder, "third")
    with open(log, "wb") as file:
        file.write(b"before\n")
        file.flush()
        yield "-o /proc/self/fd/N, a file", ran(program, ["run", *FILES, "-o", f"/proc/self/fd/{file.fileno()}"], pass_fds=(file.fileno(),)), (0, b"", b"")
    yield "what it has", read(log), b"before\n" + REPORT


def closed(program, folder):
    """Descriptors that are closed when the program begins: no file takes their number."""
    out = os.path.join(folder, "closed")

    def close(*numbers):
        return lambda: [os.close(number) for number in numbers]

    bare = {"stdin": None, "stdout": None, "stderr": None}
    for numbers in ((0,), (1,), (2,), (0, 1), (1, 2), (0, 1, 2)):
        status = subprocess.run([program, "run", *FILES, "-o", out, "--progress"], cwd=EXAMPLES, preexec_fn=close(*numbers), timeout=60, **bare).returncode
        yield f"descriptors {numbers} closed", (status, read(out)), (0, REPORT)
        if os.path.exists(out):
            os.remove(out)
    run = subprocess.run([program, "run", "-", FILES[1]], cwd=EXAMPLES, preexec_fn=close(0), stdout=subprocess.PIPE, stderr=subprocess.PIPE, timeout=60)
    yield "- without standard input", (run.returncode, run.stdout, run.stderr), (1, b"", b"earliest: gr 0: 1 NoProblemLine\n")
    run = subprocess.run([program, "run", *FILES], cwd=EXAMPLES, preexec_fn=close(1), stderr=subprocess.PIPE, timeout=60)
    yield "a report without standard output", (run.returncode, run.stderr), (0, b"")
    # The network comes so late that lines of progress are written: none of them gets into the report.
    pipe = os.path.join(folder, "late")
    os.mkfifo(pipe)
    with subprocess.Popen([program, "run", pipe, os.path.join(EXAMPLES, FILES[1]), "-o", out, "--progress"], preexec_fn=close(0, 1, 2), **bare) as run:
        with open(pipe, "wb") as late:
            time.sleep(PAUSE)
            late.write(read(EXAMPLES, FILES[0]))
        yield "progress without descriptors", (run.wait(60), read(out)), (0, REPORT)


def named(program, folder):
    """Files by name: what is created, what stays, what is refused."""
    unopened = (4, b"", b"earliest: out: 15 OpenFailed\n")
    place = os.path.join(folder, "place")
    os.mkdir(place)
    inputs = [os.path.join(EXAMPLES, name) for name in FILES]
    for name in ("", ".", "..", "no/such/folder/report", "place/"):
        yield f"-o {name!r}", ran(program, ["run", *inputs, "-o", name], cwd=folder), unopened
    yield "nothing is left behind", sorted(os.listdir(place)), []
    os.symlink("made", os.path.join(place, "dangling"))
    os.symlink(os.path.join(place, "dangling"), os.path.join(place, "twice"))
    yield "-o a link to a link that leads nowhere", ran(program, ["run", *inputs, "-o", os.path.join(place, "twice")]), (0, b"", b"")
    yield "the file that it names", (read(place, "made"), os.path.islink(os.path.join(place, "dangling"))), (REPORT, True)
    os.symlink("round", os.path.join(place, "round"))
    yield "-o a link to itself", ran(program, ["run", *inputs, "-o", os.path.join(place, "round")]), unopened
    for size in (239, 240, 250, 255):
        name = os.path.join(place, "n" * size)
        yield f"a name of {size} bytes", (ran(program, ["run", *inputs, "-o", name]), read(name)), ((0, b"", b""), REPORT)
    wide = os.path.join(place, "\u00fc" * 125)
    yield "a name of 125 letters of two bytes", (ran(program, ["run", *inputs, "-o", wide]), read(wide)), ((0, b"", b""), REPORT)
    yield "a name of 256 bytes", ran(program, ["run", *inputs, "-o", os.path.join(place, "n" * 256)]), unopened
    for mode in (0o600, 0o640, 0o604, 0o444):
        name = os.path.join(place, "private")
        with open(name, "wb") as file:
            file.write(b"old")
        os.chmod(name, mode)
        status = ran(program, ["run", *inputs, "-o", name])
        yield f"permissions {mode:o}", (status, read(name), stat.S_IMODE(os.stat(name).st_mode)), ((0, b"", b""), REPORT, mode)
        if os.path.exists(name):
            os.remove(name)
    yield "no part file is left", [name for name in os.listdir(place) if ".part" in name], []


def begun(program, folder, name):
    """A run that has opened its output and waits for its network, and the pipe that it waits at."""
    pipe = os.path.join(folder, "pipe")
    if os.path.exists(pipe):
        os.remove(pipe)
    os.mkfifo(pipe)
    run = subprocess.Popen([program, "run", pipe, os.path.join(EXAMPLES, FILES[1]), "-o", name], stdout=subprocess.PIPE, stderr=subprocess.PIPE)
    writer = open(pipe, "wb")
    until = time.monotonic() + 30
    while not any(".part" in it for it in os.listdir(os.path.dirname(name))) and time.monotonic() < until:
        time.sleep(0.01)
    return run, writer


def ended(run, writer):
    """Sends the run its network. Returns status, standard output and standard error."""
    writer.write(read(EXAMPLES, FILES[0]))
    writer.close()
    out, errors = run.communicate(timeout=60)
    return run.returncode, out, errors


def parts(program, folder):
    """Part files: each run takes over those that a killed run left, and none that another run holds."""
    place = os.path.join(folder, "parts")
    os.mkdir(place)
    name, words = os.path.join(place, "report"), ["run", *FILES, "-o", os.path.join(place, "report")]
    for ending in (signal.SIGINT, signal.SIGTERM, signal.SIGHUP, signal.SIGKILL):
        run, writer = begun(program, folder, name)
        run.send_signal(ending)
        run.wait(60)
        writer.close()
        run.communicate()
        yield f"a part file after signal {ending}", sorted(os.listdir(place)), ["report.part0"]
        yield "the next run takes it over", (ran(program, words), sorted(os.listdir(place)), read(name)), ((0, b"", b""), ["report"], REPORT)
        if os.path.exists(name):
            os.remove(name)
    first, writer = begun(program, folder, name)
    yield "a run beside another", (ran(program, words), sorted(os.listdir(place)), read(name)), ((0, b"", b""), ["report", "report.part0"], REPORT)
    yield "the other one goes on", (ended(first, writer), sorted(os.listdir(place)), read(name)), ((0, b"", b""), ["report"], REPORT)
    os.remove(name)
    run, writer = begun(program, folder, name)
    os.mkdir(name)
    status, out, errors = ended(run, writer)
    said = f"earliest: the whole report is in {name}.part0\nearliest: 12 WriteFailed after ".encode()
    yield "a file that became a folder", (status, out, errors[: len(said)], read(name + ".part0")), (4, b"", said, REPORT)
    os.rmdir(name)
    os.remove(name + ".part0")
    for number in range(1200):
        open(os.path.join(place, f"report.part{number}"), "wb").close()
    yield "1,200 part files", (ran(program, words), len(os.listdir(place)), read(name)), ((0, b"", b""), 1200, REPORT)
    victim = os.path.join(folder, "victim")
    with open(victim, "wb") as file:
        file.write(b"kept")
    for make in (os.symlink, os.link):
        shutil.rmtree(place)
        os.mkdir(place)
        make(victim, name + ".part0")
        yield f"a part file that another made by {make.__name__}", (ran(program, words), read(victim), read(name)), ((0, b"", b""), b"kept", REPORT)
    with open(os.path.join(HERE, "..", "..", "docs", "guide", "commands.md"), encoding="utf-8") as page:
        text = page.read()
    yield "the page tells of part files", [it in text for it in ("named FILE`.part0`", "A killed run leaves its part file")], [True, True]


def guarded(program, folder):
    """Files that can't be replaced: written directly, or refused before the search. A report that can't be
    moved into place is kept."""
    if os.geteuid() != 0:
        print("left out: files that can't be replaced, which only root can make")
        return
    place, inputs = os.path.join(folder, "guarded"), os.path.join(folder, "inputs")
    os.mkdir(place)
    os.mkdir(inputs)
    os.chmod(folder, 0o755)
    for file in FILES:
        shutil.copy(os.path.join(EXAMPLES, file), inputs)
    tool = os.path.join(inputs, "earliest")
    shutil.copy(program, tool)
    name = os.path.join(place, "report")
    words = ["run", *(os.path.join(inputs, it) for it in FILES), "-o", name]
    unopened = (4, b"", b"earliest: out: 15 OpenFailed\n")

    def old(owner, mode):
        with open(name, "wb") as file:
            file.write(b"an old report that is longer than the new one, so that it has to be cut")
        os.chown(name, owner, owner)
        os.chmod(name, mode)

    old(NOBODY, 0o640)
    yield "a file keeps its owner", (ran(tool, words), os.stat(name).st_uid, os.stat(name).st_gid, stat.S_IMODE(os.stat(name).st_mode), read(name)), ((0, b"", b""), NOBODY, NOBODY, 0o640, REPORT)
    old(NOBODY, 0o644)
    os.chmod(place, 0o555)
    yield "a file in a folder that takes none", (ran(tool, words, user=NOBODY), read(name)), ((0, b"", b""), REPORT)
    os.remove(name)
    yield "no file in a folder that takes none", (ran(tool, words, user=NOBODY), os.listdir(place)), (unopened, [])
    os.chmod(place, 0o1777)
    old(0, 0o644)
    yield "another's file in a sticky folder", (ran(tool, words, user=NOBODY), os.listdir(place)), (unopened, ["report"])
    old(0, 0o666)
    yield "another's file in a sticky folder that may be written", (ran(tool, words, user=NOBODY), read(name), os.listdir(place)), ((0, b"", b""), REPORT, ["report"])
    if subprocess.run(["chattr", "+i", name], capture_output=True).returncode == 0:
        try:
            yield "an immutable file", (ran(program, words), os.listdir(place)), (unopened, ["report"])
            subprocess.run(["chattr", "-i", name], check=True)
            run, writer = begun(program, folder, name)
            subprocess.run(["chattr", "+i", name], check=True)
            status, out, errors = ended(run, writer)
            kept = f"earliest: the whole report is in {name}.part0\n".encode()
            told = errors.startswith(kept) and errors[len(kept):].startswith(b"earliest: 12 WriteFailed after ")
            yield "a file that became immutable", (status, out, told, read(name + ".part0")), (4, b"", True, REPORT)
        finally:
            subprocess.run(["chattr", "-i", name], check=True)
    else:
        print("left out: immutable files, which this file system doesn't have")
    bound = os.path.join(inputs, "bound")
    with open(bound, "wb") as file:
        file.write(b"old")
    if subprocess.run(["mount", "--bind", bound, name], capture_output=True).returncode == 0:
        try:
            yield "a file that is a mount", (ran(program, words), read(bound), sorted(it for it in os.listdir(place) if it == "report.part1")), ((0, b"", b""), REPORT, [])
        finally:
            subprocess.run(["umount", name], check=True)
    else:
        print("left out: a file that is a mount, which isn't allowed here")


def results(program):
    """Each test with its result and the expected one."""
    with tempfile.TemporaryDirectory(prefix="outputs-") as folder:
        found = []
        for tests in (streams, closed, named, parts, guarded):
            found += tests(program, folder)
        return found


if __name__ == "__main__":
    import sys

    for test, was, want in results(os.path.abspath(sys.argv[1])):
        if was != want:
            print("failed:", test, was, "and not", want)

"""Names, option values and words with control bytes, escape sequences or marks that change the order of
text: a terminal gets `?` in their place, anything else the bytes themselves."""
import os
import pty
import subprocess
import tempfile
import time

HERE = os.path.dirname(os.path.abspath(__file__))
EXAMPLES = os.path.join(HERE, "..", "..", "examples")
EVIL = "a\x1b[31m\x07\u202eb\u0085\u2066.gr"
SHOWN = "a?[31m??b??.gr"


# Control bytes, and marks that change the order of text.
HARMFUL = "".join(map(chr, [*range(1, 32), *range(127, 160), 0x61C, 0x200E, 0x200F, *range(0x202A, 0x202F), *range(0x2066, 0x206A)]))


def on_terminal(program, words, meanwhile=None):
    """Status and standard error of the program, with a terminal as standard error. `meanwhile` is called after its begin."""
    ours, theirs = pty.openpty()
    run = subprocess.Popen([program, *words], cwd=EXAMPLES, stdin=subprocess.DEVNULL, stdout=subprocess.DEVNULL, stderr=theirs)
    os.close(theirs)
    if meanwhile:
        meanwhile()
    said = b""
    while True:
        try:
            piece = os.read(ours, 65536)
        except OSError:
            break
        if not piece:
            break
        said += piece
    os.close(ours)
    return run.wait(60), said.decode().replace("\r\n", "\n")


def results(program):
    """Each test with its result and the expected one."""
    unopened = f"earliest: gr: 15 OpenFailed\n  {SHOWN}: there is no such file\n"
    found = [("a file's name on a terminal", on_terminal(program, ["run", EVIL, "four-nodes.ss"]), (4, unopened))]
    value = f"earliest: 14 BadOption\n  --seed {SHOWN}: it has to be a whole number from 0 to 18446744073709551615\n"
    found.append(("an option's value on a terminal", on_terminal(program, ["run", "four-nodes.gr", "four-nodes.ss", "--seed", EVIL]), (2, value)))
    status, said = on_terminal(program, ["run", "four-nodes.gr", "four-nodes.ss", EVIL])
    found.append(("a word too many on a terminal", (status, SHOWN in said, "\x1b" in said, "\u202e" in said), (2, True, False, False)))
    status, said = on_terminal(program, ["explain", EVIL])
    found.append(("a fault that isn't there on a terminal", (status, SHOWN in said, "\x1b" in said), (2, True, False)))
    found.append(("all that does harm on a terminal", on_terminal(program, ["run", "four-nodes.gr", "four-nodes.ss", "--seed", HARMFUL]), (2, value.replace(SHOWN, "?" * len(HARMFUL)))))
    with tempfile.TemporaryDirectory() as folder:
        name, pipe, out = (os.path.join(folder, it) for it in (EVIL, "pipe", "o" + EVIL))
        with open(name, "w", encoding="ascii") as file:
            file.write("p sp 1 1\nx\n")
        status, said = on_terminal(program, ["run", name, "four-nodes.ss"])
        found.append(("a name at a faulty line on a terminal", (status, f"/{SHOWN}, line 2: x\n" in said, "\x1b" in said), (1, True, False)))
        os.mkfifo(pipe)

        def stand_in_the_way():
            """The report's name becomes a folder while the network is awaited."""
            until = time.monotonic() + 30
            with open(pipe, "wb") as late:
                while not os.path.exists(out + ".part0") and time.monotonic() < until:
                    time.sleep(0.01)
                os.mkdir(out)
                late.write(b"p sp 4 0\n")

        status, said = on_terminal(program, ["run", pipe, "four-nodes.ss", "-o", out], stand_in_the_way)
        found.append(("a part file's name on a terminal", (status, f"whole report is in {folder}/o{SHOWN}.part0\n" in said, "\x1b" in said), (4, True, False)))
    run = subprocess.run([program, "run", EVIL, "four-nodes.ss", "--explain"], cwd=EXAMPLES, stdin=subprocess.DEVNULL, capture_output=True, timeout=60)
    plain = f"earliest: gr: 15 OpenFailed\n  {EVIL}: there is no such file\n".encode()
    return [*found, ("a file's name into a pipe", (run.returncode, run.stderr), (4, plain))]

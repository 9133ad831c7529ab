"""What people do: pipes into the program, reports into files, texts that can't be written, and first
mistakes with their answers."""
import gzip
import os
import select
import shutil
import subprocess
import sys
import tempfile
import time

HERE = os.path.dirname(os.path.abspath(__file__))
EXAMPLES = os.path.join(HERE, "..", "..", "examples")
sys.path.insert(0, os.path.join(HERE, "..", "..", "tools"))
import repository

pages = repository.tool("pages")


def read(name):
    with open(os.path.join(EXAMPLES, name), "rb") as file:
        return file.read()


GRAPH, REPORT = read("four-nodes.gr"), read("four-nodes.report")
UNWRITTEN = b"earliest: 12 WriteFailed after 0 bytes\n"
BAD = b"earliest: 14 BadOption\n"


def fed(program, words, given):
    """Status, standard output and standard error of the program on words and a pipe."""
    run = subprocess.run([program, *words.split()], cwd=EXAMPLES, input=given, capture_output=True, timeout=60)
    return run.returncode, run.stdout, run.stderr


def piped(program):
    """Standard input for each file, after `--` and as `--tp=-` too, and for two."""
    yield "- as the network", fed(program, "run - four-nodes.ss", GRAPH), (0, REPORT, b"")
    yield "- after --", fed(program, "run -- - four-nodes.ss", GRAPH), (0, REPORT, b"")
    yield "- as the sources", fed(program, "run four-nodes.gr -", read("four-nodes.ss")), (0, REPORT, b"")
    yield "- as the report", fed(program, "check four-nodes.gr four-nodes.ss -", REPORT), (0, b"ok\n", b"")
    for words in ("--tp -", "--tp=-"):
        run = fed(program, f"run every-ten.gr four-nodes.ss --depart 1 {words}", read("every-ten.tp"))
        yield f"- as the timetables, {words}", run, (0, read("every-ten.report"), b"")
    yield "- as the pairs", fed(program, "pairs four-nodes.gr -", read("four-nodes.p2p")), (0, read("four-nodes.p2p.report"), b"")
    yield "nothing at all", fed(program, "run - four-nodes.ss", b""), (1, b"", b"earliest: gr 0: 1 NoProblemLine\n")
    for words in ("run - -", "run - nothing.ss --tp=-", "check nothing.gr - -", "pairs - -", "rank -- - -"):
        yield f"two files: {words}", fed(program, words, GRAPH), (2, b"", BAD)


def into(program, words, name, **how):
    """The program with its output into a file or device: status, standard error, and what is in the folder."""
    run = subprocess.run([program, *words.split()], cwd=EXAMPLES, stdin=subprocess.DEVNULL, capture_output=True, timeout=60, **how)
    folder = os.path.dirname(name)
    there = {it: open(os.path.join(folder, it), "rb").read() for it in sorted(os.listdir(folder))}
    return run.returncode, run.stdout, run.stderr, there


def filed(program):
    """Reports into files, which are whole or unchanged."""
    with tempfile.TemporaryDirectory() as folder:
        name = os.path.join(folder, "report")
        for option in (f"-o {name}", f"--output {name}", f"--output={name}", f"-o{name}"):
            yield f"into a file {option[:9]}", into(program, f"run four-nodes.gr four-nodes.ss {option}", name), (0, b"", b"", {"report": REPORT})
        yield "pairs into a file", into(program, f"pairs four-nodes.gr four-nodes.p2p -o {name}", name), (0, b"", b"", {"report": read("four-nodes.p2p.report")})
        ranks = {"report": b"s 1 0\nr 6 0 0\n"}
        yield "ranks into a file", into(program, f"rank four-nodes.gr four-nodes.ss --workers 1 -o {name}", name), (0, b"", b"", ranks)
        yield "a fault leaves the file", into(program, f"run four-nodes.ss four-nodes.ss -o {name}", name), (1, b"", b"earliest: gr 1: 9 BadKind\n", ranks)
        yield "a file missing comes first", into(program, f"run nothing.gr four-nodes.ss -o {name}/x", name), (4, b"", b"earliest: gr: 15 OpenFailed\n", ranks)
        unmade = (4, b"", b"earliest: out: 15 OpenFailed\n", ranks)
        yield "no such folder", into(program, f"run four-nodes.gr four-nodes.ss -o {name}/x", name), unmade
        yield "a folder", into(program, f"run four-nodes.gr four-nodes.ss -o {folder}", name), unmade
        yield "a place before the files' faults", into(program, f"run four-nodes.ss four-nodes.ss -o {folder}", name), unmade
        yield "a full device", into(program, "run four-nodes.gr four-nodes.ss -o /dev/full", name), (4, b"", UNWRITTEN, ranks)
        yield "standard output", into(program, "run four-nodes.gr four-nodes.ss -o -", name), (0, REPORT, b"", ranks)

        def little():
            import resource
            import signal

            signal.signal(signal.SIGXFSZ, signal.SIG_IGN)
            resource.setrlimit(resource.RLIMIT_FSIZE, (7, 7))

        cut = (4, b"", b"earliest: 12 WriteFailed after 7 bytes\n", ranks)
        yield "a file that may have seven bytes", into(program, f"run four-nodes.gr four-nodes.ss -o {name}", name, preexec_fn=little), cut
        os.symlink("report", os.path.join(folder, "link"))
        linked = {"link": REPORT, "report": REPORT}
        yield "a link's file", into(program, f"run four-nodes.gr four-nodes.ss -o {folder}/link", name), (0, b"", b"", linked)


def unwritten(program):
    """Texts that were asked for: a full device fails with a line, a broken pipe without."""
    for words in ("", "check four-nodes.gr four-nodes.ss four-nodes.report", "--help", "run --help", "--version", "explain", "explain 6", "formats"):
        with open("/dev/full", "wb") as full:
            run = subprocess.run([program, *words.split()], cwd=EXAMPLES, stdin=subprocess.DEVNULL, stdout=full, stderr=subprocess.PIPE, timeout=60)
        yield f"into a full device: {words}", (run.returncode, run.stderr), (4, UNWRITTEN)
        reader, writer = os.pipe()
        os.close(reader)
        run = subprocess.run([program, *words.split()], cwd=EXAMPLES, stdin=subprocess.DEVNULL, stdout=writer, stderr=subprocess.PIPE, timeout=60)
        os.close(writer)
        yield f"into a closed pipe: {words}", (run.returncode, run.stderr), (4, b"")


# First mistakes: the content of a file, the words with {} for its name, and the output with {} for its name.
MISTAKES = (
    (b"p sp 2 1\ne 1 2\n", "run {} four-nodes.ss", 1, "earliest: gr 2: 3 UnknownLine\n  {}, line 2: e 1 2\n  `e` lines are edges of other formats: write each as an arc `a U V W`, and as two where it goes both ways\n"),
    (b"p aux sp ss 1\ns 0\n", "run four-nodes.gr {}", 1, "earliest: ss 2: 6 OutOfRange\n  {}, line 2: s 0\n  a source is a node: `s S`; S is 1 to the network's number of nodes, and 0 is none\n"),
    (b"p aux sp ss 1\ns 1\n", "run {} four-nodes.gr", 1, "earliest: gr 1: 9 BadKind\n  {}, line 1: p aux sp ss 1\n  this looks like a file of sources (.ss), which is the second file: earliest run GR SS\n"),
    (b"p sp 2 1\r\na 1 2\r\n", "run {} four-nodes.ss", 1, "earliest: gr 2: 4 FieldCount\n  {}, line 2: a 1 2\n  an arc needs tail, head and weight: `a U V W`; U and V are nodes, 1 to N of the problem line, and W is 0 to 4294967295\n"),
    (b"p sp 2 2\na 1 2 7\n", "run {} four-nodes.ss", 1, "earliest: gr 0: 8 TooFewLines\n  there are fewer lines than the problem line announces: the file was cut short, or the number is wrong\n"),
    (b"a\t1 " + b"9" * 200 + b" \xff\n", "run {} four-nodes.ss", 1, "earliest: gr 1: 1 NoProblemLine\n  {}, line 1: a 1 " + "9" * 116 + "\n  the problem line is `p sp N M`: N nodes, 1 to 67108864, and M arcs, 0 to 268435456\n"),
    (b"p sp 2 1\na 1 2 \xff\x1b\n", "run {} four-nodes.ss", 1, "earliest: gr 2: 5 BadNumber\n  {}, line 2: a 1 2 ??\n  an arc needs tail, head and weight: `a U V W`; U and V are nodes, 1 to N of the problem line, and W is 0 to 4294967295\n"),
    (gzip.compress(GRAPH, mtime=0), "run {} four-nodes.ss", 1, "earliest: gr 1: 3 UnknownLine\n  {}: this looks like a gzip file: zcat it into -, as in `zcat FILE | earliest run - starts.ss`\n"),
    (b"\x28\xb5\x2f\xfd\x04\x00", "run {} four-nodes.ss", 1, "earliest: gr 1: 3 UnknownLine\n  {}: this looks like a zstd file: zstdcat it into -, as in `zstdcat FILE | earliest run - starts.ss`\n"),
    (b"\xef\xbb\xbf" + GRAPH, "run {} four-nodes.ss", 1, "earliest: gr 1: 3 UnknownLine\n  {}: the file begins with a byte-order mark: save it as UTF-8 without one, or as ASCII\n"),
    (GRAPH.decode().encode("utf-16"), "run {} four-nodes.ss", 1, "earliest: gr 1: 3 UnknownLine\n  {}: this looks like UTF-16: save it as UTF-8 without a byte-order mark, or as ASCII\n"),
    (GRAPH.replace(b"\n", b"\r"), "run {} four-nodes.ss", 1, "earliest: gr 1: 4 FieldCount\n  {}: its lines end in carriage returns alone, as on old Macs: save it with line feeds\n"),
    (REPORT.replace(b"d 4 6", b"d 4 7"), "check four-nodes.gr four-nodes.ss {}", 5, "earliest: check 2 NotAttained line 5\n  {}, line 5: d 4 7\n  a line of the report names a time at which nothing arrives, or a walk that doesn't arrive then\n"),
    (b"", "run nothing.gr four-nodes.ss", 4, "earliest: gr: 15 OpenFailed\n  nothing.gr: there is no such file\n"),
    (b"", "run . four-nodes.ss", 4, "earliest: gr: 11 ReadFailed\n  .: it is a directory\n"),
    (b"", "run four-nodes.gr four-nodes.ss -o {}/x", 4, "earliest: out: 15 OpenFailed\n  {}/x: a part of its path is no directory\n"),
    (b"", "run four-nodes.gr four-nodes.ss -o /dev/full", 4, "earliest: 12 WriteFailed after 0 bytes\n  the output: no space is left on the device\n"),
    (b"", "run four-nodes.gr four-nodes.ss --depart 8:00", 2, "earliest: 14 BadOption\n  --depart 8:00: it has to be a whole number from 0 to 281474976710655\n  times are counted in the units of the weights: 8:00 is 28800 where these are seconds\n"),
    (b"", "rank four-nodes.gr four-nodes.ss --workers 17", 2, "earliest: 14 BadOption\n  --workers 17: it has to be a whole number from 1 to 16\n"),
    (b"", "pairs four-nodes.gr four-nodes.p2p --prepare maybe", 2, "earliest: 14 BadOption\n  --prepare maybe: it has to be yes or no\n"),
    (b"", "run - -", 2, "earliest: 14 BadOption\n  - is standard input, which one file alone can be\n"),
    (b"", "run four-nodes.gr four-nodes.ss --depart 1 --arrive=6", 2, "earliest: 14 BadOption\n  one of --depart, --departs, --arrive and --arrives can be given, and --gap with neither file\n"),
    (b"", "run four-nodes.gr own-departures.ss --departs own-departures.times --gap 5", 2, "earliest: 14 BadOption\n  one of --depart, --departs, --arrive and --arrives can be given, and --gap with neither file\n"),
    (b"p aux sp at 2\nt 0\nt 8:00\n", "run four-nodes.gr own-departures.ss --departs {}", 1, "earliest: times 3: 5 BadNumber\n  {}, line 3: t 8:00\n  a time is `t D`: a whole number, 0 to 281474976710655, for the source or pair of the same number\n"),
    (b"p aux sp at 1\nt 0\n", "run four-nodes.gr own-departures.ss --departs {}", 1, "earliest: times 1: 6 OutOfRange\n  {}, line 1: p aux sp at 1\n  the problem line is `p aux sp at N`: N times, exactly as many as there are sources or pairs\n"),
    (b"", "run joint-gap.gr joint-gap.ss --depart 281474976710655 --gap 1", 2, "earliest: 14 BadOption\n  a time, --depart or --arrive and so many times --gap, is above 281474976710655: make these less\n"),
)


def mistaken(program):
    """First mistakes, with explanations and without: the line of the fault is the same."""
    with tempfile.TemporaryDirectory() as folder:
        name = os.path.join(folder, "file")
        for text, words, status, says in MISTAKES:
            with open(name, "wb") as file:
                file.write(text)
            says = says.replace("{}", name).encode()
            words = words.replace("{}", name)
            yield f"explained: {words}", fed(program, words + " --explain", b""), (status, b"", says)
            yield f"not explained: {words}", fed(program, words, b""), (status, b"", says.split(b"\n")[0] + b"\n")


def on_terminal(program):
    """The output if standard error is a terminal: explanations without an option for them, and how to
    continue."""
    more = b"This is a small network that is built in. `earliest run --help` says how to give your own.\n"
    for words, status, out, says in (
        ("", 0, REPORT, more),
        ("run four-nodes.gr four-nodes.ss", 0, REPORT, b""),
        ("run nothing.gr four-nodes.ss", 4, b"", b"earliest: gr: 15 OpenFailed\n  nothing.gr: there is no such file\n"),
    ):
        master, slave = os.openpty()
        run = subprocess.run([program, *words.split()], cwd=EXAMPLES, stdin=subprocess.DEVNULL, stdout=subprocess.PIPE, stderr=slave, timeout=60)
        os.write(slave, b"end\n")
        os.close(slave)
        said = b""
        while not said.endswith(b"end\r\n"):
            said += os.read(master, 4096)
        os.close(master)
        yield f"on a terminal: {words}", (run.returncode, run.stdout, said.replace(b"\r\n", b"\n")), (status, out, says + b"end\n")


def typed(shell, folder):
    """What zsh makes of partial words, with a completion in a folder: whether it completes an option and a
    command."""
    master, slave = os.openpty()
    kept = {"PATH": os.environ["PATH"], "TERM": "dumb", "HOME": folder}
    run = subprocess.Popen([shell, "-f", "-i"], stdin=slave, stdout=slave, stderr=slave, start_new_session=True, env=kept)
    os.close(slave)
    setting = f"fpath=({folder} $fpath); autoload -Uz compinit; compinit -u -D; bindkey '^I' complete-word; echo rea''dy\n"
    found = []
    for text, mark in ((setting, b"ready\r\n"), ("earliest run --wa\t", b"--walks"), ("\x15earliest pai\t", b"pairs")):
        os.write(master, text.encode())
        said, end = b"", time.monotonic() + 20
        while mark not in said and time.monotonic() < end:
            if select.select([master], [], [], 0.1)[0]:
                said += os.read(master, 65536)
        found.append(mark in said)
    run.kill()
    run.wait()
    os.close(master)
    return found


def completed(program):
    """The completions of zsh and fish, loaded by these shells if they are installed."""
    with tempfile.TemporaryDirectory() as folder:
        pages.write_all(program, folder)
        if shutil.which("zsh"):
            yield "zsh completes", typed("zsh", os.path.join(folder, "share", "zsh", "site-functions")), [True, True, True]
        else:
            print("left out: the completion of zsh, which isn't there")
        if shutil.which("fish"):
            script = os.path.join(folder, "share", "fish", "vendor_completions.d", "earliest.fish")
            asks = f"source {script}; complete -C 'earliest run --wa'; complete -C 'earliest pai'; complete -C 'earliest run -o x --jo'"
            run = subprocess.run(["fish", "--no-config", "-c", asks], capture_output=True, timeout=60, env={**os.environ, "HOME": folder})
            words = [line.split(b"\t")[0] for line in run.stdout.splitlines()]
            yield "fish completes", (run.returncode, words, run.stderr), (0, [b"--walks", b"pairs", b"--joint"], b"")
        else:
            print("left out: the completion of fish, which isn't there")


def paged(program):
    """The man page and the completions: each has each command and option, and bash completes."""
    with tempfile.TemporaryDirectory() as folder:
        pages.write_all(program, folder)
        texts = [open(os.path.join(folder, place), encoding="utf-8").read().replace("\\-", "-") for place in pages.PAGES]
    top, each = pages.commands(program)
    for name, (_, _, lists, _) in each:
        for long, _, _, _ in pages.options(lists):
            yield f"pages have {name} --{long}", [name in text and long in text for text in texts], [True] * 4
    script = texts[1] + "COMP_WORDS=(earliest run --wa); COMP_CWORD=2; _earliest; echo ${COMPREPLY[@]}; COMP_WORDS=(earliest p); COMP_CWORD=1; _earliest; echo ${COMPREPLY[@]}\n"
    run = subprocess.run(["bash", "-c", script], capture_output=True, timeout=60)
    yield "bash completes", (run.returncode, run.stdout, run.stderr), (0, b"--walks\npairs\n", b"")
    for words in (["mandoc", "-Tlint", "-W", "warning"], ["man", "--warnings", "-l"]):
        try:
            run = subprocess.run([*words, "/dev/stdin"], input=texts[0].encode(), capture_output=True, timeout=60)
        except OSError:
            continue
        yield f"{words[0]} renders the page", (run.returncode, run.stderr), (0, b"")


def results(program):
    """All of these: name, result, expected result."""
    program = os.path.abspath(program)
    for some in (piped, filed, unwritten, mistaken, on_terminal, paged, completed):
        yield from some(program)

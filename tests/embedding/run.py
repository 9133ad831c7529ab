"""The engine in other people's programs: the calls of C, roads of vectors in C++, and reports by the Python
package, compared with the program's: python3 tests/embedding/run.py PROGRAM, after the library was built.
What is Python's alone is tested in tests/package/.

What can't run, since a compiler or a checker of memory is missing, is reported and left out.
"""
import os
import re
import shutil
import subprocess
import sys
import tempfile
from concurrent.futures import ThreadPoolExecutor

HERE = os.path.dirname(os.path.abspath(__file__))
ROOT = os.path.normpath(os.path.join(HERE, "..", ".."))
EXAMPLES = os.path.join(ROOT, "examples")
STATIC, SHARED = (os.path.join(ROOT, "lib", name) for name in ("libearliest.a", "libearliest.so"))
FILES = ["four-nodes.gr", "road.gr", "road.tp"]


def ran(words, **more):
    """Status, standard output and standard error of a program that runs among the examples."""
    run = subprocess.run(words, cwd=EXAMPLES, stdin=subprocess.DEVNULL, capture_output=True, timeout=300, **more)
    return run.returncode, run.stdout, run.stderr


def built(compiler, flags, source, to):
    """Compiles a program over the library. Returns None, or the compiler's output if it fails."""
    words = [compiler, *flags, "-Wall", "-Wextra", "-I" + os.path.join(ROOT, "include"), source, STATIC, "-o", to]
    run = subprocess.run(words, capture_output=True, text=True)
    return run.stderr if run.returncode or run.stderr else None


def read(*parts):
    with open(os.path.join(ROOT, *parts), encoding="utf-8") as file:
        return file.read()


def numbered():
    """The numbers of refusals and the last time in the header equal those of the crates, and its messages
    name each by its number."""
    header, crate = read("include", "earliest.h"), read("crates", "ea_capi", "src", "fault_numbers.rt")
    told = {name: int(number) for name, number in re.findall(r"EARLIEST_(\w+) = (\d+)", header)}
    for name, number in re.findall(r"pub const (\w+): u32 = (\d+);", crate):
        if name in told:
            yield f"the header's {name}", told[name], int(number)
    limits = read("crates", "ea_base", "src", "limits.rt")
    last = re.search(r"pub const HORIZON: u64 = ([\d_]+);", limits)[1].replace("_", "")
    yield "the header's last time", f"EARLIEST_HORIZON UINT64_C({last})\n" in header, True
    for name, number in told.items():
        says = re.search(rf'case EARLIEST_{name}: return ".*\((\d+) (\w+)\)";', header)
        yield f"the header's words for {name}", says and (int(says[1]), says[2].upper()), (number, name.replace("_", ""))


# Instructions a node for one more query on a path, as they were counted.
COUNTED = (("from", 271), ("pair", 271), ("asking", 137), ("until", 316), ("pair_until", 313))


def searched_once(once):
    """Each query is searched once: its instructions are at most half as many again as were counted. A second search takes twice as many."""
    yield "once.c, compiled", built("cc", ["-std=c99", "-O2"], os.path.join(HERE, "once.c"), once), None
    words, nodes, more = ["valgrind", "--tool=cachegrind", "--cache-sim=no", "--cachegrind-out-file=/dev/null", once], 5000, 20
    for sort, most in COUNTED:
        runs = [ran([*words, sort, str(nodes), str(count)]) for count in (1, 1 + more)]
        one, many = (int(re.search(rb"I\s+refs:\s+([\d,]+)", it[2])[1].replace(b",", b"")) for it in runs)
        each = (many - one) / (more * nodes)
        yield f"instructions a node: {sort}", (runs[0][0], runs[1][0], 0 < each <= 1.5 * most or each), (0, 0, True)


def in_c(room):
    """Each call of C with each refusal, and 100,000 calls with bad numbers, under a checker of memory; the
    example."""
    checked, plain, example = (os.path.join(room, name) for name in ("checked", "plain", "walk_to"))
    said = built("cc", ["-std=c99", "-g", "-fsanitize=address,undefined"], os.path.join(HERE, "calls.c"), checked)
    yield "the calls of C, compiled", said, None
    yield "the calls of C", ran([checked, *FILES, "1000000"]), (0, b"", b"")
    if shutil.which("valgrind"):
        yield "the calls of C, compiled for valgrind", built("cc", ["-std=c99", "-g"], os.path.join(HERE, "calls.c"), plain), None
        words = ["valgrind", "-q", "--error-exitcode=9", "--leak-check=full"]
        yield "the calls of C under valgrind", ran([*words, plain, *FILES]), (0, b"", b"")
        yield from searched_once(os.path.join(room, "once"))
    else:
        print("left out: the calls of C under valgrind, which isn't there")
    threads = os.path.join(room, "threads")
    said = built("cc", ["-std=c99", "-D_POSIX_C_SOURCE=200112L", "-pthread", "-g", "-fsanitize=address,undefined"], os.path.join(HERE, "threads.c"), threads)
    yield "threads with one search, compiled", said, None
    yield "threads with one search", ran([threads, "four-nodes.gr"]), (0, b"", b"")
    yield "walk_to.c, compiled", built("cc", ["-std=c99"], os.path.join(EXAMPLES, "walk_to.c"), example), None
    yield "walk_to", ran([example, "four-nodes.gr", "1", "0", "4"]), (0, b"node 4 at 6, over 2 3 4\n", b"")
    yield "walk_to, not reached", ran([example, "four-nodes.gr", "4", "0", "1"]), (0, b"node 1 is not reached\n", b"")
    told = b"a number is not that of a node (18 NoSuchNode)\n"
    yield "walk_to, no such node", ran([example, "four-nodes.gr", "1", "0", "5"]), (1, b"", told)
    told = b"line 1: lines of this file don't begin with this word (3 UnknownLine)\n"
    yield "walk_to, no network", ran([example, "README.md", "1", "0", "5"])[::2], (1, told)


def in_cpp(room):
    """Roads of vectors; the example in C++: a road, and a search by each thread."""
    vectors, example = os.path.join(room, "vectors"), os.path.join(room, "by_threads")
    said = built("c++", ["-std=c++17", "-g", "-fsanitize=address,undefined"], os.path.join(HERE, "classes.cpp"), vectors)
    yield "the classes of C++, compiled", said, None
    yield "the classes of C++", ran([vectors]), (0, b"", b"")
    said = built("c++", ["-std=c++17", "-pthread", "-g", "-fsanitize=address,undefined"], os.path.join(EXAMPLES, "by_threads.cpp"), example)
    yield "by_threads.cpp, compiled", said, None
    told = b"from 1: 1880 nodes are reached\nfrom 2: 1880 nodes are reached\nfrom 9999: a number is not that of a node (18 NoSuchNode)\n"
    yield "by_threads", ran([example, "road.gr", "road.tp", "1", "2", "9999"]), (0, told, b"")


def report(road, source, departure, earliest):
    """The lines of a problem's report, by the package."""
    found = road.search(source, departure)
    lines = [f"s {source} {departure}\n"]
    for node, time in enumerate(found.arrivals, 1):
        lines.append(f"d {node} inf\n" if time == earliest.NEVER else f"d {node} {time}\n")
        if time != earliest.NEVER:
            walk = found.walk(node)
            lines.append(" ".join(["w", str(node), str(len(walk)), *map(str, walk)]) + "\n")
    return "".join(lines)


def in_python(program):
    """The same reports as the program's, by four threads of Python on one road, and that they are right."""
    os.environ["EARLIEST_LIBRARY"] = SHARED
    sys.path.insert(0, os.path.join(ROOT, "python"))
    import earliest

    at = lambda name: os.path.join(EXAMPLES, name)
    for gr, ss, tp, depart in (("four-nodes.gr", "four-nodes.ss", None, 0), ("road.gr", "road.ss", "road.tp", 1000)):
        road = earliest.Road.read(at(gr), tp and at(tp))
        words = ["run", gr, ss, "--walks", "--depart", str(depart), *(["--tp", tp] if tp else [])]
        want = b"".join(line for line in ran([program, *words])[1].splitlines(True) if not line.startswith(b"c"))
        with open(at(ss), encoding="ascii") as file:
            sources = [int(line.split()[1]) for line in file if line.startswith("s")]
        with ThreadPoolExecutor(4) as pool:
            texts = list(pool.map(lambda source: report(road, source, depart, earliest), sources))
        yield f"{gr} by four threads of Python", "".join(texts).encode() == want and len(want) > 0, True
        yield f"{gr}, checked", road.check(sources, want, depart), None


def results(program):
    """Each test with its result and the expected one."""
    yield from numbered()
    with tempfile.TemporaryDirectory() as room:
        for compiler, cases in (("cc", in_c), ("c++", in_cpp)):
            if shutil.which(compiler):
                yield from cases(room)
            else:
                print(f"left out: the programs that take {compiler}, which isn't there")
    yield from in_python(os.path.abspath(program))


if __name__ == "__main__":
    FOUND = list(results(sys.argv[1]))
    ILL = [(name, was, want) for name, was, want in FOUND if was != want]
    for name, was, want in ILL:
        print("failed:", name, was, "and not", want)
    print(f"{len(FOUND) - len(ILL)} passed, {len(ILL)} failed")
    sys.exit(1 if ILL else 0)

"""Proves and builds a timing program (bench/NAME/program) with copies of the crates that it needs, in a
scratch folder.

    python3 bench/workspace.py NAME [SCRATCH] [-- WORD ..]

It is run once, on the words. The last line printed is the path of the built program. Proofs of the
repository's crates (crates/*/out) are copied; JOBS in the environment is the number of processors for rt. The
programs are Rattle sources under names that the gate does not read.
"""
import os
import shutil
import subprocess
import sys

sys.dont_write_bytecode = True
HERE = os.path.dirname(os.path.abspath(__file__))
sys.path.insert(0, os.path.join(HERE, "..", "tools"))
import repository

PROGRAMS = {
    "alone": "ea_input ea_road ea_search ea_paths anyhow",
    "several": "ea_input ea_road ea_search ea_paths ea_engine rand_core rand_xoshiro anyhow",
    "pairs": "ea_input ea_road ea_search ea_paths anyhow",
    "prepared": "ea_input ea_travel_times ea_road ea_hierarchy ea_paths ea_layout anyhow",
    "check": "ea_input ea_road ea_search ea_paths ea_report ea_check anyhow",
    "rank": "ea_rank anyhow",
    "readers": "ea_input anyhow",
    "writer": "ea_input ea_road ea_search ea_paths ea_report anyhow",
    "pool": "ea_machine ea_road ea_pool",
}
SCRATCH = "/tmp/bench"


def copied(name, room):
    """Copies a crate: its sources always, its proofs if there are none yet."""
    here, there = os.path.join(repository.ROOT, "crates", name), os.path.join(room, "crates", name)
    os.makedirs(there, exist_ok=True)
    for part in os.listdir(here):
        if part == "must-fail" or part == "out" and os.path.isdir(os.path.join(there, part)):
            continue
        if part != "out" and os.path.isdir(os.path.join(there, part)):
            shutil.rmtree(os.path.join(there, part))
        if os.path.isdir(os.path.join(here, part)):
            shutil.copytree(os.path.join(here, part), os.path.join(there, part))
        else:
            shutil.copy2(os.path.join(here, part), os.path.join(there, part))


def placed(name, room):
    """Copies a program's sources to a crate's places: main.rt.txt, and the proofs FUNCTION-FILE.antt.txt."""
    folder = os.path.join(room, "crates", f"{name}_times")
    for part in ("src", "proofs", "specs"):
        shutil.rmtree(os.path.join(folder, part), ignore_errors=True)
    given = os.path.join(HERE, name, "program")
    for file in os.listdir(given):
        function, _, rest = file.removesuffix(".txt").rpartition("-")
        place = os.path.join(folder, "proofs", function) if function else os.path.join(folder, "src")
        os.makedirs(place, exist_ok=True)
        shutil.copy(os.path.join(given, file), os.path.join(place, rest))
    if os.path.isdir(os.path.join(folder, "proofs")):
        os.makedirs(os.path.join(folder, "specs"))
        open(os.path.join(folder, "specs", "Lib.antt"), "w", encoding="ascii").close()
    return folder


def built(name, scratch=SCRATCH, words=(), say=print):
    """The path of the built program; None if it isn't proved or there is no toolchain."""
    if shutil.which("rt") is None:
        return None
    room = os.path.join(scratch, "workspace")
    lines, uses = repository.listed()
    direct = [it for it in PROGRAMS[name].split() if it in lines]
    wanted = {*direct, *[it for one in direct for it in repository.below(one, uses)]}
    for crate in wanted:
        copied(crate, room)
    folder = placed(name, room)
    shutil.copy(os.path.join(repository.ROOT, "HANDLES"), room)
    with open(os.path.join(room, "crates.txt"), "w", encoding="ascii") as file:
        file.writelines(lines[it] for it in lines if it in wanted)
        file.write(f"{name}_times: {PROGRAMS[name]}\n")
    program = os.path.join(folder, "out", f"{name}_times")
    jobs = ["--jobs", os.environ["JOBS"]] if "JOBS" in os.environ else []
    command = ["rt", "run", *jobs, "--", *words]
    ran = subprocess.run(command, cwd=folder, stdout=subprocess.PIPE, stderr=subprocess.STDOUT, text=True, errors="replace")
    if ran.returncode:
        say(ran.stdout)
        return None
    return program


def main():
    words = sys.argv[1:]
    front, back = (words[:words.index("--")], words[words.index("--") + 1:]) if "--" in words else (words, [])
    if not front or front[0] not in PROGRAMS:
        sys.exit(__doc__)
    program = built(front[0], *front[1:2], words=back)
    if program is None:
        sys.exit(f"the timing program {front[0]} is not built")
    print(program)


if __name__ == "__main__":
    main()

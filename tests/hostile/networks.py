"""Random small networks, asked in random ways by `run`, `pairs` and `rank`. It is a failure if a report differs from the reference's in any byte, if
`check` doesn't accept a report of `run`, if a walk doesn't attain its arrival, or if a rank error can't be one."""
import re

import reading
import roads

WHAT = "runs"
ASKED = 6


def case(trial, words):
    road, scale = roads.road(words)
    files = roads.files(words, road, scale)
    trial.put(files)
    assert reading.network(files["net.gr"]) == (road.nodes, road.arcs), "the reader reads what the text says"
    for _ in range(ASKED if road.nodes <= 150 else 2):
        command = words.choice(["run"] * 6 + ["pairs"] * 5 + ["rank"])
        question = roads.question(words, files, scale, command)
        asked = roads.asking(words, command, question)
        if road.nodes > 1_500 and "--walks" in asked and command == "run":
            asked.remove("--walks")
        wrong = trial.judge(*roads.piped(words, files, asked))
        status, out, _ = trial.was
        if not wrong and status == 0 and command == "rank":
            problems, _ = trial.model.problems(question)
            asked_road = trial.model.road(question)
            wrong = fault_of_ranks(out, [sum(time is not None for time in asked_road.search(starts)) for starts in problems])
        if not wrong and status == 0 and command == "run" and not {"--nodes", "-o"} & set(asked):
            trial.put({**files, "net.report": out})
            wrong = trial.judge(["check", "net.gr", "net.ss", "net.report", *question])
            if not wrong and trial.was != (0, b"ok\n", b""):
                wrong = f"a right report isn't accepted: {trial.was}"
            trial.put(files)
        yield wrong


def fault_of_ranks(out, reached):
    """What is wrong with lines `r POPS MAX SUM`: each least arrival is popped, one pop has the error MAX and none a greater one, and fewer entries
    are in the queue than are popped in all."""
    for line, nodes in zip(re.findall(rb"r [0-9]+ [0-9]+ [0-9]+\n", out), reached):
        pops, most, total = map(int, line.split()[1:])
        if pops < nodes or not most <= total <= pops * most or most >= pops:
            return f"these are no rank errors: {line}"
    return None

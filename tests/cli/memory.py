"""The most memory that a program takes, without that of the tests that start it."""
import os
import subprocess
import sys

# Linux counts the memory that a process had before it became the program, so a small process starts it.
STARTER = """
import os, resource, subprocess, sys
status = subprocess.run(sys.argv[2:]).returncode
os.write(int(sys.argv[1]), b"%d" % resource.getrusage(resource.RUSAGE_CHILDREN).ru_maxrss)
sys.exit(status)
"""


def measured(words, folder, processors=None, stdout=subprocess.PIPE):
    """Status, standard output together with standard error, and greatest memory in KiB, of a program that is run with
    these words on these processors."""
    reading, writing = os.pipe()
    limit = (lambda: os.sched_setaffinity(0, processors)) if processors else None
    run = subprocess.run([sys.executable, "-I", "-S", "-c", STARTER, str(writing), *words], cwd=folder, stdin=subprocess.DEVNULL, stdout=stdout, stderr=subprocess.STDOUT, pass_fds=[writing], preexec_fn=limit)
    os.close(writing)
    with open(reading, "rb") as file:
        return run.returncode, (run.stdout or b"").decode(), int(file.read())

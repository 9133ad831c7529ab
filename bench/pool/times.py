"""Prints the least and the median time of the runs, by the number of threads."""
import statistics
import sys


def times(path):
    found = {}
    for line in open(path):
        words = line.split()
        if len(words) == 3 and all(it.isdigit() for it in words):
            threads, nanos, _ = map(int, words)
            found.setdefault(threads, []).append(nanos / 1_000_000)
    return found


runs = {it: times(f"{sys.argv[1]}/{it}.txt") for it in ("proved", "plain", "release")}
print("threads            proved      plain, SeqCst     plain, Release    proved / SeqCst    proved / Release")
for name, pick in (("least", min), ("median", statistics.median)):
    for threads in sorted(runs["plain"]):
        a, b, c = (pick(runs[it][threads]) for it in ("proved", "plain", "release"))
        print(f"{threads} {name:10} {a:11.0f} ns {b:15.0f} ns {c:15.0f} ns {a / b:18.2f} {a / c:19.2f}")

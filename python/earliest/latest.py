"""The latest departure from a node that is in time at another.

    python -m earliest latest GR SOURCE TARGET WISHED [--tp FILE]

It is found by a search from the target, with every arc turned round (`Road.latest`).
It prints that departure and its arrival. Status 1 if no departure is in time, or a file or a node is refused.
"""
import argparse
import sys

USAGE = "python -m earliest latest"


def main(words=None):
    from . import NEVER, Failure, Road

    options = argparse.ArgumentParser(prog=USAGE, description=__doc__.split("\n")[0])
    options.add_argument("gr", metavar="GR", help="the network")
    options.add_argument("source", metavar="SOURCE", type=int, help="the node to leave")
    options.add_argument("target", metavar="TARGET", type=int, help="the node to reach")
    options.add_argument("wished", metavar="WISHED", type=int, help="the time by which to be there")
    options.add_argument("--tp", metavar="FILE", help="travel times that change")
    given = options.parse_args(words)
    try:
        with Road.read(given.gr, given.tp) as road:
            leave = int(road.latest(given.source, given.target, given.wished))
            if leave == NEVER:
                raise ValueError(f"no departure from {given.source} arrives at {given.target} by {given.wished}")
            print(f"leave at {leave}, arrive at {road.search(given.source, leave, walks=False).arrival(given.target)}")
    except (Failure, OSError, ValueError) as refused:
        print(f"earliest: {refused}", file=sys.stderr)
        return 1
    return 0


if __name__ == "__main__":
    sys.exit(main())

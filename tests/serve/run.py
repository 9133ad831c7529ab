"""Tests of the HTTP service, its page, the static page, the joiner and searches on Dask: python3 tests/serve/run.py [PROGRAM] [--library PATH] [--only NAME ..]

Expected values are those of PROGRAM, bin/earliest if none is named. The library is that of PATH, python/earliest/libearliest.so if none is
named. NAMEs are those of unittest. It prints which libraries of Python and which programs are missing, and which tests were left out because of that.
"""
import argparse
import os
import sys
import unittest

sys.dont_write_bytecode = True
HERE = os.path.dirname(os.path.abspath(__file__))
ROOT = os.path.normpath(os.path.join(HERE, "..", ".."))
MODULES = ("test_http", "test_limits", "test_soak", "test_static", "test_join", "test_cluster", "test_browser")


def main():
    words = argparse.ArgumentParser(description=__doc__.split("\n")[0])
    words.add_argument("--library", default=os.path.join(ROOT, "python", "earliest", "libearliest.so"))
    words.add_argument("program", nargs="?", default=os.path.join(ROOT, "bin", "earliest"))
    words.add_argument("--only", metavar="NAME", nargs="+", default=list(MODULES))
    asked = words.parse_args()
    library, program = os.path.abspath(asked.library), os.path.abspath(asked.program)
    for path, made in ((library, "make lib"), (program, "make")):
        if not os.path.isfile(path):
            print(f"{path} is missing: build it by `{made}`")
            print("0 passed, 1 failed")
            return 1
    os.environ.update(EARLIEST_LIBRARY=library, EARLIEST_PROGRAM=program, PYTHONPATH=os.path.join(ROOT, "python"), PYTHONDONTWRITEBYTECODE="1")
    sys.path[:0] = [os.path.join(ROOT, "python"), HERE]
    import served

    print(served.found(), flush=True)
    suite = unittest.defaultTestLoader.loadTestsFromNames(asked.only)
    ran = unittest.TextTestRunner(stream=sys.stdout, verbosity=1).run(suite)
    for why in sorted({why for _, why in ran.skipped}):
        print(f"left out: {why}: {', '.join(test.id().split('.', 1)[1] for test, its in ran.skipped if its == why)}")
    ill = len({test.id() for test, _ in [*ran.failures, *ran.errors]}) + len(ran.unexpectedSuccesses)
    print(f"{max(ran.testsRun - len(ran.skipped) - ill, 0)} passed, {ill} failed")
    return 1 if ill or ran.testsRun == 0 else 0


if __name__ == "__main__":
    sys.exit(main())

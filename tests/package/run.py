"""Tests of the Python package, the C++ classes and their packaging: python3 tests/package/run.py [PROGRAM] [--library PATH] [--only NAME ..]

The library is that of PATH, python/earliest/libearliest.so if none is named. NAMEs are those of unittest, as `test_times` or
`test_times.Units.test_seconds`. PROGRAM is what each suite of the gate gets; these tests don't run it. It prints which libraries of Python and which programs are missing, and which tests were left out because of that.
"""
import argparse
import os
import sys
import unittest

sys.dont_write_bytecode = True
HERE = os.path.dirname(os.path.abspath(__file__))
ROOT = os.path.normpath(os.path.join(HERE, "..", ".."))
MODULES = ("test_engine", "test_threads", "test_times", "test_texts", "test_graphs", "test_report", "test_commands", "test_wheel", "test_cpp", "test_examples")


def main():
    words = argparse.ArgumentParser(description=__doc__.split("\n")[0])
    words.add_argument("--library", default=os.path.join(ROOT, "python", "earliest", "libearliest.so"))
    words.add_argument("program", nargs="?")
    words.add_argument("--only", metavar="NAME", nargs="+", default=list(MODULES))
    asked = words.parse_args()
    library = os.path.abspath(asked.library)
    if not os.path.isfile(library):
        print(f"{library} is not there: build it by `make lib`, or name it by --library")
        print("0 passed, 1 failed")
        return 1
    os.environ["EARLIEST_LIBRARY"] = library
    os.environ["PYTHONPATH"] = os.path.join(ROOT, "python")
    os.environ["PYTHONDONTWRITEBYTECODE"] = "1"
    sys.path[:0] = [os.path.join(ROOT, "python"), HERE]
    import optional

    print(optional.told())
    suite = unittest.defaultTestLoader.loadTestsFromNames(asked.only)
    ran = unittest.TextTestRunner(stream=sys.stdout, verbosity=1).run(suite)
    for test, why in ran.skipped:
        print(f"left out: {test.id()}: {why}")
    ill = len({test.id() for test, _ in [*ran.failures, *ran.errors]}) + len(ran.unexpectedSuccesses)
    print(f"{max(ran.testsRun - len(ran.skipped) - ill, 0)} passed, {ill} failed")
    return 1 if ill or ran.testsRun == 0 else 0


if __name__ == "__main__":
    sys.exit(main())

"""Tests of the importers: python3 tests/importers/run.py [PROGRAM] [--library PATH] [--only TEXT]

Small feeds and extracts, one feature each. The answers come from the engine's program; what they should be comes from plain
computations in these files. The last line is `N passed, M failed`.
"""
import argparse
import importlib
import os
import sys
import tempfile
import time
import traceback

sys.path.insert(0, os.path.dirname(os.path.abspath(__file__)))
import support

WANTED = (("numpy", "fast arrays"), ("scipy", "its tree and its connected parts"), ("osmium", ".osm.pbf, and .osm by pyosmium"), ("shapely", "bands as polygons"), ("pyproj", "degrees of SUMO networks"))


def main():
    words = argparse.ArgumentParser(description=__doc__, formatter_class=argparse.RawDescriptionHelpFormatter)
    words.add_argument("program", nargs="?", help="the program (default: bin/earliest)")
    words.add_argument("--library", help="libearliest.so, for commands as `python -m earliest.osm` (default: python/earliest/libearliest.so)")
    words.add_argument("--only", default="", help="only cases with this text in their name")
    asked = words.parse_args()
    support.program = os.path.abspath(asked.program) if asked.program else support.program
    support.library = os.path.abspath(asked.library) if asked.library else support.library
    if not os.path.isfile(support.program):
        print(f"{support.program} isn't there: build it, or name another", file=sys.stderr)
        print("0 passed, 1 failed")
        return 1
    passed = failed = 0
    for group in ("osm", "gtfs", "sumo", "functions", "maps", "damaged", "guide"):
        cases = importlib.import_module(group + "_cases").CASES
        for case in cases:
            title = f"{group}.{case.__name__}"
            if asked.only not in title:
                continue
            started = time.time()
            with tempfile.TemporaryDirectory(prefix="importers-") as room:
                try:
                    for name, got, wanted in case(room):
                        if got == wanted:
                            passed += 1
                        else:
                            failed += 1
                            print(f"FAILED {title}: {name}\n  got    {str(got)[:600]}\n  wanted {str(wanted)[:600]}")
                except Exception:
                    failed += 1
                    print(f"FAILED {title}: it ended by an exception\n{traceback.format_exc()}")
            if time.time() - started > 10:
                print(f"{title} took {time.time() - started:.0f} s")
    for name, use in WANTED:
        if not support.there(name):
            print(f"{name} isn't there: not tested were {use}")
    print(f"{passed} passed, {failed} failed")
    return 1 if failed else 0


if __name__ == "__main__":
    sys.exit(main())

"""Libraries and programs that tests may need, and which of them are there."""
import importlib
import shutil
import sys
import unittest
import warnings

LIBRARIES = ("numpy", "pandas", "networkx", "scipy", "geopandas", "shapely", "joblib", "dask")
PROGRAMS = ("cc", "c++", "clang++", "cmake")


def module(name):
    """A library, or None if it is not there."""
    try:
        with warnings.catch_warnings():
            warnings.simplefilter("ignore")
            return importlib.import_module(name)
    except ImportError:
        return None


FOUND = {name: module(name) for name in LIBRARIES}
numpy, pandas, networkx, geopandas, shapely, joblib = (FOUND[name] for name in ("numpy", "pandas", "networkx", "geopandas", "shapely", "joblib"))


def needs(*names):
    """A decorator of tests that need these libraries."""
    missing = [name for name in names if FOUND.get(name) is None]
    return unittest.skipIf(missing, f"{', '.join(missing)} is not there (apt-get install {' '.join('python3-' + it for it in missing)}, or pip install {' '.join(missing)})")


def needs_program(*names):
    missing = [name for name in names if not shutil.which(name)]
    return unittest.skipIf(missing, f"{', '.join(missing)} is not there")


def without(*names):
    """A decorator of tests of what happens if these libraries are missing."""
    there = [name for name in names if FOUND.get(name) is not None]
    return unittest.skipIf(there, f"{', '.join(there)} is there, and this tests what happens without it")


def told():
    """A line on what is there."""
    lines = [f"Python {sys.version.split()[0]}"]
    lines += [f"{name} {getattr(it, '__version__', '')}" if it else f"no {name}" for name, it in FOUND.items()]
    lines += [name if shutil.which(name) else f"no {name}" for name in PROGRAMS]
    return "with " + ", ".join(lines)

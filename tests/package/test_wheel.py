"""The wheel, its editable form and the source distribution: what is in them, that pip installs them, and the message if the library is missing."""
import email
import importlib.util
import os
import re
import shutil
import subprocess
import sys
import tarfile
import tempfile
import zipfile

import earliest
import plain
from test_engine import Case

PYTHON = os.path.join(plain.ROOT, "python")
ASK = "import earliest; print(earliest.__version__, earliest.Road.read('four-nodes.gr').search(1).walk(4))"


def backend(folder=PYTHON):
    """The build backend of a folder, as a module."""
    spec = importlib.util.spec_from_file_location("wheel_of", os.path.join(folder, "wheel_of.py"))
    module = importlib.util.module_from_spec(spec)
    spec.loader.exec_module(module)
    return module


def versions_by_readelf(library):
    """The versions of the C library that a library's symbols ask for, by binutils."""
    told = subprocess.run(["readelf", "-V", "-W", library], capture_output=True, text=True, check=True).stdout
    needed = told[told.index("Version needs section") :]
    return max(tuple(map(int, it)) for it in re.findall(r"Name: GLIBC_(\d+)\.(\d+)", needed))


class Wheel(Case):
    def setUp(self):
        self.room = tempfile.TemporaryDirectory()
        self.library = os.environ["EARLIEST_LIBRARY"]

    def tearDown(self):
        self.room.cleanup()

    def environment(self):
        """A fresh environment: ways to run its Python among the examples, with no variable that names package or library, and to
        install there with no network."""
        if importlib.util.find_spec("pip") is None:
            self.skipTest("this Python has no pip (apt-get install python3-pip)")
        place = os.path.join(self.room.name, "environment")
        subprocess.run([sys.executable, "-m", "venv", "--without-pip", place], check=True)
        python = os.path.join(place, "bin", "python")
        clean = {name: value for name, value in os.environ.items() if not name.startswith(("EARLIEST", "PYTHON"))}

        def run(*words, **more):
            ran = subprocess.run([python, *words], cwd=plain.EXAMPLES, capture_output=True, text=True, env={**clean, **more})
            return ran.returncode, ran.stdout, ran.stderr

        def pip(*words, **more):
            ran = subprocess.run([sys.executable, "-m", "pip", "--python", python, "--disable-pip-version-check", "install", "-q", "--no-cache-dir", "--no-index", *words], capture_output=True, text=True, env={**clean, **more})
            if "no such option: --python" in ran.stderr:
                self.skipTest("this pip is older than 22.3, and installs into no other environment")
            said = "".join(line for line in ran.stderr.splitlines(True) if "as the 'root' user" not in line)
            return ran.returncode, ran.stdout, said

        return run, pip

    def test_contents(self):
        name = backend().build_wheel(self.room.name)
        with zipfile.ZipFile(os.path.join(self.room.name, name)) as wheel:
            names = wheel.namelist()
            texts = {it: wheel.read(it) for it in names}
        info = f"earliest-{earliest.__version__}.dist-info"
        for wanted in ("earliest/__init__.py", "earliest/_engine.py", "earliest/report.py", "earliest/parts.py", "earliest/__main__.py", "earliest/py.typed", "earliest/libearliest.so", f"{info}/METADATA", f"{info}/WHEEL", f"{info}/RECORD", f"{info}/licenses/LICENSE-MIT", f"{info}/licenses/LICENSE-APACHE"):
            self.assertIn(wanted, names)
        with open(self.library, "rb") as file:
            self.assertTrue(texts["earliest/libearliest.so"] == file.read())
        here = {os.path.relpath(os.path.join(folder, it), PYTHON) for folder, _, files in os.walk(os.path.join(PYTHON, "earliest")) for it in files if not it.endswith((".pyc", ".so"))}
        self.assertEqual({it for it in names if it.startswith("earliest/") and not it.endswith(".so")}, here)
        told = email.message_from_bytes(texts[f"{info}/METADATA"])
        self.assertEqual((told["Name"], told["Version"], told["License"], told["Requires-Python"]), ("earliest", earliest.__version__, "MIT OR Apache-2.0", ">=3.8"))
        self.assertTrue(told["Summary"] and told["Project-URL"] and told["Keywords"] and told["Author-email"] and "import earliest" in told.get_payload())
        self.assertEqual(told.get_all("License-File"), ["LICENSE-MIT", "LICENSE-APACHE"])
        self.assertIn("Typing :: Typed", told.get_all("Classifier"))
        self.assertIn("numpy", told.get_all("Provides-Extra"))
        self.assertIn("numpy >= 1.20; extra == 'numpy'", told.get_all("Requires-Dist"))
        # Each command for files is a console script.
        from earliest.__main__ import COMMANDS

        scripts = texts[f"{info}/entry_points.txt"].decode().splitlines()
        self.assertEqual((scripts[0], sorted(scripts[1:])), ("[console_scripts]", sorted(f"earliest-{name} = {module}:main" for name, module in COMMANDS.items())))
        # Without an extra nothing is asked for.
        self.assertTrue(all("extra ==" in it for it in told.get_all("Requires-Dist")))
        import base64
        import hashlib

        rows = [row.split(",") for row in texts[f"{info}/RECORD"].decode().splitlines()]
        self.assertEqual(sorted(row[0] for row in rows), sorted(names))
        for path, digest, length in rows:
            if path != f"{info}/RECORD":
                self.assertEqual((digest, int(length)), ("sha256=" + base64.urlsafe_b64encode(hashlib.sha256(texts[path]).digest()).rstrip(b"=").decode(), len(texts[path])))

    def test_pyproject(self):
        """The backend reads pyproject.toml as Python's own reader does."""
        try:
            import tomllib
        except ImportError:
            self.skipTest("this Python has no tomllib (3.11 has)")
        with open(os.path.join(PYTHON, "pyproject.toml"), encoding="utf-8") as file:
            text = file.read()
        self.assertEqual(backend().tables(text), tomllib.loads(text))
        self.assertEqual({**tomllib.loads(text)["project"], "version": earliest.__version__}, backend().project())

    def test_the_version_stands_once(self):
        found = []
        for folder, _, files in os.walk(PYTHON):
            for name in files:
                if name.endswith((".py", ".toml", ".md", ".in")) and ".egg-info" not in folder:
                    with open(os.path.join(folder, name), encoding="utf-8") as file:
                        if re.search(rf"(?<![\d.]){re.escape(earliest.__version__)}(?![\d.])", file.read()):
                            found.append(os.path.relpath(os.path.join(folder, name), PYTHON))
        self.assertEqual(found, [os.path.join("earliest", "_version.py")])

    def test_tag(self):
        """The tag names the C library that the library's symbols ask for, as binutils show it, and no library beside the system's own."""
        own = backend()
        with open(self.library, "rb") as file:
            text = file.read()
        machine, needed, version = own.needs(text)
        self.assertTrue(all(own.COMMON.match(it) for it in needed), needed)
        self.assertEqual(own.tag_of(text), f"py3-none-manylinux_{version[0]}_{max(version[1], 5 if machine == 'x86_64' else 17)}_{machine}")
        self.assertEqual(machine, os.uname().machine)
        if shutil.which("readelf"):
            self.assertEqual(version, versions_by_readelf(self.library))
        else:
            print("left out: versions of symbols beside readelf's, which isn't there")
        self.assertIn(own.tag_of(text), own.build_wheel(self.room.name))
        for ill in (b"", b"nothing", text[:6].replace(b"\x02", b"\x01") + text[6:]):
            self.told(ValueError, "isn't one of a Linux of 64 bits", lambda: own.tag_of(ill))

    def test_tag_of_other_libraries(self):
        """A private library among those that are needed makes a tag of this system alone; newer symbols make a later one."""
        if not shutil.which("cc"):
            self.skipTest("cc is not there")
        own, room = backend(), self.room.name
        for name, text in (("own.c", "int own(void) { return 1; }\n"), ("uses.c", "int own(void); int uses(void) { return own(); }\n"), ("recent.c", "#define _GNU_SOURCE\n#include <stdlib.h>\n#include <string.h>\nunsigned recent(char *p) { explicit_bzero(p, 3); return arc4random(); }\n")):
            with open(os.path.join(room, name), "w") as file:
                file.write(text)
        subprocess.run(["cc", "-shared", "-fPIC", "own.c", "-o", "libown.so.1", "-Wl,-soname,libown.so.1"], cwd=room, check=True)
        subprocess.run(["cc", "-shared", "-fPIC", "uses.c", "libown.so.1", "-o", "libuses.so"], cwd=room, check=True)
        with open(os.path.join(room, "libuses.so"), "rb") as file:
            self.assertNotIn("manylinux", own.tag_of(file.read()))
        if subprocess.run(["cc", "-shared", "-fPIC", "-O0", "recent.c", "-o", "librecent.so"], cwd=room, capture_output=True).returncode == 0 and shutil.which("readelf"):
            path = os.path.join(room, "librecent.so")
            with open(path, "rb") as file:
                text = file.read()
            major, minor = versions_by_readelf(path)
            self.assertEqual(((major, minor) >= (2, 25), own.needs(text)[2]), (True, (major, minor)))
            self.assertIn(f"manylinux_{major}_{minor}_", own.tag_of(text))

    def copy(self):
        """A copy of the sources without a library."""
        place = os.path.join(self.room.name, "python")
        shutil.copytree(PYTHON, place, ignore=shutil.ignore_patterns("*.so", "__pycache__", "*.egg-info", "build"))
        return place

    def test_install(self):
        """`pip install ./python`, with the library beside the package; and without it, with a message that says what is missing."""
        run, pip = self.environment()
        place = self.copy()
        os.environ.pop("EARLIEST_LIBRARY")
        try:
            self.told(FileNotFoundError, "`make lib`", lambda: backend(place).build_wheel(self.room.name))
        finally:
            os.environ["EARLIEST_LIBRARY"] = self.library
        shutil.copy(self.library, os.path.join(place, "earliest", "libearliest.so"))
        self.assertEqual(pip(place), (0, "", ""))
        self.assertEqual(run("-c", ASK), (0, f"{earliest.__version__} [2, 3, 4]\n", ""))
        self.assertEqual(run("-m", "earliest", "--version"), (0, earliest.__version__ + "\n", ""))
        self.assertEqual(run("-c", "import importlib.metadata as it; print(it.version('earliest'))"), (0, earliest.__version__ + "\n", ""))
        scripts = run("-c", "import sysconfig; print(sysconfig.get_path('scripts'))")[1].strip()
        status, told, _ = run(os.path.join(scripts, "earliest-osm"), "osm/town.osm", os.path.join(self.room.name, "town"), "--reader", "python")
        self.assertEqual((status, "town.gr" in told, os.path.isfile(os.path.join(self.room.name, "town.gr"))), (0, True, True))
        status, told, why = run(os.path.join(scripts, "earliest-gtfs"), "nowhere", "20261123", os.path.join(self.room.name, "none"))
        self.assertEqual((status, told, why), (1, "", "gtfs: nowhere isn't there\n"))

    def test_editable(self):
        """`pip install -e` follows the sources. It is made without a library too, and then the first call says what is missing."""
        run, pip = self.environment()
        sources = self.copy()
        self.assertEqual(pip("-e", sources), (0, "", ""))
        self.assertIn("run `make lib`", run("-c", ASK)[2])
        shutil.copy(self.library, os.path.join(sources, "earliest", "libearliest.so"))
        self.assertEqual(run("-c", ASK + "; print(earliest.__file__)"), (0, f"{earliest.__version__} [2, 3, 4]\n{sources}/earliest/__init__.py\n", ""))
        with open(os.path.join(sources, "earliest", "_version.py"), "w", encoding="ascii") as file:
            file.write('VERSION = "9.8.7"\n')
        self.assertEqual(run("-c", ASK)[1], "9.8.7 [2, 3, 4]\n")

    def test_source_distribution(self):
        """It has all but the library. A wheel is built of it if EARLIEST_LIBRARY names one; else a message says what is missing."""
        name = backend().build_sdist(self.room.name)
        self.assertEqual(name, f"earliest-{earliest.__version__}.tar.gz")
        with tarfile.open(os.path.join(self.room.name, name)) as file:
            names = file.getnames()
            file.extractall(self.room.name)
        top = name[: -len(".tar.gz")]
        for wanted in ("PKG-INFO", "pyproject.toml", "wheel_of.py", "README.md", "LICENSE-MIT", "LICENSE-APACHE", "earliest/__init__.py", "earliest/_version.py"):
            self.assertIn(f"{top}/{wanted}", names)
        self.assertEqual([it for it in names if it.endswith(".so") or not it.startswith(top + "/")], [])
        own = backend(os.path.join(self.room.name, top))
        self.assertIn("earliest-", own.build_wheel(self.room.name))
        run, pip = self.environment()
        status, _, said = pip(os.path.join(self.room.name, name))
        self.assertTrue(status)
        self.assertIn("is not there: the wheel takes the library that the repository proves and builds with `make lib`; or set EARLIEST_LIBRARY", said)
        self.assertEqual(pip(os.path.join(self.room.name, name), EARLIEST_LIBRARY=self.library), (0, "", ""))
        self.assertEqual(run("-c", ASK), (0, f"{earliest.__version__} [2, 3, 4]\n", ""))

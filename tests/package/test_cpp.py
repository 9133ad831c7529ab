"""The classes of include/earliest.hpp, by C++17 and C++20, with exceptions and with expected results; and the CMake package."""
import os
import shutil
import subprocess
import tempfile

import earliest
import plain
from optional import needs_program
from test_engine import Case

INCLUDE = os.path.join(plain.ROOT, "include")


def ran(words, **more):
    run = subprocess.run(words, capture_output=True, text=True, timeout=80, **more)
    return run.returncode, run.stdout, run.stderr


class Cpp(Case):
    def setUp(self):
        self.room = tempfile.TemporaryDirectory()
        self.library = os.environ["EARLIEST_LIBRARY"]

    def tearDown(self):
        self.room.cleanup()

    def tried(self, source, *flags, compiler="c++"):
        """A program is compiled without a word and ends with 0."""
        program = os.path.join(self.room.name, "program")
        folder, name = os.path.split(self.library)
        words = [compiler, "-g", "-O0", "-Wall", "-Wextra", "-Wpedantic", "-pthread", *flags, "-I" + INCLUDE, os.path.join(plain.HERE, source), f"-L{folder}", f"-l:{name}", f"-Wl,-rpath,{folder}", "-o", program]
        self.assertEqual(ran(words), (0, "", ""))
        self.assertEqual(ran([program]), (0, "", ""))

    @needs_program("c++")
    def test_exceptions(self):
        self.tried("classes.cpp", "-std=c++17", "-fsanitize=address,undefined")
        self.tried("classes.cpp", "-std=c++20")

    @needs_program("c++")
    def test_expected(self):
        """By the header's own kind of result, and by std::expected of C++23."""
        self.tried("expected.cpp", "-std=c++17", "-fno-exceptions")
        self.tried("expected.cpp", "-std=c++23", "-fno-exceptions")

    @needs_program("clang++")
    def test_clang(self):
        self.tried("classes.cpp", "-std=c++20", compiler="clang++")

    @needs_program("cmake", "c++")
    def test_cmake(self):
        """A project finds the installed package and links with the libraries in it; if there is none, or another version, it says so."""
        prefix, built = (os.path.join(self.room.name, name) for name in ("prefix", "built"))
        place = os.path.join(prefix, "lib", "cmake", "earliest")
        for folder in (place, os.path.join(prefix, "include")):
            os.makedirs(folder)
        for name in ("earliest.h", "earliest.hpp"):
            shutil.copy(os.path.join(INCLUDE, name), os.path.join(prefix, "include"))
        version = earliest.__version__
        for name in ("earliest-config.cmake", "earliest-config-version.cmake"):
            with open(os.path.join(plain.ROOT, "packaging", "cmake", name + ".in"), encoding="ascii") as file:
                text = file.read()
            for word, value in (("VERSION", version), ("UP", "../../.."), ("LIB", "lib")):
                text = text.replace(f"@{word}@", value)
            with open(os.path.join(place, name), "w", encoding="ascii") as file:
                file.write(text)
        configure = lambda *more: ran(["cmake", "-S", os.path.join(plain.HERE, "project"), "-B", built, f"-DCMAKE_PREFIX_PATH={prefix}", *more])
        status, _, said = configure()
        self.assertEqual((status != 0, "there is neither libearliest.so nor libearliest.a" in " ".join(said.split())), (True, True), said)
        shutil.copy(self.library, os.path.join(prefix, "lib", "libearliest.so"))
        archive = next((it for it in (os.path.join(os.path.dirname(self.library), "libearliest.a"), os.path.join(plain.ROOT, "lib", "libearliest.a")) if os.path.isfile(it)), None)
        if archive:
            shutil.copy(archive, os.path.join(prefix, "lib", "libearliest.a"))
        else:
            print("left out: the static library with CMake, libearliest.a, which is not beside the shared one")
        shutil.rmtree(built)
        status, _, said = configure()
        self.assertEqual((status, said), (0, ""))
        self.assertEqual(ran(["cmake", "--build", built])[0::2], (0, ""))
        status, out, said = ran(["ctest", "--test-dir", built])
        self.assertEqual((status, f"100% tests passed, 0 tests failed out of {2 if archive else 1}" in out), (0, True), out + said)
        for version, found in ((earliest.__version__, True), ("0.1", True), ("0.2", False), ("1.0", False), ("0.0.9", False)):
            listed = os.path.join(self.room.name, "versions", version)
            os.makedirs(listed)
            with open(os.path.join(listed, "CMakeLists.txt"), "w", encoding="ascii") as file:
                file.write(f"cmake_minimum_required(VERSION 3.13)\nproject(version NONE)\nfind_package(earliest {version} CONFIG REQUIRED)\n")
            status, _, said = ran(["cmake", "-S", listed, "-B", listed + ".built", f"-DCMAKE_PREFIX_PATH={prefix}"])
            self.assertEqual(status == 0, found, (version, said))

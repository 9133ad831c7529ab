"""Builds the library for programs that are not Rattle: lib/libearliest.a and lib/libearliest.so.

The crate is proved and built first, over what earlier builds left in crates/NAME/out. With `--over ROOM` it is proved and built in a copy of
the repository in which `rt ci` has just proved the crates below it, over these. With `--install PREFIX FOLDER` what was built is copied to
a folder, which programs find as PREFIX.
"""
import os
import shutil
import subprocess
import sys
import tempfile

sys.dont_write_bytecode = True
import repository

ROOT = repository.ROOT
CRATE = "ea_capi"
PACKAGING = os.path.join(ROOT, "packaging")


def memory():
    """The archive of the kit that joins the library to malloc, realloc and free."""
    page = subprocess.run(["rt", "doc"], stdout=subprocess.PIPE, text=True, check=True).stdout.split("\n")[0]
    return os.path.join(os.path.dirname(page.strip()), "c", "liblibc_c.a")


def joined(archive, folder):
    """Makes libearliest.a and libearliest.so of the crate's archive in a folder."""
    os.makedirs(folder, exist_ok=True)
    static, shared = os.path.join(folder, "libearliest.a"), os.path.join(folder, "libearliest.so")
    with tempfile.TemporaryDirectory() as room:
        for one in (archive, memory()):
            subprocess.run(["ar", "x", os.path.abspath(one)], cwd=room, check=True)
        objects = sorted(os.path.join(room, name) for name in os.listdir(room))
        if os.path.exists(static):
            os.remove(static)
        subprocess.run(["ar", "rcs", static, *objects], check=True)
        subprocess.run([os.environ.get("CC", "cc"), "-shared", "-Wl,-soname,libearliest.so", "-o", shared, *objects], check=True)
    return static, shared


def archived():
    """Proves the crate and makes its archive here: the archive, the status and what was said."""
    folder = os.path.join(ROOT, "crates", CRATE)
    ran = subprocess.run(["rt", "lib"], cwd=folder, stdout=subprocess.PIPE, stderr=subprocess.STDOUT, text=True, errors="replace")
    return os.path.join(folder, "out", f"lib{CRATE}.a"), ran.returncode, ran.stdout


def archived_over(room):
    """The same in a copy of the repository in which rt ci has proved the crates below it, by up to four jobs, since nothing else runs then. (`rt
    lib` would prove those again: what rt ci leaves has no stamp.)"""
    _, rtlib = repository.kit()
    os.chdir(room)
    rtlib.guarded()
    crate = next(it for it in rtlib.crates_below(os.path.realpath(room)) if it.name == CRATE)
    with tempfile.TemporaryFile("w+", errors="replace") as crate.out:
        status = crate.build_static(["--jobs", str(max(1, min(4, len(os.sched_getaffinity(0)))))])
        crate.out.seek(0)
        return os.path.join(crate.folder, "out", f"lib{CRATE}.a"), status, crate.out.read()


def built(room=None):
    """Proves and builds the library: 0, or the status of what failed."""
    archive, status, said = archived_over(room) if room else archived()
    if status:
        print(said)
        return status
    static, shared = joined(archive, os.path.join(ROOT, "lib"))
    shutil.copy(shared, os.path.join(ROOT, "python", "earliest", "libearliest.so"))
    print(f"{os.path.relpath(static, ROOT)} and {os.path.relpath(shared, ROOT)} are built")
    return 0


def filled(template, **words):
    """A template of packaging/ with its words."""
    with open(os.path.join(PACKAGING, template), encoding="utf-8") as file:
        text = file.read()
    with open(os.path.join(ROOT, "VERSION"), encoding="ascii") as file:
        version = file.read().strip()
    for name, word in {"VERSION": version, **words}.items():
        text = text.replace(f"@{name}@", str(word))
    return text


def installed(prefix, folder, lib="lib", built=os.path.join(ROOT, "lib")):
    """Copies the library, its headers and what pkg-config and CMake ask for to a folder, which programs find as PREFIX."""
    for part, source, names in ((lib, built, ("libearliest.a", "libearliest.so")), ("include", os.path.join(ROOT, "include"), ("earliest.h", "earliest.hpp"))):
        os.makedirs(os.path.join(folder, part), exist_ok=True)
        for name in names:
            shutil.copy(os.path.join(source, name), os.path.join(folder, part, name))
    up = "/".join([".."] * (lib.count("/") + 3))
    for place, template in (("pkgconfig/earliest.pc", "earliest.pc.in"), ("cmake/earliest/earliest-config.cmake", "cmake/earliest-config.cmake.in"),
                            ("cmake/earliest/earliest-config-version.cmake", "cmake/earliest-config-version.cmake.in")):
        path = os.path.join(folder, lib, place)
        os.makedirs(os.path.dirname(path), exist_ok=True)
        with open(path, "w", encoding="ascii") as file:
            file.write(filled(template, PREFIX=prefix, LIB=lib, UP=up))
    return 0


def main(words):
    if words[:1] == ["--install"]:
        return installed(os.path.abspath(words[1]), words[2])
    return built(words[1] if words[:1] == ["--over"] else None)


if __name__ == "__main__":
    sys.exit(main(sys.argv[1:]))

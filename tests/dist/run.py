"""Tests the packages: python3 tests/dist/run.py PROGRAM, after the library was built.

They are packed twice, in two surroundings, from PROGRAM and lib/, and looked at, installed into folders and used. What can't be tried because
a tool is missing is said and left out. Bare systems are for `make dist-test`. The last line is `N passed, M failed`.
"""
import gzip
import hashlib
import io
import os
import re
import shutil
import subprocess
import sys
import tarfile
import tempfile
import zipfile

sys.dont_write_bytecode = True
ROOT = os.path.normpath(os.path.join(os.path.dirname(os.path.abspath(__file__)), "..", ".."))
sys.path.insert(0, os.path.join(ROOT, "tools"))
import dist_test
import evidence
import reproduce

LIBRARY = os.path.join(ROOT, "lib")
EPOCH = 1_700_000_001
INSTALLED = (
    "bin/earliest", "lib/libearliest.a", "lib/libearliest.so", "include/earliest.h", "include/earliest.hpp", "lib/pkgconfig/earliest.pc",
    "lib/cmake/earliest/earliest-config.cmake", "share/man/man1/earliest.1", "share/bash-completion/completions/earliest",
    "share/zsh/site-functions/_earliest", "share/fish/vendor_completions.d/earliest.fish",
)
DOCUMENTS = (
    "LICENSE-MIT", "LICENSE-APACHE", "licences.txt", "README.md", "CHANGELOG.md", "BUILD.txt", "docs/claims.md", "docs/guide/README.md",
    "docs/guide/install.md", "examples/four-nodes.gr", "examples/walk_to.c", "examples/many_sources.py",
)
# What only Debian's package has, and in it under the names that Debian gives.
OF_DEBIAN = (
    "usr/bin/earliest", "usr/lib/x86_64-linux-gnu/libearliest.a", "usr/lib/x86_64-linux-gnu/libearliest.so", "usr/include/earliest.h",
    "usr/include/earliest.hpp", "usr/lib/x86_64-linux-gnu/pkgconfig/earliest.pc", "usr/lib/x86_64-linux-gnu/cmake/earliest/earliest-config.cmake",
    "usr/share/man/man1/earliest.1.gz", "usr/share/bash-completion/completions/earliest", "usr/share/zsh/vendor-completions/_earliest",
    "usr/share/fish/vendor_completions.d/earliest.fish", "usr/share/doc/earliest/copyright", "usr/share/doc/earliest/changelog.gz",
    "usr/share/doc/earliest/BUILD.txt", "usr/share/doc/earliest/docs/guide/README.md", "usr/share/doc/earliest/examples/four-nodes.gr",
)


def text_of(*parts):
    with open(os.path.join(ROOT, *parts), encoding="utf-8") as file:
        return file.read()


def bytes_of(path):
    with open(path, "rb") as file:
        return file.read()


def ran(words, **more):
    """Status, standard output and standard error of a command."""
    run = subprocess.run(words, stdin=subprocess.DEVNULL, capture_output=True, text=True, timeout=60, errors="replace", **more)
    return run.returncode, run.stdout, run.stderr


def without(tool, what):
    """Whether a tool is absent, which is said."""
    if shutil.which(tool):
        return False
    print(f"left out, since {tool} is not there: {what}")
    return True


class Packs:
    """The packages of two runs: the files of each by their names, and what is in those of the first."""

    def __init__(self, program, room):
        self.program, self.room = program, room
        self.folders = [os.path.join(room, "packs", name) for name in ("one", "other")]
        os.environ["SOURCE_DATE_EPOCH"] = str(EPOCH)
        for which, folder in enumerate(self.folders):
            os.makedirs(os.path.dirname(folder), exist_ok=True)
            reproduce.packed(ROOT, folder, which, ["--program", program, "--library", LIBRARY])
        self.version = text_of("VERSION").strip()
        self.names = sorted(os.listdir(self.folders[0]))
        self.top = f"earliest-{self.version}-x86_64-linux"
        with tarfile.open(self.path(".tar.gz")) as file:
            self.heads = file.getmembers()
            file.extractall(room)
        self.unpacked = os.path.join(room, self.top)
        self.debian = os.path.join(room, "debian")
        self.has_debian = any(name.endswith(".deb") for name in self.names)
        if self.has_debian:
            subprocess.run(["dpkg-deb", "--extract", self.path(".deb"), self.debian], check=True)

    def path(self, end):
        """The package whose name ends so."""
        return os.path.join(self.folders[0], next(name for name in self.names if name.endswith(end)))


def two_packs_are_equal(packs):
    yield "the same files", sorted(os.listdir(packs.folders[1])), packs.names
    for name in packs.names:
        one, other = (bytes_of(os.path.join(folder, name)) for folder in packs.folders)
        yield f"{name}: equal to the byte", one == other, True
    yield "reproduce finds no difference", reproduce.compared(*packs.folders, packs.names), []
    kinds = [".tar.gz", ".whl", "PROOF.txt", "SHA256SUMS"] + ([".deb"] if shutil.which("dpkg-deb") else [])
    yield "the packages", (len(packs.names), all(any(name.endswith(kind) for name in packs.names) for kind in kinds)), (len(kinds), True)


def differences_are_named(packs):
    """A changed byte is found, in a library by its section and in a package by its member."""
    folders = [os.path.join(packs.room, "differ", name) for name in ("one", "other")]
    for folder in folders:
        os.makedirs(folder)
    library = bytes_of(os.path.join(LIBRARY, "libearliest.so"))
    sections = ran(["readelf", "-SW", os.path.join(LIBRARY, "libearliest.so")])[1]
    at = int(re.search(r"\.rodata\s+PROGBITS\s+\w+\s+(\w+)", sections)[1], 16) + 5
    changed = library[:at] + bytes([library[at] ^ 1]) + library[at + 1:]
    texts = {"libearliest.so": (library, changed), "short.txt": (b"abc", b"abcd"), "lost.txt": (b"here", None)}
    package = bytes_of(packs.path(".tar.gz"))
    tar = gzip.decompress(package)
    mark = next(it.offset_data for it in packs.heads if it.name.endswith("/examples/four-nodes.gr"))
    texts["package.tar.gz"] = (package, gzip.compress(tar[:mark] + b"q" + tar[mark + 1:]))
    if packs.has_debian:
        deb = packs.path(".deb")
        other = os.path.join(packs.room, "later.deb")
        shutil.copytree(packs.debian, os.path.join(packs.room, "later"))
        ran(["dpkg-deb", "--control", deb, os.path.join(packs.room, "later", "DEBIAN")])
        with open(os.path.join(packs.room, "later", "usr", "include", "earliest.h"), "a", encoding="utf-8") as file:
            file.write("/* more */\n")
        ran(["dpkg-deb", "--root-owner-group", "-Zgzip", "-z9", "--build", os.path.join(packs.room, "later"), other])
        texts["package.deb"] = (bytes_of(deb), bytes_of(other))
    for name, pair in texts.items():
        for folder, text in zip(folders, pair):
            if text is not None:
                with open(os.path.join(folder, name), "wb") as file:
                    file.write(text)
    found = {name: reproduce.differences(*folders, name) for name in texts}
    size = len(library)
    yield "a changed byte of a library", found["libearliest.so"], [f"libearliest.so: {size} and {size} bytes, which differ first at {at}, in the section .rodata"]
    yield "a longer file", found["short.txt"], ["short.txt: 3 and 4 bytes, which differ first at 3"]
    yield "a file that one has", found["lost.txt"], [f"lost.txt: is not in {folders[1]}"]
    yield "a changed file of a tarball", [re.sub(r": \d+ and.*", "", line) for line in found["package.tar.gz"]], [f"package.tar.gz: {packs.top}/examples/four-nodes.gr"]
    if packs.has_debian:
        yield "a changed file of a Debian package", any("./usr/include/earliest.h: " in line for line in found["package.deb"]), True


def builds_are_compared(packs):
    """`--build` clones the commit twice, runs the command in each, and names what that built otherwise, alone and in the packages."""
    script = [sys.executable, os.path.join(ROOT, "tools", "reproduce.py"), "--build"]
    if without("git", "two builds"):
        return
    if not os.path.exists(os.path.join(ROOT, ".git")) or ran(["git", "-C", ROOT, "cat-file", "-e", "HEAD:tools/dist.py"])[0]:
        print("left out, since this is no commit of git with the packer: two builds")
        return
    copies = f'mkdir -p bin lib && cp "{packs.program}" bin/earliest && cp "{LIBRARY}"/libearliest.* lib/'
    status, out, _ = ran([*script, f"{copies} && pwd >> lib/libearliest.a"])
    named = re.findall(r"(?m)^([^:\n]+)(?:: (?:data\.tar\.gz: )?([^:\n]+))?: \d+ and \d+ bytes, which differ first at", out)
    apart = {member or name for name, member in named}
    yield "two builds that have their paths in a library: the status", status, 1
    for name in ("lib/libearliest.a", f"{packs.top}/lib/libearliest.a", "PROOF.txt", "SHA256SUMS"):
        yield f"two builds that have their paths in a library: {name}", name in apart, True
    yield "two builds with equal programs and shared libraries", [name for name in apart if name.endswith(("bin/earliest", ".so", ".whl"))], []
    status, _, said = ran([*script, "exit 3"])
    yield "a build that fails", (status, "exit 3 ended with status 3 in " in said), (1, True)


def checksums_are_right(packs):
    listed = dict(reversed(line.split("  ")) for line in bytes_of(packs.path("SHA256SUMS")).decode().splitlines())
    yield "SHA256SUMS lists all", sorted(listed), [name for name in packs.names if name != "SHA256SUMS"]
    for name, said in listed.items():
        yield f"SHA256SUMS: {name}", said, hashlib.sha256(bytes_of(os.path.join(packs.folders[0], name))).hexdigest()
    if not without("sha256sum", "its verdict"):
        yield "sha256sum", ran(["sha256sum", "-c", "--quiet", "SHA256SUMS"], cwd=packs.folders[0])[:2], (0, "")


def contents_are_whole(packs):
    program, static, shared = (bytes_of(it) for it in (packs.program, *(os.path.join(LIBRARY, f"libearliest.{end}") for end in ("a", "so"))))
    names = [it.name for it in packs.heads]
    for path in (*INSTALLED, *DOCUMENTS):
        yield f"the tarball has {path}", f"{packs.top}/{path}" in names, True
    yield "the tarball is sorted by files", [it.name for it in packs.heads if it.isfile()] == sorted(it.name for it in packs.heads if it.isfile()), True
    yield "the tarball has one folder", {name.split("/")[0] for name in names}, {packs.top}
    yield "owners and times", {(it.uid, it.gid, it.uname, it.gname, it.mtime) for it in packs.heads}, {(0, 0, "root", "root", EPOCH)}
    modes = {it.name: it.mode for it in packs.heads}
    yield "modes", {name for name, mode in modes.items() if mode == 0o755}, {it.name for it in packs.heads if it.isdir()} | {f"{packs.top}/bin/earliest"}
    yield "other modes", set(modes.values()), {0o755, 0o644}
    yield "gzip has neither name nor time", bytes_of(packs.path(".tar.gz"))[3:8], b"\0" * 5
    yield "nothing of a run is packed", [name for name in names if re.search(r"__pycache__|\.pyc|/out/|\.part\d", name)], []
    for path, text in (("bin/earliest", program), ("lib/libearliest.a", static), ("lib/libearliest.so", shared)):
        yield f"the tarball's {path}", bytes_of(os.path.join(packs.unpacked, path)) == text, True
    with zipfile.ZipFile(packs.path(".whl")) as file:
        yield "the wheel's library", file.read("earliest/libearliest.so") == shared, True
        yield "the wheel's times", {it.date_time for it in file.infolist()}, {(1980, 1, 1, 0, 0, 0)}
    if not packs.has_debian:
        without("dpkg-deb", "the Debian package")
        return
    for path in OF_DEBIAN:
        yield f"the Debian package has {path}", os.path.isfile(os.path.join(packs.debian, path)), True
    for path, text in (("usr/bin/earliest", program), ("usr/lib/x86_64-linux-gnu/libearliest.a", static), ("usr/lib/x86_64-linux-gnu/libearliest.so", shared)):
        yield f"the Debian package's {path}", bytes_of(os.path.join(packs.debian, path)) == text, True
    tar = subprocess.run(["dpkg-deb", "--fsys-tarfile", packs.path(".deb")], stdout=subprocess.PIPE, check=True).stdout
    with tarfile.open(fileobj=io.BytesIO(tar)) as file:
        yield "the Debian package's owners and times", {(it.uid, it.gid, it.mtime) for it in file}, {(0, 0, EPOCH)}


def links_lead_somewhere(packs):
    """A link of a packed page leads to a packed file."""
    places = [packs.unpacked] + ([os.path.join(packs.debian, "usr/share/doc/earliest")] if packs.has_debian else [])
    count = 0
    for place in places:
        for at, _, names in os.walk(place):
            for name in names:
                if not name.endswith(".md"):
                    continue
                with open(os.path.join(at, name), encoding="utf-8") as file:
                    bare = re.sub(r"(?s)```.*?```|`[^`\n]*`", "", file.read())
                for link in re.findall(r"\]\(([^)\s]+)\)", bare):
                    if not re.match(r"[a-z]+:|#", link):
                        count += 1
                        if not os.path.exists(os.path.join(at, link.partition("#")[0])):
                            yield f"{os.path.relpath(os.path.join(at, name), packs.room)}: the link {link}", "leads nowhere", "leads somewhere"
    yield "links were looked at", count >= 20, True


def pages_are_right(packs):
    """The pages at the top: their links lead to files, the targets of make and the scripts that they name are there, and one is one page."""
    targets = set(re.findall(r"(?m)^([\w-]+):", text_of("Makefile")))
    for page in ("CHANGELOG.md", "CONTRIBUTING.md", "SECURITY.md"):
        text = text_of(page)
        for link in re.findall(r"\]\(([^)\s]+)\)", text):
            if not re.match(r"[a-z]+:", link):
                yield f"{page}: the link {link}", os.path.exists(os.path.join(ROOT, link.partition("#")[0])), True
        for name in re.findall(r"\bmake ([a-z][\w-]*)", " ".join(re.findall(r"(?s)```.*?```|`[^`]+`", text))):
            yield f"{page}: make {name}", name in targets, True
        for path in re.findall(r"\b(?:crates|tests|tools)/[\w./]+\w", text):
            if "NAME" not in path:
                yield f"{page}: {path}", os.path.exists(os.path.join(ROOT, path)), True
    words = len([word for word in text_of("CONTRIBUTING.md").split() if re.search(r"\w", word)])
    yield "CONTRIBUTING.md is a page", words <= 700, True
    readme = text_of("README.md")
    yield "README.md: how to install comes before how to build", 0 < readme.find("\n## Install\n") < readme.find("\n## Build\n"), True


def versions_are_one(packs):
    version = packs.version
    def one(pattern, text):
        found = re.search(pattern, text)
        return found and found[1]
    yield "VERSION has the usual form", re.fullmatch(r"\d+\.\d+\.\d+", version) is not None, True
    yield "--version", ran([packs.program, "--version"]), (0, f"earliest {version}\n", "")
    yield "python/earliest/_version.py", one(r'(?m)^VERSION = "(.*)"$', text_of("python", "earliest", "_version.py")), version
    yield "CHANGELOG.md", one(r"(?m)^## \[(\d.*?)\] - \d{4}-\d\d-\d\d$", text_of("CHANGELOG.md")), version
    yield "CITATION.cff", one(r"(?m)^version: (.*)$", text_of("CITATION.cff")), version
    yield "CITATION.cff and CHANGELOG.md: the day", one(r'(?m)^date-released: "?([\d-]+)', text_of("CITATION.cff")), one(r"(?m)^## \[\d.*?\] - (.*)$", text_of("CHANGELOG.md"))
    yield "the tarball", f"earliest-{version}-x86_64-linux.tar.gz" in packs.names, True
    pc, cmake = (text_of(packs.unpacked, "lib", it) for it in ("pkgconfig/earliest.pc", "cmake/earliest/earliest-config-version.cmake"))
    yield "earliest.pc", one(r"(?m)^Version: (.*)$", pc), version
    yield "CMake", one(r'PACKAGE_VERSION "(.*)"', cmake), version
    yield "BUILD.txt", text_of(packs.unpacked, "BUILD.txt").splitlines()[0], f"earliest {version}, x86_64-linux"
    yield "the man page", one(r'(?m)^\.TH EARLIEST 1 "" "earliest (.*)"$', text_of(packs.unpacked, "share/man/man1/earliest.1")), version
    with zipfile.ZipFile(packs.path(".whl")) as file:
        yield "the wheel", os.path.basename(packs.path(".whl")).split("-")[1], version
        yield "the wheel's METADATA", one(r"(?m)^Version: (.*)$", file.read(f"earliest-{version}.dist-info/METADATA").decode()), version
    with open(os.path.join(ROOT, "docs", "guide", "install.md"), encoding="utf-8") as file:
        yield "docs/guide/install.md names no other", set(re.findall(r"earliest[-_](\d[\d.]*\d)", file.read())) <= {version}, True
    if packs.has_debian:
        yield "the Debian package", ran(["dpkg-deb", "--field", packs.path(".deb"), "Version"])[1], version + "\n"
        with gzip.open(os.path.join(packs.debian, "usr/share/doc/earliest/changelog.gz"), "rt", encoding="utf-8") as file:
            yield "the Debian changelog", one(r"^earliest \((.*?)\) ", file.read()), version


def evidence_is_right(packs):
    proof = bytes_of(packs.path("PROOF.txt")).decode()
    build = text_of(packs.unpacked, "BUILD.txt")
    for name in packs.names:
        if name.startswith("earliest"):
            yield f"PROOF.txt: {name}", f"{hashlib.sha256(bytes_of(os.path.join(packs.folders[0], name))).hexdigest()}  {name}\n" in proof, True
    for path, name in ((packs.program, "bin/earliest"), *((os.path.join(LIBRARY, it), f"lib/{it}") for it in ("libearliest.a", "libearliest.so"))):
        yield f"BUILD.txt: {name}", f"{hashlib.sha256(bytes_of(path)).hexdigest()}  {name}\n" in build, True
    yield "PROOF.txt has BUILD.txt", build in proof, True
    yield "with no log what the gate proved is unknown", "\nunknown: no log of the gate was given." in proof, True
    kit = re.search(r"rattle-kit-\S+ logic \w+", text_of("README.md"))[0]
    yield "the kit", f"\nkit {kit}\n" in build, True
    if os.path.exists(os.path.join(ROOT, ".git")):
        yield "the commit", f"\ncommit {ran(['git', '-C', ROOT, 'rev-parse', 'HEAD'])[1]}" in build, True
    versions = {path: max((tuple(map(int, it.split("."))) for it in re.findall(r"Name: GLIBC_([\d.]+)", ran(["readelf", "-VW", path])[1])))
                for path in (packs.program, os.path.join(LIBRARY, "libearliest.so"))}
    for path, name in zip(versions, ("bin/earliest", "lib/libearliest.so")):
        needed = ".".join(map(str, versions[path]))
        yield f"{name}: the oldest glibc", re.search(rf"(?m)^{name} needs glibc {needed} or later", build) is not None, True
    said = text_of("docs", "guide", "install.md")
    tag = re.search(r"manylinux_(\d+)_(\d+)_x86_64", packs.path(".whl"))
    wanted = {".".join(map(str, versions[packs.program])), ".".join(tag.groups())}
    yield "docs/guide/install.md: the oldest glibc of program and wheel", set(re.findall(r"glibc ([\d.]+) or later", said)), wanted
    yield "docs/guide/install.md: the message", set(re.findall(r"GLIBC_([\d.]+\d)", said)), {".".join(map(str, versions[packs.program]))}
    yield "the wheel's tag is no older than its library", tuple(map(int, tag.groups())) >= versions[os.path.join(LIBRARY, "libearliest.so")], True
    if packs.has_debian:
        needed = ".".join(map(str, versions[packs.program]))
        yield "Debian's dependency", ran(["dpkg-deb", "--field", packs.path(".deb"), "Depends"])[1], f"libc6 (>= {needed})\n"


def logs_are_read(packs):
    """What a log of the gate counts is in PROOF.txt; one of a gate that failed, or of another command, is refused."""
    log, to = os.path.join(packs.room, "gate.log"), os.path.join(packs.room, "logged")
    well = ("rt: some line\nrt: ok; handles allowed: Threads, Wait; must-fail edits: 12 refused; every proof and must-fail edit was done in this run\n"
            "40 passed, 0 failed\nrt ci: 40 passed, 0 failed, 700 s\n7 passed, 0 failed\ntests/cli: 7 passed, 0 failed, 9 s\n47 passed, 0 failed\n")
    words = [sys.executable, os.path.join(ROOT, "tools", "dist.py"), "--program", packs.program, "--library", LIBRARY, "--to", to, "--log", log]
    for name, text, is_well in (("passed", well, True), ("failed", well.replace("47 passed, 0 failed", "46 passed, 1 failed"), False),
                                ("of suites alone", "7 passed, 0 failed\ntests/cli: 7 passed, 0 failed, 9 s\n7 passed, 0 failed\n", False), ("empty", "", False)):
        with open(log, "w", encoding="utf-8") as file:
            file.write(text)
        status, _, said = ran(words)
        if is_well:
            part = bytes_of(os.path.join(to, "PROOF.txt")).decode().split("What the gate proved and counted\n\n")[1].split("\n\n")[0]
            wanted = [text.splitlines()[1], "rt ci: 40 passed, 0 failed", "tests/cli: 7 passed, 0 failed", "47 passed, 0 failed"]
            yield f"a log of a gate that {name}", (status, part.splitlines()), (0, wanted)
        else:
            yield f"a log that is refused: {name}", (status, "is no log of a gate that passed" in said), (1, True)


def other_files_stay(packs):
    """Packages go in the place of older ones, and what else lies in the folder stays."""
    to = os.path.join(packs.room, "logged")
    for name in ("mine.txt", "earliest-0.0.9-x86_64-linux.tar.gz", "earliest_0.0.9_amd64.deb"):
        with open(os.path.join(to, name), "w", encoding="ascii") as file:
            file.write(name)
    status = ran([sys.executable, os.path.join(ROOT, "tools", "dist.py"), "--program", packs.program, "--library", LIBRARY, "--to", to])[0]
    yield "older packages go, other files stay", (status, sorted(os.listdir(to))), (0, sorted([*packs.names, "mine.txt"]))


def faults_are_told(packs):
    """What keeps packages from being made is a line on standard error, and the status is 1."""
    script = [sys.executable, os.path.join(ROOT, "tools", "dist.py"), "--to", os.path.join(packs.room, "none")]
    absent = os.path.join(packs.room, "absent")
    yield "no program", ran([*script, "--program", absent, "--library", LIBRARY]), (1, "", f"dist: {absent} is not there: run `make all lib` first\n")
    status, _, said = ran([*script, "--program", packs.program, "--library", LIBRARY], env={**os.environ, "SOURCE_DATE_EPOCH": "today"})
    yield "a time that is no number", (status, said), (1, "dist: SOURCE_DATE_EPOCH is no number: today\n")
    yield "another program", ran([*script, "--program", sys.executable, "--library", LIBRARY]), (1, "", "dist: the program doesn't name the kit that built it\n")
    empty = os.path.join(packs.room, "empty")
    os.makedirs(empty, exist_ok=True)
    status, out, said = ran([sys.executable, os.path.join(ROOT, "tools", "dist_test.py")], env={**os.environ, "PATH": empty})
    wanted = "dist-test: nothing is tried: " + ("debootstrap is not there: apt-get install debootstrap" if os.geteuid() == 0 else "it needs root")
    yield "dist-test without debootstrap", (status, out, said), (1, "", wanted + "\n")


def programs_run(packs):
    """The README's first example by the tarball's program, the Python example by the wheel, the C example by pkg-config and by CMake."""
    script, shown = dist_test.first_example()
    path = os.path.join(packs.unpacked, "bin") + os.pathsep + os.environ["PATH"]
    yield "the README's first example", ran(["sh", "-c", script], cwd=packs.unpacked, env={**os.environ, "PATH": path}), (0, shown, "")
    site = os.path.join(packs.room, "site")
    status, _, said = ran([sys.executable, "-m", "pip", "install", "-q", "--no-index", "--root-user-action=ignore", "--disable-pip-version-check", "--target", site, packs.path(".whl")])
    if "No module named pip" in said:
        print("left out, since pip is not there: the wheel is unzipped")
        with zipfile.ZipFile(packs.path(".whl")) as file:
            file.extractall(site)
    else:
        yield "pip takes the wheel", (status, said), (0, "")
    example = [sys.executable, os.path.join(packs.unpacked, "examples", "many_sources.py")]
    environment = {**os.environ, "PYTHONPATH": site}
    environment.pop("EARLIEST_LIBRARY", None)
    yield "the Python example", ran(example, env=environment, cwd=packs.room), (0, dist_test.python_example(packs.program), "")
    if not without("man", "the man page"):
        status, out, _ = ran(["man", "-M", os.path.join(packs.unpacked, "share", "man"), "earliest"], env={**os.environ, "MANPAGER": "cat", "MANWIDTH": "100"})
        yield "the man page", (status, re.search(r"\bearliest\s+-\s+computes\b", out) is not None and "explain" in out), (0, True)


def c_programs_run(packs):
    """The C example with the flags of pkg-config and of CMake, from a tarball that was moved."""
    if without("cc", "the C example"):
        return
    moved = shutil.copytree(packs.unpacked, os.path.join(packs.room, "moved to", "here"))
    walk = [os.path.join(packs.room, "walk_to"), os.path.join(moved, "examples", "four-nodes.gr"), "1", "0", "4"]
    wanted = (0, "node 4 at 6, over 2 3 4\n", "")
    source = os.path.join(moved, "examples", "walk_to.c")
    if not without("pkg-config", "earliest.pc"):
        environment = {**os.environ, "PKG_CONFIG_PATH": os.path.join(moved, "lib", "pkgconfig")}
        yield "pkg-config: the version", ran(["pkg-config", "--modversion", "earliest"], env=environment)[1], packs.version + "\n"
        built = ran(["sh", "-c", f'eval cc "\'{source}\'" $(pkg-config --cflags --libs earliest) -o "{walk[0]}"'], env=environment)
        yield "pkg-config: compiled", built, (0, "", "")
        yield "pkg-config: run", ran(walk, env={**os.environ, "LD_LIBRARY_PATH": os.path.join(moved, "lib")}), wanted
    if without("cmake", "the CMake configuration"):
        return
    folder = os.path.join(packs.room, "cmake")
    os.makedirs(folder)
    with open(os.path.join(folder, "CMakeLists.txt"), "w", encoding="utf-8") as file:
        file.write(f'cmake_minimum_required(VERSION 3.13)\nproject(walks C)\nfind_package(earliest ${{WANTED}} REQUIRED)\n'
                   f'foreach(kind earliest static)\nadd_executable(with_${{kind}} "{source}")\ntarget_link_libraries(with_${{kind}} earliest::${{kind}})\nendforeach()\n')
    major, minor = packs.version.split(".")[:2]
    for version, is_taken in ((f"{major}.{minor}", True), (packs.version, True), (f"{major}.{int(minor) + 1}", False), (f"{int(major) + 1}.0", False)):
        status = ran(["cmake", "-S", folder, "-B", os.path.join(folder, version), f"-DCMAKE_PREFIX_PATH={moved}", f"-DWANTED={version}"])[0]
        yield f"CMake: version {version}", status == 0, is_taken
    status, out, said = ran(["cmake", "--build", os.path.join(folder, packs.version)])
    yield "CMake: compiled", (status, said), (0, "")
    for kind in ("earliest", "static"):
        yield f"CMake: run with {kind}", ran([os.path.join(folder, packs.version, f"with_{kind}"), *walk[1:]]), wanted


def debian_is_content(packs):
    """lintian finds no error, and the package's sums are those of its files."""
    if not packs.has_debian:
        return
    control = os.path.join(packs.room, "control")
    ran(["dpkg-deb", "--control", packs.path(".deb"), control])
    sums = dict(reversed(line.split("  ")) for line in text_of(control, "md5sums").splitlines())
    there = {os.path.relpath(os.path.join(at, name), packs.debian): os.path.join(at, name) for at, _, names in os.walk(packs.debian) for name in names}
    yield "md5sums", sums, {path: hashlib.md5(bytes_of(whole)).hexdigest() for path, whole in there.items()}
    if not without("lintian", "its verdict"):
        status, out, _ = ran(["lintian", "--fail-on", "error", packs.path(".deb")])
        yield "lintian", (status, re.findall(r"(?m)^E: .*", out)), (0, [])


def install_is_whole(packs):
    """What `make install` puts beside the program has its prefix and the version."""
    folder = os.path.join(packs.room, "stage")
    yield "library.py --install", ran([sys.executable, os.path.join(ROOT, "tools", "library.py"), "--install", "/opt/some where", folder]), (0, "", "")
    pc = text_of(folder, "lib", "pkgconfig", "earliest.pc")
    yield "the prefix", pc.splitlines()[:3], ["prefix=/opt/some where", "libdir=${prefix}/lib", "includedir=${prefix}/include"]
    for path in INSTALLED[1:7]:
        yield f"make install: {path}", os.path.isfile(os.path.join(folder, path)), True
    left = [it for at, _, names in os.walk(os.path.join(folder, "lib")) for it in names if it.endswith((".pc", ".cmake")) and re.search(r"@[A-Z]+@", text_of(at, it))]
    yield "templates are filled", left, []


def ci_installs_first(packs):
    """.ci/run: packages first, then the tests, whose status it has; also if apt-get fails."""
    listed = [word for line in text_of(".ci", "packages").splitlines() for word in line.partition("#")[0].split()]
    yield "some packages", len(listed) >= 10, True
    folder, log = os.path.join(packs.room, "stubs"), os.path.join(packs.room, "calls")
    os.makedirs(folder)
    for status_of_apt, status_of_make in ((0, 0), (0, 2), (100, 0), (100, 2)):
        for name, status in (("apt-get", status_of_apt), ("make", status_of_make)):
            with open(os.path.join(folder, name), "w", encoding="ascii") as file:
                file.write(f'#!/bin/sh\necho {name} "$@" >> "{log}"\nexit {status}\n')
            os.chmod(os.path.join(folder, name), 0o755)
        with open(log, "w", encoding="ascii"):
            pass
        status, _, said = ran([os.path.join(ROOT, ".ci", "run")], env={**os.environ, "PATH": folder + os.pathsep + os.environ["PATH"]})
        calls = [line.split() for line in text_of(log).splitlines()]
        wanted = [["apt-get", "update"], ["apt-get", "install"], ["make", "test"]] if not status_of_apt else [["apt-get", "update"], ["make", "test"]]
        what = f".ci/run: apt-get {status_of_apt}, make {status_of_make}"
        yield what, (status, [call[:2] for call in calls], "apt-get failed" in said), (status_of_make, wanted, status_of_apt != 0)
        if not status_of_apt:
            yield f"{what}: all packages", [word for word in calls[1][2:] if not word.startswith("-")], listed


CHECKS = (two_packs_are_equal, differences_are_named, builds_are_compared, checksums_are_right, contents_are_whole, links_lead_somewhere, pages_are_right, versions_are_one,
          evidence_is_right, logs_are_read, other_files_stay, faults_are_told, programs_run, c_programs_run, debian_is_content, install_is_whole, ci_installs_first)


def main(words):
    passed = failed = 0
    with tempfile.TemporaryDirectory(prefix="tests-dist-") as room:
        packs = Packs(os.path.abspath(words[0]), room)
        for check in CHECKS:
            for name, came, wanted in check(packs):
                passed, failed = passed + (came == wanted), failed + (came != wanted)
                if came != wanted:
                    print(f"FAILED {check.__name__}: {name}\n    came:   {came!r}\n    wanted: {wanted!r}")
    print(f"{passed} passed, {failed} failed")
    return 1 if failed else 0


if __name__ == "__main__":
    sys.exit(main(sys.argv[1:]))

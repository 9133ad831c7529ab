"""Makes the packages of the program and the library that are built: a tarball, a Debian package and a wheel, with SHA256SUMS and PROOF.txt.

    python3 tools/dist.py [--to FOLDER] [--program PROGRAM] [--library FOLDER] [--log LOG]

LOG is what `make test` printed. Nothing is built or proved. The same files give the same bytes, on every machine and at every time:
SOURCE_DATE_EPOCH, or else the commit's time, is the time of all that is packed.
"""
import argparse
import os
import re
import shutil
import subprocess
import sys
import tempfile
import textwrap
import time

sys.dont_write_bytecode = True
import archives
import evidence
import library
import pages
import repository

ROOT = repository.ROOT
ARCHITECTURE, DEBIAN = "x86_64-linux", "lib/x86_64-linux-gnu"
# The names of what is made, of any version. Nothing else is removed from the folder.
MADE = re.compile(r"earliest[-_][\d.]+[-_].*\.(?:tar\.gz|whl|deb)|PROOF\.txt|SHA256SUMS")
LICENCES = {"LICENSE-APACHE": "LICENSE-APACHE", "LICENSE-MIT": "LICENSE-MIT", "packaging/licences.txt": "licences.txt"}
DOCUMENTS = ("README.md", "CHANGELOG.md", "docs/claims.md", "docs/performance.md", "docs/guide", "docs/pictures", "examples")


class Build:
    """What is packed: the program, the libraries, and the time of everything."""

    def __init__(self, program, folder):
        self.program = program
        self.folder = folder
        self.static, self.shared = (os.path.join(folder, name) for name in ("libearliest.a", "libearliest.so"))
        for path in (program, self.static, self.shared):
            if not os.path.isfile(path):
                raise evidence.Refused(f"{path} is not there: run `make all lib` first")
        self.version, self.epoch = evidence.version(), evidence.epoch()
        self.text = evidence.build_text(program, self.static, self.shared)


def tracked(place):
    """The files of the repository at a place, without what runs leave there."""
    path = os.path.join(ROOT, place)
    if os.path.isfile(path):
        return [place]
    left = ("__pycache__", "out")
    return [os.path.join(place, it) for it in archives.files_of(path) if not set(it.split(os.sep)[:-1]) & set(left)]


def unlinked(text, path, packed):
    """A page whose links to files that are not packed are plain words."""
    def judged(found):
        target = found[2].partition("#")[0]
        place = os.path.normpath(os.path.join(os.path.dirname(path), target)) if target else path
        is_there = re.match(r"[a-z]+:", found[2]) or place in packed or any(it.startswith(place + os.sep) for it in packed)
        return found[0] if is_there else found[1]
    return re.sub(r"(?<!!)\[([^\]]*)\]\(([^)\s]+)\)", judged, text)


def add_documents(folder, others):
    """Puts the guide, the examples, the claims and the licences into a folder that has other files, too."""
    paths = [path for place in DOCUMENTS for path in tracked(place)]
    packed = {*paths, *LICENCES.values(), *others}
    for path in paths:
        if path.endswith(".md"):
            archives.put(folder, path, unlinked(evidence.text_of(path), path, packed))
        else:
            archives.copy(os.path.join(ROOT, path), folder, path)
    for path, place in LICENCES.items():
        archives.copy(os.path.join(ROOT, path), folder, place)


def add_installed(build, prefix, folder, lib):
    """Puts what is installed into a folder: program, library, headers, man page and completions."""
    archives.copy(build.program, folder, "bin/earliest", is_program=True)
    library.installed(prefix, folder, lib, build.folder)
    pages.write_all(build.program, folder)
    for path in archives.files_of(folder):
        os.chmod(os.path.join(folder, path), 0o755 if path == "bin/earliest" else 0o644)


def tarball(build, to):
    """A folder with bin, lib, include and share, which can be copied to a prefix, and with documents as the repository has them."""
    name = f"earliest-{build.version}-{ARCHITECTURE}"
    with tempfile.TemporaryDirectory(prefix="dist-") as room:
        add_installed(build, "${pcfiledir}/../..", room, "lib")
        add_documents(room, archives.files_of(room))
        archives.put(room, "BUILD.txt", build.text)
        path = os.path.join(to, name + ".tar.gz")
        with open(path, "wb") as file:
            file.write(archives.zipped(archives.tar(room, name, build.epoch)))
    return path


def changes_of(version):
    """The lines of CHANGELOG.md on a version, item by item."""
    part = re.search(rf"(?ms)^## \[{re.escape(version)}\][^\n]*\n(.*?)(?=^## |\Z)", evidence.text_of("CHANGELOG.md"))[1]
    return [" ".join(item.split()) for item in re.findall(r"(?ms)^- (.*?)(?=^- |^#|^\n|\Z)", part)]


def debian_changelog(build):
    """CHANGELOG.md's part on the version in Debian's form."""
    items = "\n".join(textwrap.fill(it.replace("`", ""), 78, initial_indent="  * ", subsequent_indent="    ") for it in changes_of(build.version))
    when = time.strftime("%a, %d %b %Y %H:%M:%S +0000", time.gmtime(build.epoch))
    maintainer = re.search(r"(?m)^Maintainer: (.*)$", evidence.text_of("packaging/debian/control.in"))[1]
    return f"earliest ({build.version}) unstable; urgency=medium\n\n{items}\n\n -- {maintainer}  {when}\n"


def add_for_debian(build, room):
    """Puts what Debian's rules ask for beside what is installed."""
    usr, documents = os.path.join(room, "usr"), os.path.join(room, "usr/share/doc/earliest")
    add_installed(build, "/usr", usr, DEBIAN)
    # Debian's folder for completions of zsh.
    archives.copy(os.path.join(usr, "share/zsh/site-functions/_earliest"), usr, "share/zsh/vendor-completions/_earliest")
    shutil.rmtree(os.path.join(usr, "share/zsh/site-functions"))
    page = os.path.join(usr, "share/man/man1/earliest.1")
    with open(page, "rb") as file:
        archives.put(usr, "share/man/man1/earliest.1.gz", archives.zipped(file.read()))
    os.remove(page)
    add_documents(documents, [])
    # Debian has the texts of both licences in one place, and the changes in another.
    for name in ("LICENSE-APACHE", "LICENSE-MIT", "licences.txt", "CHANGELOG.md"):
        os.remove(os.path.join(documents, name))
    archives.put(documents, "BUILD.txt", build.text)
    archives.put(documents, "changelog.gz", archives.zipped(debian_changelog(build).encode()))
    archives.put(documents, "copyright", library.filled("debian/copyright.in", MIT=as_field(evidence.text_of("LICENSE-MIT"))))
    archives.copy(os.path.join(library.PACKAGING, "debian/lintian-overrides"), usr, "share/lintian/overrides/earliest")


def as_field(text):
    """A text as the further lines of a field in Debian's files: each line after a space, an empty one as a dot."""
    return "\n".join(" " + (line or ".") for line in text.strip().splitlines())


def debian_package(build, to):
    """The Debian package, by dpkg-deb."""
    path = os.path.join(to, f"earliest_{build.version}_amd64.deb")
    with tempfile.TemporaryDirectory(prefix="dist-") as room:
        add_for_debian(build, room)
        files = archives.files_of(room)
        size = sum(-(-os.path.getsize(os.path.join(room, it)) // 1024) for it in files)
        control = library.filled("debian/control.in", SIZE=size, GLIBC=evidence.glibc(build.program))
        archives.put(room, "DEBIAN/md5sums", "".join(f"{archives.digest(os.path.join(room, it), 'md5')}  {it}\n" for it in files))
        archives.put(room, "DEBIAN/control", control)
        archives.copy(os.path.join(library.PACKAGING, "debian/triggers"), room, "DEBIAN/triggers")
        archives.dated(room, build.epoch)
        words = ["dpkg-deb", "--root-owner-group", "-Zgzip", "-z9", "--build", room, path]
        environment = {**os.environ, "SOURCE_DATE_EPOCH": str(build.epoch)}
        ran = subprocess.run(words, env=environment, capture_output=True, text=True)
        if ran.returncode:
            raise evidence.Refused(f"dpkg-deb: {ran.stderr.strip()}")
    return path


def wheel(build, to):
    """The wheel, of the Python package with the library that is packed."""
    with tempfile.TemporaryDirectory(prefix="dist-") as room:
        shutil.copytree(os.path.join(ROOT, "python"), room, dirs_exist_ok=True)
        shutil.copy(build.shared, os.path.join(room, "earliest", "libearliest.so"))
        return os.path.join(to, repository.module("wheel_of", os.path.join(room, "wheel_of.py")).build_wheel(to))


def make_all(program, folder, to, log=None):
    """Makes all packages in a folder, in the place of those that were there: their paths. If dpkg-deb isn't there, there is no Debian
    package, and that is said."""
    build, counted = Build(program, folder), evidence.of_the_gate(log)
    os.makedirs(to, exist_ok=True)
    for name in filter(MADE.fullmatch, os.listdir(to)):
        os.remove(os.path.join(to, name))
    made = [tarball(build, to), wheel(build, to)]
    if shutil.which("dpkg-deb"):
        made.append(debian_package(build, to))
    else:
        print("dist: there is no Debian package, since dpkg-deb is not there: install dpkg", file=sys.stderr)
    archives.put(to, "PROOF.txt", evidence.proof_text(build.text, counted, sorted(made)))
    made = sorted([*made, os.path.join(to, "PROOF.txt")])
    archives.put(to, "SHA256SUMS", "".join(f"{archives.sha256(path)}  {os.path.basename(path)}\n" for path in made))
    return made


def main():
    words = argparse.ArgumentParser(description=__doc__, formatter_class=argparse.RawDescriptionHelpFormatter)
    words.add_argument("--to", default=os.path.join(ROOT, "dist"))
    words.add_argument("--program", default=os.path.join(ROOT, "bin", "earliest"))
    words.add_argument("--library", default=os.path.join(ROOT, "lib"))
    words.add_argument("--log", help="what `make test` printed")
    asked = words.parse_args()
    try:
        made = make_all(os.path.abspath(asked.program), os.path.abspath(asked.library), os.path.abspath(asked.to), asked.log)
    except (evidence.Refused, OSError) as fault:
        print(f"dist: {fault}", file=sys.stderr)
        return 1
    for path in made:
        print(f"{os.path.getsize(path):>9}  {os.path.relpath(path)}")
    return 0


if __name__ == "__main__":
    sys.exit(main())

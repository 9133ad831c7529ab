"""Makes the packages twice and says what differs: python3 tools/reproduce.py [--build [COMMAND]] [--program PROGRAM] [--library FOLDER]

The two runs have different folders, time zones, languages and file masks. With --build the commit that is checked out is built
twice first, by COMMAND (`make all lib` if none is given), in two clones whose paths differ in length; then program and libraries are
compared, too. That takes half an hour.
"""
import argparse
import gzip
import io
import os
import re
import subprocess
import sys
import tarfile
import tempfile
import zipfile

sys.dont_write_bytecode = True
import archives
import evidence
import repository

ROOT = repository.ROOT
BUILT = ("bin/earliest", "lib/libearliest.a", "lib/libearliest.so")
# What may differ from machine to machine and must not matter.
SURROUNDINGS = (
    {"TZ": "UTC", "LC_ALL": "C", "umask": 0o022, "folder": "one"},
    {"TZ": "Pacific/Kiritimati", "LC_ALL": "C.UTF-8", "umask": 0o077, "folder": os.path.join("another", "of", "a-longer-path")},
)


def packed(root, to, which, words):
    """Makes the packages of a checkout in a folder, in one of the surroundings. The time is that of the commit here."""
    around = SURROUNDINGS[which]
    environment = {**os.environ, "SOURCE_DATE_EPOCH": str(evidence.epoch()), **{name: around[name] for name in ("TZ", "LC_ALL")}}
    command = [sys.executable, os.path.join(root, "tools", "dist.py"), "--to", to, *words]
    ran = subprocess.run(command, cwd=os.path.dirname(to), env=environment, umask=around["umask"], capture_output=True, text=True)
    if ran.returncode:
        raise evidence.Refused(ran.stderr.strip())


def built(to, command):
    """Builds the commit in a clone."""
    subprocess.run(["git", "clone", "-q", ROOT, to], check=True)
    subprocess.run(["git", "checkout", "-q", "--detach", evidence.commit()], cwd=to, check=True)
    ran = subprocess.run(command, cwd=to, shell=True)
    if ran.returncode:
        raise evidence.Refused(f"{command} ended with status {ran.returncode} in {to}")


def first_difference(one, other):
    """The first difference of two texts."""
    at = next((i for i, (a, b) in enumerate(zip(one, other)) if a != b), min(len(one), len(other)))
    return f"{len(one)} and {len(other)} bytes, which differ first at {at}"


def section_of(path, at):
    """The section of a program or a library that has the byte at an offset."""
    for name, offset, size in re.findall(r"\]\s+(\.\S+)\s+\S+\s+[0-9a-f]+\s+([0-9a-f]+)\s+([0-9a-f]+)", evidence.said("readelf", "-SW", path)):
        if int(offset, 16) <= at < int(offset, 16) + int(size, 16):
            return f", in the section {name}"
    return ""


def members(name, text):
    """What an archive has, by name: heads, and contents. Nothing if it is none."""
    if name.endswith(".tar.gz"):
        with tarfile.open(fileobj=io.BytesIO(gzip.decompress(text))) as file:
            return {it.name: (it.mtime, it.mode, it.uid, it.gid, it.uname, it.gname, it.linkname, file.extractfile(it).read() if it.isfile() else b"") for it in file}
    if name.endswith(".whl"):
        with zipfile.ZipFile(io.BytesIO(text)) as file:
            return {it.filename: (it.date_time, it.external_attr, it.create_system, it.compress_type, file.read(it)) for it in file.infolist()}
    if name.endswith(".deb"):
        return of_ar(text)
    return {}


def of_ar(text):
    """The members of an archive of ar; those that are archives of tar, member by member."""
    found, at = {}, 8
    while at < len(text):
        head = text[at:at + 60].decode()
        name, size = head[:16].strip(), int(head[48:58])
        content = text[at + 60:at + 60 + size]
        inner = members(name, content)
        found.update({f"{name}: {it}": value for it, value in inner.items()})
        found[name] = (head[16:48], content if not inner else b"")
        at += 60 + size + size % 2
    return found


def differences(one, other, name):
    """What differs between two files of one name, line by line; nothing if they are equal."""
    texts = []
    for folder in (one, other):
        try:
            with open(os.path.join(folder, name), "rb") as file:
                texts.append(file.read())
        except FileNotFoundError:
            return [f"{name}: is not in {folder}"]
    if texts[0] == texts[1]:
        return []
    lists = [members(name, text) for text in texts]
    inside = []
    for member in sorted({*lists[0], *lists[1]}):
        here, there = (it.get(member) for it in lists)
        if here is None or there is None:
            inside.append(f"{name}: {member} is in one alone")
        elif here[:-1] != there[:-1]:
            inside.append(f"{name}: {member}: {here[:-1]} and {there[:-1]}")
        elif here != there:
            inside.append(f"{name}: {member}: {first_difference(here[-1], there[-1])}")
    if inside:
        return inside
    said = first_difference(*texts)
    return [f"{name}: {said}{section_of(os.path.join(one, name), int(said.rpartition(' ')[2]))}"]


def compared(one, other, names):
    """What differs between two folders' files of these names."""
    return [line for name in names for line in differences(one, other, name)]


def main():
    words = argparse.ArgumentParser(description=__doc__, formatter_class=argparse.RawDescriptionHelpFormatter)
    words.add_argument("--build", nargs="?", const="make all lib", metavar="COMMAND")
    words.add_argument("--program")
    words.add_argument("--library")
    asked = words.parse_args()
    given = [word for name in ("program", "library") if getattr(asked, name) for word in (f"--{name}", os.path.abspath(getattr(asked, name)))]
    with tempfile.TemporaryDirectory(prefix="reproduce-") as room:
        rooms = [os.path.join(room, around["folder"]) for around in SURROUNDINGS]
        try:
            for which, folder in enumerate(rooms):
                os.makedirs(folder)
                if asked.build:
                    built(os.path.join(folder, "earliest"), asked.build)
                packed(os.path.join(folder, "earliest") if asked.build else ROOT, os.path.join(folder, "dist"), which, given)
        except (evidence.Refused, OSError, subprocess.CalledProcessError) as fault:
            print(f"reproduce: {fault}", file=sys.stderr)
            return 1
        found = compared(*(os.path.join(it, "earliest") for it in rooms), BUILT) if asked.build else []
        names = sorted({name for it in rooms for name in os.listdir(os.path.join(it, "dist"))})
        found += compared(*(os.path.join(it, "dist") for it in rooms), names)
    print("\n".join(found) or f"equal to the byte: {', '.join([*(BUILT if asked.build else ()), *names])}")
    return 1 if found else 0


if __name__ == "__main__":
    sys.exit(main())

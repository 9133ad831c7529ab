"""Folders as archives whose bytes depend on the names, contents and times alone: entries in the order of their names, owner root, modes
644 and 755, one time for all.
"""
import gzip
import hashlib
import io
import os
import tarfile


def files_of(folder):
    """The files of a folder by their paths from it, sorted."""
    found = [os.path.join(at, name) for at, _, names in os.walk(folder) for name in names]
    return sorted(os.path.relpath(path, folder) for path in found)


def put(folder, place, text, is_program=False):
    """Writes a file of a folder, with the folders above it."""
    path = os.path.join(folder, place)
    os.makedirs(os.path.dirname(path), exist_ok=True)
    with open(path, "wb") as file:
        file.write(text if isinstance(text, bytes) else text.encode())
    os.chmod(path, 0o755 if is_program else 0o644)


def copy(path, folder, place, is_program=False):
    """Copies a file to a place in a folder."""
    with open(path, "rb") as file:
        put(folder, place, file.read(), is_program)


def dated(folder, epoch):
    """Gives every folder mode 755 and everything one time."""
    for at, folders, names in os.walk(folder, topdown=False):
        for name in names:
            os.utime(os.path.join(at, name), (epoch, epoch))
        os.chmod(at, 0o755)
        os.utime(at, (epoch, epoch))


def entry(name, epoch, mode, kind, size=0):
    """The head of an entry of a tar file."""
    made = tarfile.TarInfo(name)
    made.mtime, made.mode, made.type, made.size = epoch, mode, kind, size
    made.uname = made.gname = "root"
    return made


def tar(folder, name, epoch):
    """The bytes of a folder as a tar file, in which it is called so."""
    out = io.BytesIO()
    with tarfile.open(fileobj=out, mode="w", format=tarfile.GNU_FORMAT) as file:
        parents = set()
        for path in files_of(folder):
            parts = [name, *path.split(os.sep)]
            for upper in ("/".join(parts[:count]) for count in range(1, len(parts))):
                if upper not in parents:
                    parents.add(upper)
                    file.addfile(entry(upper, epoch, 0o755, tarfile.DIRTYPE))
            whole = os.path.join(folder, path)
            with open(whole, "rb") as content:
                mode = 0o755 if os.stat(whole).st_mode & 0o100 else 0o644
                file.addfile(entry("/".join(parts), epoch, mode, tarfile.REGTYPE, os.path.getsize(whole)), content)
    return out.getvalue()


def zipped(text):
    """A text by gzip, with neither name nor time."""
    out = io.BytesIO()
    with gzip.GzipFile(filename="", mode="wb", compresslevel=9, fileobj=out, mtime=0) as file:
        file.write(text)
    return out.getvalue()


def digest(path, method):
    """A file's digest by a method that hashlib names."""
    with open(path, "rb") as file:
        return hashlib.new(method, file.read()).hexdigest()


def sha256(path):
    """The SHA-256 of a file."""
    return digest(path, "sha256")

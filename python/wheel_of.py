"""Makes the package's wheel, its editable form and its source distribution with nothing but Python, so that `pip install ./python` asks no
network. A wheel has the modules and beside them the shared library that `make lib` has built, or the one that EARLIEST_LIBRARY names.

What pyproject.toml says becomes the metadata; the version is that of earliest/_version.py. The tag of a wheel says which C library the
shared library asks for (PEP 600), as the versions of its symbols tell.
"""
import ast
import base64
import hashlib
import io
import os
import re
import struct
import sysconfig
import tarfile
import zipfile

HERE = os.path.dirname(os.path.abspath(__file__))
PACKAGE = "earliest"
LIBRARY = "libearliest.so"
LICENSES = ("LICENSE-MIT", "LICENSE-APACHE")
MACHINES = {3: "i686", 62: "x86_64", 183: "aarch64", 243: "riscv64", 21: "ppc64le", 22: "s390x"}
# The libraries that every system of a manylinux tag has (PEP 600).
COMMON = re.compile(r"(libc|libm|libdl|librt|libpthread|libgcc_s|libstdc\+\+|ld-linux[\w-]*)\.so\.\d+$")


def project():
    """The table `project` of pyproject.toml, with the version."""
    with open(os.path.join(HERE, "pyproject.toml"), encoding="utf-8") as file:
        table = tables(file.read())["project"]
    with open(os.path.join(HERE, PACKAGE, "_version.py"), encoding="utf-8") as file:
        table["version"] = re.search(r'^VERSION = "(.*)"$', file.read(), re.M)[1]
    return table


def tables(text):
    """The tables of a TOML text, by the part of TOML that pyproject.toml uses: Python before 3.11 reads none of it, and this asks no network."""
    top, table = {}, {}
    for header, key, value in re.findall(r'(?ms)^(?:\[([^\]\n]+)\]|("[^"\n]*"|[\w-]+) = (\[\n.*?^\]|[^\n]*))$', text):
        if header:
            table = top
            for name in header.split("."):
                table = table.setdefault(name, {})
        else:
            table[key.strip('"')] = ast.literal_eval(re.sub(r"([{,] )([\w-]+) = ", r'\1"\2": ', value))
    return top


def metadata(table):
    """The text of METADATA (version 2.1) and of PKG-INFO."""
    lines = ["Metadata-Version: 2.1", f"Name: {table['name']}", f"Version: {table['version']}", f"Summary: {table['description']}"]
    for author in table.get("authors", []):
        lines.append(f"Author-email: {author['name']} <{author['email']}>")
    lines.append(f"License: {table['license']['text']}")
    lines.append(f"Keywords: {','.join(table.get('keywords', []))}")
    lines += [f"Classifier: {it}" for it in table.get("classifiers", [])]
    lines += [f"Project-URL: {name}, {url}" for name, url in table.get("urls", {}).items()]
    lines += [f"License-File: {name}" for name, _ in licenses()]
    lines.append(f"Requires-Python: {table['requires-python']}")
    for extra, needed in table.get("optional-dependencies", {}).items():
        lines += [f"Provides-Extra: {extra}", *(f"Requires-Dist: {it}; extra == '{extra}'" for it in needed)]
    with open(os.path.join(HERE, table["readme"]), encoding="utf-8") as file:
        return "\n".join([*lines, "Description-Content-Type: text/markdown", "", file.read()]).encode()


def licenses():
    """The names and the texts of the licences, which stand beside this file in a source distribution and above it in the repository."""
    for name in LICENSES:
        for folder in (HERE, os.path.dirname(HERE)):
            path = os.path.join(folder, name)
            if os.path.isfile(path):
                with open(path, "rb") as file:
                    yield name, file.read()
                break


def modules():
    """The files of the package, but for the library: their names in a wheel, and their texts."""
    for folder, folders, names in os.walk(os.path.join(HERE, PACKAGE)):
        folders[:] = sorted(it for it in folders if it != "__pycache__")
        for name in sorted(names):
            if not name.endswith((".so", ".pyc")):
                path = os.path.join(folder, name)
                with open(path, "rb") as file:
                    yield os.path.relpath(path, HERE).replace(os.sep, "/"), file.read()


def library():
    """The bytes of the library."""
    path = os.environ.get("EARLIEST_LIBRARY") or os.path.join(HERE, PACKAGE, LIBRARY)
    if not os.path.isfile(path):
        raise FileNotFoundError(
            f"{path} is not there: the wheel takes the library that the repository proves and builds with `make lib`; "
            "or set EARLIEST_LIBRARY to the path of a library that is built")
    with open(path, "rb") as file:
        return file.read()


def needs(text):
    """Of a shared library: its machine, the libraries that it needs, and the greatest version of the GNU C library that its symbols ask for."""
    if text[:6] != b"\x7fELF\x02\x01":
        raise ValueError("the library isn't one of a Linux of 64 bits")
    machine = MACHINES.get(struct.unpack_from("<H", text, 18)[0])
    sections, = struct.unpack_from("<Q", text, 40)
    size, count = struct.unpack_from("<HH", text, 58)
    heads = [struct.unpack_from("<IIQQQQIIQQ", text, sections + size * at) for at in range(count)]

    def word(strings, at):
        begin = heads[strings][4] + at
        return text[begin : text.index(b"\0", begin)].decode()

    needed, versions = [], []
    for _, kind, _, _, place, length, link, info, _, _ in heads:
        if kind == 6:  # The dynamic section: pairs of a tag and a value, where tag 1 is DT_NEEDED.
            pairs = (struct.unpack_from("<qQ", text, place + 16 * at) for at in range(length // 16))
            needed += [word(link, value) for tag, value in pairs if tag == 1]
        if kind == 0x6FFFFFFE:  # What versions of symbols are needed (.gnu.version_r).
            at = place
            for _ in range(info):
                _, inner, _, first, following = struct.unpack_from("<HHIII", text, at)
                one = at + first
                for _ in range(inner):
                    _, _, _, name, further = struct.unpack_from("<IHHII", text, one)
                    versions += re.findall(r"^GLIBC_(\d+)\.(\d+)", word(link, name))
                    one += further
                at += following
    return machine, needed, max((tuple(map(int, it)) for it in versions), default=(2, 5))


def tag_of(text):
    """The tag of a wheel with this library: manylinux with the C library's version if the library needs no other than the system's, else this system's own."""
    machine, needed, (major, minor) = needs(text)
    if machine and all(COMMON.match(it) for it in needed):
        least = 5 if machine in ("x86_64", "i686") else 17
        return f"py3-none-manylinux_{major}_{max(minor, least)}_{machine}"
    return f"py3-none-{sysconfig.get_platform().replace('-', '_').replace('.', '_')}"


def written(directory, table, tag, contents):
    """Writes a wheel of these contents: its name."""
    info = f"{PACKAGE}-{table['version']}.dist-info"
    contents[f"{info}/METADATA"] = metadata(table)
    for name, text in licenses():
        contents[f"{info}/licenses/{name}"] = text
    scripts = "".join(f"{name} = {call}\n" for name, call in table["scripts"].items())
    contents[f"{info}/entry_points.txt"] = f"[console_scripts]\n{scripts}".encode()
    contents[f"{info}/WHEEL"] = f"Wheel-Version: 1.0\nGenerator: wheel_of\nRoot-Is-Purelib: false\nTag: {tag}\n".encode()
    rows = [f"{path},sha256={base64.urlsafe_b64encode(hashlib.sha256(text).digest()).rstrip(b'=').decode()},{len(text)}\n" for path, text in contents.items()]
    contents[f"{info}/RECORD"] = "".join([*rows, f"{info}/RECORD,,\n"]).encode()
    wheel = f"{PACKAGE}-{table['version']}-{tag}.whl"
    with zipfile.ZipFile(os.path.join(directory, wheel), "w", zipfile.ZIP_DEFLATED) as file:
        for path, text in contents.items():
            member = zipfile.ZipInfo(path, (1980, 1, 1, 0, 0, 0))
            member.external_attr = 0o644 << 16
            file.writestr(member, text, zipfile.ZIP_DEFLATED)
    return wheel


def build_wheel(wheel_directory, config_settings=None, metadata_directory=None):
    built = library()
    return written(wheel_directory, project(), tag_of(built), {**dict(modules()), f"{PACKAGE}/{LIBRARY}": built})


def build_editable(wheel_directory, config_settings=None, metadata_directory=None):
    """A wheel that says where the package lies. The library may be built later: the first call that needs it says so."""
    return written(wheel_directory, project(), "py3-none-any", {f"__editable__.{PACKAGE}.pth": f"{HERE}\n".encode()})


def build_sdist(sdist_directory, config_settings=None):
    """The sources of the package. They have no library: a wheel is built of them if EARLIEST_LIBRARY names one, or one lies at
    earliest/libearliest.so."""
    table = project()
    name = f"{PACKAGE}-{table['version']}"
    contents = {**dict(modules()), **dict(licenses()), "PKG-INFO": metadata(table)}
    for own in ("pyproject.toml", "wheel_of.py", table["readme"]):
        with open(os.path.join(HERE, own), "rb") as file:
            contents[own] = file.read()
    with tarfile.open(os.path.join(sdist_directory, f"{name}.tar.gz"), "w:gz", format=tarfile.PAX_FORMAT) as file:
        for path, text in contents.items():
            member = tarfile.TarInfo(f"{name}/{path}")
            member.size = len(text)
            file.addfile(member, io.BytesIO(text))
    return f"{name}.tar.gz"

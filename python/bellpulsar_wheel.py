"""Packs the Python package for pip, which calls build_wheel, build_editable (PEP 660) and build_sdist (PEP 517). Standard
library only.

The wheel has the modules, the header's version in a file VERSION, and the engine's library, which ./build.sh proves and
builds where that is not done. An editable wheel leads to this tree instead of having a copy of it. The tag of both is of
this machine's kind; that of a release's wheel says on which Linux pip may install it, by the symbols that the library
needs. The source archive has all that this needs, so that a wheel can be made from it where the prover is. No time and no
owner is in any of them: packed again, they are the same bytes.
"""

import base64
import gzip
import hashlib
import io
import os
import re
import struct
import subprocess
import sys
import tarfile
import zipfile

try:
    from bellpulsar import __version__
    from bellpulsar.library import BUILDER, BUILT, NAME, ROOT
except ImportError as error:  # of a Python that is too old; pip shows what is written here, without a traceback
    sys.stderr.write("bellpulsar: %s\n" % error)
    sys.exit(2)

STEM = "bellpulsar-" + __version__
TAG = "py3-none-linux_x86_64"
INFO = STEM + ".dist-info/"
PYTHON = os.path.join(ROOT, "python")
PACKAGE = os.path.join(PYTHON, "bellpulsar")
SOURCES = ("LICENCE", "README.md", "build.sh", "crates", "crates.txt", "include", "pyproject.toml", "python")
NO_SOURCES = ("__pycache__", "out")  # folders of Python's and of the prover's
SUMMARY = "The subcarrier map of IEEE 802.16e OFDMA, proved"


def contents(path):
    with open(path, "rb") as file:
        return file.read()


METADATA = """\
Metadata-Version: 2.1
Name: bellpulsar
Version: %s
Summary: %s
License: %s
Requires-Python: >=3.9
Provides-Extra: arrays
Requires-Dist: numpy >=1.21; extra == "arrays"
""" % (__version__, SUMMARY, contents(os.path.join(ROOT, "LICENCE")).decode().strip())
WHEEL = """\
Wheel-Version: 1.0
Generator: bellpulsar_wheel %s
Root-Is-Purelib: false
""" % __version__
SCRIPTS = "[console_scripts]\nbellpulsar = bellpulsar.command_line:run\n"

LIBC = "libc.so.6"
OLDEST = 17  # the glibc 2.x of manylinux2014, which the pip of every Python from 3.9 on knows
DYNAMIC, VERNEED = 6, 0x6FFFFFFE  # types of sections, and of an entry of the first, in a 64-bit ELF file
NEEDED = 1


def text_at(image, place):
    return image[place : image.index(b"\0", place)].decode()


def needs(image):
    """The libraries that a shared library needs, each with the versions of the symbols that it needs of it."""
    (start,), (size, count) = struct.unpack_from("<Q", image, 40), struct.unpack_from("<HH", image, 58)
    sections = [struct.unpack_from("<4xI16xQQII", image, start + size * n) for n in range(count)]
    found = {}
    for kind, at, length, link, entries in sections:
        names = sections[link][1]
        if kind == DYNAMIC:
            for tag, value in struct.iter_unpack("<QQ", image[at : at + length]):
                if tag == NEEDED:
                    found.setdefault(text_at(image, names + value), [])
        for _ in range(entries if kind == VERNEED else 0):
            count, library, version, following = struct.unpack_from("<2xHIII", image, at)
            at, version = at + following, at + version
            for _ in range(count):
                place, following = struct.unpack_from("<8xII", image, version)
                found.setdefault(text_at(image, names + library), []).append(text_at(image, names + place))
                version += following
    return found


def least_glibc(image):
    """The least x of the glibc 2.x that a shared library runs with; None where that cannot be told by its symbols."""
    found = needs(image)
    versions = [re.fullmatch(r"GLIBC_2\.([0-9]+)(\.[0-9]+)?", version) for version in found.pop(LIBC, [])]
    if found or None in versions:
        return None
    return max([int(version[1]) for version in versions], default=0)


def tags(image):
    """Those of a release's wheel with this library, joined by dots as in its name."""
    least = least_glibc(image)
    if least is None:
        return TAG
    if least <= OLDEST:
        return "py3-none-manylinux_2_%d_x86_64.manylinux2014_x86_64" % OLDEST
    return "py3-none-manylinux_2_%d_x86_64" % least


def build():
    """The library, where it is missing or old."""
    subprocess.run([BUILDER], check=True)


def package_files():
    """The modules and the library, each name with its bytes."""
    names = sorted(name for name in os.listdir(PACKAGE) if name.endswith(".py") or name == "py.typed")
    files = {"bellpulsar/" + name: contents(os.path.join(PACKAGE, name)) for name in names}
    files["bellpulsar/VERSION"] = __version__.encode() + b"\n"
    files["bellpulsar/" + NAME] = contents(BUILT)
    return files


def info_files(joined):
    """What pip is told, all but RECORD, of a wheel with these tags."""
    stem, _, platforms = joined.rpartition("-")
    told = WHEEL + "".join("Tag: %s-%s\n" % (stem, platform) for platform in platforms.split("."))
    texts = {"METADATA": METADATA, "WHEEL": told, "entry_points.txt": SCRIPTS}
    return {INFO + name: text.encode() for name, text in texts.items()}


def record(files):
    """RECORD's bytes: each file's name, hash and length, and its own name."""
    lines = []
    for name, data in files.items():
        digest = base64.urlsafe_b64encode(hashlib.sha256(data).digest()).rstrip(b"=").decode()
        lines.append("%s,sha256=%s,%d\n" % (name, digest, len(data)))
    return "".join([*lines, INFO + "RECORD,,\n"]).encode()


def write_wheel(folder, files, joined=TAG):
    """Of these files, and what pip is told of them and of these tags; returns its name."""
    files = {**files, **info_files(joined)}
    files[INFO + "RECORD"] = record(files)
    name = "%s-%s.whl" % (STEM, joined)
    with zipfile.ZipFile(os.path.join(folder, name), "w") as wheel:
        for path, data in files.items():
            entry = zipfile.ZipInfo(path)  # of 1980, and stored: compressed bytes would go by zlib's version
            entry.external_attr = 0o100644 << 16
            wheel.writestr(entry, data)
    return name


def build_wheel(wheel_directory, config_settings=None, metadata_directory=None):
    """Writes the wheel into a folder and returns its name."""
    build()
    return write_wheel(wheel_directory, package_files())


def build_editable(wheel_directory, config_settings=None, metadata_directory=None):
    """Writes a wheel into a folder that puts this tree's package on Python's path, and returns its name."""
    build()
    return write_wheel(wheel_directory, {"bellpulsar.pth": PYTHON.encode() + b"\n"})


def source_files():
    """The paths below the root of all that a wheel is made from."""
    for source in SOURCES:
        path = os.path.join(ROOT, source)
        if os.path.isfile(path):
            yield source
        for folder, below, names in os.walk(path):
            below[:] = [name for name in below if name not in NO_SOURCES]
            yield from (os.path.relpath(os.path.join(folder, name), ROOT) for name in names)


def add_file(archive, name, data, is_program=False):
    entry = tarfile.TarInfo(STEM + "/" + name)  # of 1970
    entry.size, entry.mode = len(data), 0o755 if is_program else 0o644
    archive.addfile(entry, io.BytesIO(data))


def source_archive():
    """Its bytes, not compressed yet."""
    whole = io.BytesIO()
    with tarfile.open(fileobj=whole, mode="w") as archive:
        add_file(archive, "PKG-INFO", METADATA.encode())
        for path in sorted(source_files()):
            full = os.path.join(ROOT, path)
            add_file(archive, path, contents(full), os.access(full, os.X_OK))
    return whole.getvalue()


def build_sdist(sdist_directory, config_settings=None):
    """Writes the source archive into a folder and returns its name."""
    name = STEM + ".tar.gz"
    with open(os.path.join(sdist_directory, name), "wb") as file:
        file.write(gzip.compress(source_archive(), mtime=0))
    return name

"""Packs a release into dist, for machines that have no toolchain: `make dist` calls it once the library is built.

    bellpulsar-VERSION-x86_64-linux.tar.gz    to be unpacked and used in any folder
    bellpulsar_VERSION_amd64.deb              the same, for Debian's folders
    bellpulsar-VERSION-TAGS.whl               the Python package and the command, for pip; both others have it too
    MANIFEST                                  the version, the commit, the toolchain, and the sha256 of each of them

The archive and the Debian package have a MANIFEST of their own, of each file. `make install` lays out what is installed in
both. Owners, modes, times and the order of files are fixed, so that two runs give the same bytes.
"""

import gzip
import hashlib
import io
import os
import re
import shutil
import subprocess
import tarfile
import tempfile

from bellpulsar_wheel import BUILT, ROOT, SUMMARY, __version__, build, contents, least_glibc, package_files, tags
from bellpulsar_wheel import write_wheel

DIST = os.path.join(ROOT, "dist")
STEM = "bellpulsar-%s-x86_64-linux" % __version__
DEB = "bellpulsar_%s_amd64.deb" % __version__
TIME = 315532800  # of every file: 1980, as in the wheel; tar warns of 1970

# What is taken of the tree as it is: a folder, and the names there.
SOURCES = (
    ("", r"README\.md|LICENCE"),
    ("docs", r"[A-Z-]+\.md"),
    ("docs/pictures", r".*\.(md|svg|txt)"),
    ("examples", r"points\.py"),
    ("examples/c", r".*\.[ch]|run\.sh"),
    ("examples/rust", r"Cargo\.toml|example\.rs|run\.sh"),
    ("examples/gnuradio", r"slot\.py"),
    ("rust", r"Cargo\.toml|build\.rs"),
    ("rust/src", r".*\.rs"),
)

CONTROL = """\
Package: bellpulsar
Version: {version}
Architecture: amd64
Maintainer: Bellpulsar maintainers
Installed-Size: {size}
Depends: {libc}, python3 (>= 3.9)
Section: science
Priority: optional
Description: {summary}
 Says on which symbol and carrier each point of a slot belongs, fills and empties grids, counts collisions, reads and
 writes zone plans and checks bursts. Header, libraries, Python package, command, Rust crate, examples and documents.
 .
 {licence}
"""
TRIGGERS = "activate-noawait ldconfig\n"
# Bytecode that Python has kept since is no file of the package's.
REMOVE = '#!/bin/sh\nrm -rf "$DPKG_ROOT/usr/lib/python3/dist-packages/bellpulsar/__pycache__"\n'


class File:
    """Its bytes, or where it leads as a link."""

    def __init__(self, data, is_program=False, link=""):
        self.data, self.is_program, self.link = data, is_program, link


def file_at(path):
    if os.path.islink(path):
        return File(b"", link=os.readlink(path))
    return File(contents(path), is_program=os.access(path, os.X_OK))


def said_by(*command):
    """What a command prints, or nothing where it fails or is not there."""
    try:
        done = subprocess.run(command, cwd=ROOT, capture_output=True, text=True)
    except OSError:
        return ""
    return "" if done.returncode else done.stdout.strip()


def commit():
    """Of this tree, where it is a repository of its own."""
    if os.path.realpath(said_by("git", "rev-parse", "--show-toplevel") or "/") != os.path.realpath(ROOT):
        return "unknown"
    name = said_by("git", "describe", "--always", "--dirty", "--abbrev=40", "--exclude=*") or "unknown"
    # A source that the repository does not know is proved and built all the same.
    is_known = name.endswith("-dirty") or not said_by("git", "ls-files", "--others", "--exclude-standard", "crates")
    return name if is_known else name + "-dirty"


def toolchain():
    """What the prover said of itself as the library was made."""
    return contents(os.path.join(ROOT, "build", "toolchain")).decode().strip()


def manifest(files):
    """As `sha256sum -c` takes it; links are not listed."""
    lines = ["# version %s" % __version__, "# commit %s" % commit(), "# toolchain %s" % toolchain()]
    for name, file in sorted(files.items()):
        if not file.link:
            lines.append("%s  %s" % (hashlib.sha256(file.data).hexdigest(), name))
    return File("".join(line + "\n" for line in lines).encode())


def installed(prefix, libraries, packages):
    """What `make install` puts below a prefix, with these folders there for libraries and for Python's packages: each file
    by its path from the root."""
    below = {"INCLUDEDIR": "/include", "BINDIR": "/bin", "MANDIR": "/share/man", "LIBDIR": libraries, "PYTHONDIR": packages}
    below.update(PREFIX="", PKGCONFIGDIR=libraries + "/pkgconfig", CMAKEDIR=libraries + "/cmake/bellpulsar")
    # Words that `make dist` was given are no folders of a release.
    env = {name: value for name, value in os.environ.items() if name not in ("MAKEFLAGS", "MFLAGS", "MAKELEVEL")}
    files = {}
    with tempfile.TemporaryDirectory() as stage:
        words = ["%s=%s%s" % (name, prefix, path) for name, path in below.items()]
        command = ["make", "install", "DESTDIR=" + stage, *words]
        subprocess.run(command, cwd=ROOT, env=env, stdout=subprocess.DEVNULL, check=True)
        for folder, _, names in os.walk(stage):
            for path in (os.path.join(folder, name) for name in names):
                files[os.path.relpath(path, stage)] = file_at(path)
    return files


def taken():
    """What is taken of the tree, with the library for the crate."""
    files = {}
    for folder, pattern in SOURCES:
        for name in os.listdir(os.path.join(ROOT, folder)):
            if re.fullmatch(pattern, name):
                files[os.path.join(folder, name)] = file_at(os.path.join(ROOT, folder, name))
    files["rust/lib/libbellpulsar.a"] = file_at(os.path.join(ROOT, "build", "libbellpulsar.a"))
    return files


def archive_files(wheel):
    """Below the archive's own folder. The file for pkg-config tells paths from where it stands."""
    laid_out = installed("/anywhere", "/lib", "/lib/python")
    files = {os.path.relpath(path, "anywhere"): file for path, file in laid_out.items()}
    told = files["lib/pkgconfig/bellpulsar.pc"]
    told.data = told.data.replace(b"prefix=/anywhere\n", b"prefix=${pcfiledir}/../..\n")
    files.update(taken(), **wheel)
    return {**files, "MANIFEST": manifest(files)}


def debian_files(wheel):
    """Below the root: what is read is Debian's documents', what is built with is share/bellpulsar's. The scripts that run
    the examples are for the archive, where all stands together."""
    files = installed("/usr", "/lib/x86_64-linux-gnu", "/lib/python3/dist-packages")
    for path, file in {**taken(), **wheel}.items():
        if path.startswith("docs/") or path == "README.md":
            files["usr/share/doc/bellpulsar/" + path] = file
        elif not path.endswith(".sh"):
            files["usr/share/bellpulsar/" + path] = file
    files["usr/share/doc/bellpulsar/copyright"] = files["usr/share/bellpulsar/LICENCE"]
    return {**files, "usr/share/doc/bellpulsar/MANIFEST": manifest(files)}


def folders_of(paths):
    """All folders that one of these stands in."""
    names = [path.split("/") for path in paths]
    return {"/".join(parts[:depth]) for parts in names for depth in range(1, len(parts))}


def packed(files, top):
    """The bytes of a compressed tar of these files, all below one folder."""
    whole = io.BytesIO()
    with tarfile.open(fileobj=whole, mode="w", format=tarfile.GNU_FORMAT) as archive:
        for name in ["", *sorted([*folders_of(files), *files])]:
            entry = tarfile.TarInfo(os.path.join(top, name).rstrip("/"))
            entry.mtime, entry.uname, entry.gname, entry.mode = TIME, "root", "root", 0o755
            file = files.get(name)
            if file is None:
                entry.type = tarfile.DIRTYPE
            elif file.link:
                entry.type, entry.linkname, entry.mode = tarfile.SYMTYPE, file.link, 0o777
            else:
                entry.size, entry.mode = len(file.data), 0o755 if file.is_program else 0o644
            archive.addfile(entry, io.BytesIO(file.data) if entry.isreg() else None)
    return gzip.compress(whole.getvalue(), mtime=0)


def debian_package(files):
    """Its bytes: an archive of ar with the format's number and two compressed tars."""
    least = least_glibc(contents(BUILT))
    told = {
        "version": __version__,
        "size": sum(len(file.data) for file in files.values()) // 1024 + 1,
        "libc": "libc6 (>= 2.%d)" % least if least else "libc6",
        "summary": SUMMARY,
        "licence": contents(os.path.join(ROOT, "LICENCE")).decode().strip(),
    }
    control = {"control": File(CONTROL.format(**told).encode()), "triggers": File(TRIGGERS.encode())}
    control["prerm"] = File(REMOVE.encode(), is_program=True)
    members = {"debian-binary": b"2.0\n", "control.tar.gz": packed(control, "."), "data.tar.gz": packed(files, ".")}
    whole = b"!<arch>\n"
    for name, data in members.items():
        whole += b"%-16s%-12d%-6d%-6d%-8s%-10d`\n" % (name.encode(), TIME, 0, 0, b"100644", len(data))
        whole += data + b"\n" * (len(data) % 2)
    return whole


def main():
    shutil.rmtree(DIST, ignore_errors=True)
    os.mkdir(DIST)
    build()
    name = write_wheel(DIST, package_files(), tags(contents(BUILT)))
    wheel = {name: file_at(os.path.join(DIST, name))}
    made = {
        STEM + ".tar.gz": File(packed(archive_files(wheel), STEM)),
        DEB: File(debian_package(debian_files(wheel))),
    }
    made["MANIFEST"] = manifest({**made, **wheel})
    for path, file in made.items():
        with open(os.path.join(DIST, path), "wb") as opened:
            opened.write(file.data)
    for path in sorted(os.listdir(DIST)):
        print("dist/" + path)


if __name__ == "__main__":
    main()

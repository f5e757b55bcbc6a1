#!/usr/bin/env python3
"""Packs a release in a copy of the tree, and uses it in other folders from C, C++, CMake, Python, Rust and the shell, and as
Debian installs it, where the prover is not on PATH; tries what is said there in a tree that is not built; and cleans it.

    python3 tests/test_release.py

A test whose tool is missing is skipped, and the last line says so.
"""

import hashlib
import importlib.util
import os
import re
import shutil
import stat
import subprocess
import sys
import tarfile
import tempfile
import unittest
import zipfile

from programs import ANSWER, ASKED, C, CARGO, CPP, CPP_ANSWER, PYTHON, RUST
from skips import told_skips
from trees import copy_built, read, write

ROOT = os.path.dirname(os.path.dirname(os.path.abspath(__file__)))

with open(os.path.join(ROOT, "include", "bellpulsar.h")) as header:
    VERSION = ".".join(re.findall(r"^#define BP_VERSION(?:_MINOR|_PATCH)? (\d+)$", header.read(), re.MULTILINE))
MAJOR = int(VERSION.split(".")[0])
SHARED = "libbellpulsar.so.%d" % MAJOR
STEM = "bellpulsar-%s-x86_64-linux" % VERSION
DEB = "bellpulsar_%s_amd64.deb" % VERSION

HOME = os.path.realpath(tempfile.mkdtemp())  # all that the tests write
TREE = os.path.join(HOME, "tree")  # what is packed
DIST = os.path.join(HOME, "dist")  # what that has made
RELEASE = os.path.join(HOME, STEM)  # the archive, unpacked
OUTSIDE = os.path.join(HOME, "outside")

MISSING = "bellpulsar: the command rt of the Rattle toolchain, which proves and builds the engine, is not on PATH: install a"
MISSING += " release of Bellpulsar, which needs no toolchain (README.md says how), or put rt on PATH\n"
NOT_BUILT = "bellpulsar: the engine could not be built\n"

has_git, has_cargo, has_cmake = (shutil.which(name) is not None for name in ("git", "cargo", "cmake"))
has_pip, has_ensurepip = (importlib.util.find_spec(name) is not None for name in ("pip", "ensurepip"))
is_root = os.geteuid() == 0

CMAKE = """\
cmake_minimum_required(VERSION 3.10)
project(yours C CXX)
foreach(wrong %d %d %d.99)
    find_package(bellpulsar ${wrong} QUIET)
    if(bellpulsar_FOUND)
        message(FATAL_ERROR "${wrong} is found")
    endif()
endforeach()
find_package(bellpulsar REQUIRED)
find_package(bellpulsar %s EXACT REQUIRED)
find_package(bellpulsar %d REQUIRED)
add_executable(with_c yours.c)
target_link_libraries(with_c bellpulsar::bellpulsar)
add_executable(with_cpp yours.cpp)
target_link_libraries(with_cpp bellpulsar::static)
""" % (MAJOR - 1, MAJOR + 1, MAJOR, VERSION, MAJOR)


def path_without_rt():
    """PATH, with this Python first; a folder that has the prover is replaced by one with links to all else in it."""
    folders = []
    for n, folder in enumerate([os.path.dirname(sys.executable), *os.environ["PATH"].split(os.pathsep)]):
        if os.path.exists(os.path.join(folder, "rt")):
            mirror = os.path.join(HOME, "path", str(n))
            os.makedirs(mirror)
            for name in set(os.listdir(folder)) - {"rt"}:
                os.symlink(os.path.join(folder, name), os.path.join(mirror, name))
            folder = mirror
        folders.append(folder)
    return os.pathsep.join(folders)


OWN = ("MAKEFLAGS", "MFLAGS", "MAKELEVEL", "LD_LIBRARY_PATH", "BELLPULSAR_LIBRARY", "BELLPULSAR_LIB_DIR", "PYTHONPATH")
OWN += ("PYTHONPYCACHEPREFIX", "CARGO_TARGET_DIR", "PKG_CONFIG_PATH", "CMAKE_PREFIX_PATH", "DESTDIR", "PREFIX", "LIBDIR")
ENV = {name: value for name, value in os.environ.items() if name not in OWN and not name.startswith("GIT_")}
ENV.update(PATH=path_without_rt(), PKG_CONFIG_LIBDIR="/none", LC_ALL="C.UTF-8", PYTHONDONTWRITEBYTECODE="1")


def run(command, cwd=OUTSIDE, **env):
    """A command, or a line of shell."""
    options = {"cwd": cwd, "env": dict(ENV, **env), "capture_output": True, "text": True, "timeout": 120}
    return subprocess.run(command, shell=isinstance(command, str), **options)


def git(*words):
    names = {"GIT_%s_%s" % (who, what): "tester" for who in ("AUTHOR", "COMMITTER") for what in ("NAME", "EMAIL")}
    return run(["git", "-c", "commit.gpgsign=false", *words], cwd=TREE, **names)


def contents(*names):
    with open(os.path.join(*names), "rb") as file:
        return file.read()


def files_of(folder):
    """The paths of all files below a folder, without what git keeps for itself."""
    found = [os.path.join(path, name) for path, _, names in os.walk(folder) for name in names]
    return {os.path.relpath(path, folder) for path in found if not os.path.relpath(path, folder).startswith(".git/")}


def setUpModule():
    """The tree is one that has a history and the library, and is out of reach once it is packed."""
    unittest.addModuleCleanup(shutil.rmtree, HOME)
    os.mkdir(OUTSIDE)
    ignored = shutil.ignore_patterns(".git", "target", "build", "out", "dist", "__pycache__", "Cargo.lock")
    shutil.copytree(ROOT, TREE, symlinks=True, ignore=ignored)
    if has_git:
        for words in (["init", "--quiet"], ["add", "--all"], ["commit", "--quiet", "-m", "all"]):
            assert git(*words).returncode == 0
    copy_built(ROOT, TREE, SHARED)
    done = run(["make", "dist"], cwd=TREE)
    assert done.returncode == 0, done.stderr
    os.rename(os.path.join(TREE, "dist"), DIST)
    with tarfile.open(os.path.join(DIST, STEM + ".tar.gz")) as archive:
        archive.extractall(HOME)


class Case(unittest.TestCase):
    def setUp(self):
        self.folder = tempfile.mkdtemp(dir=HOME)

    def prints(self, text, command, **options):
        done = run(command, **options)
        self.assertEqual((done.stdout, done.stderr, done.returncode), (text, "", 0), command)


def wheel():
    [name] = [name for name in os.listdir(DIST) if name.endswith(".whl")]
    return name


class Packed(Case):
    def test_what_is_made(self):
        self.assertEqual(sorted(os.listdir(DIST)), sorted([STEM + ".tar.gz", DEB, wheel(), "MANIFEST"]))
        self.assertRegex(wheel(), r"^bellpulsar-%s-py3-none-(many)?linux\w+(\.manylinux2014_x86_64)?\.whl$" % VERSION)

    def test_the_tags_of_the_wheel(self):
        """Those in its name, a line for each."""
        stem, _, joined = wheel()[: -len(".whl")].rpartition("-")
        with zipfile.ZipFile(os.path.join(DIST, wheel())) as packed:
            told = packed.read("bellpulsar-%s.dist-info/WHEEL" % VERSION).decode()
        tags = ["py3-none-" + platform for platform in joined.split(".")]
        self.assertEqual(re.findall("^Tag: (.*)$", told, re.MULTILINE), tags)

    def test_two_runs_give_the_same_bytes(self):
        """Though files have other times and nobody else may read what is new."""
        for name in files_of(TREE):
            os.utime(os.path.join(TREE, name), (10**9, 10**9), follow_symlinks=False)
        done = run("umask 077 && make -j2 dist PREFIX=/other", cwd=TREE, TZ="Asia/Tokyo", LC_ALL="C", LIBDIR="/other/lib")
        self.assertEqual(done.returncode, 0, done.stderr)
        again = os.path.join(TREE, "dist")
        self.assertEqual(sorted(os.listdir(again)), sorted(os.listdir(DIST)))
        for name in os.listdir(DIST):
            self.assertTrue(contents(again, name) == contents(DIST, name), name)
        shutil.rmtree(again)

    def test_the_archive(self):
        """All below one folder, whoever packed it; each part is there."""
        with tarfile.open(os.path.join(DIST, STEM + ".tar.gz")) as archive:
            entries = archive.getmembers()
        self.assertEqual({entry.name.partition("/")[0] for entry in entries}, {STEM})
        self.assertEqual([entry.name for entry in entries], sorted(entry.name for entry in entries))
        owners = {(entry.uid, entry.gid, entry.uname, entry.gname, entry.mtime) for entry in entries}
        self.assertEqual(owners, {(0, 0, "root", "root", 315532800)})
        programs = ["bin/bellpulsar", "examples/c/run.sh", "examples/gnuradio/slot.py", "examples/rust/run.sh", "lib/" + SHARED]
        found = [entry.name[len(STEM) + 1 :] for entry in entries if entry.isreg() and entry.mode != 0o644]
        self.assertEqual(sorted(found), programs)
        parts = ["include/bellpulsar.h", "lib/libbellpulsar.a", "lib/libbellpulsar.so", "lib/pkgconfig/bellpulsar.pc"]
        parts += ["lib/cmake/bellpulsar/bellpulsar-config.cmake", "share/man/man1/bellpulsar.1", "share/man/man3/bellpulsar.3"]
        parts += ["share/man/man3/bp_place.3", "rust/src/lib.rs", "rust/lib/libbellpulsar.a", "examples/c/slot.c", "LICENCE"]
        parts += ["README.md", "docs/GUIDE.md", "docs/pictures/README.md", "lib/python/bellpulsar/__init__.py", "MANIFEST"]
        self.assertEqual(set(parts) - files_of(RELEASE), set())
        self.assertTrue(contents(RELEASE, wheel()) == contents(DIST, wheel()))

    def test_what_the_documents_name_is_there(self):
        for name in ("README.md", "docs/GUIDE.md", "docs/RULES.md", "docs/pictures/README.md"):
            here = os.path.dirname(os.path.join(RELEASE, name))
            for link in re.findall(r"\]\(([^)#:]+)(?:#[^)]*)?\)", read(RELEASE, name)):
                self.assertTrue(os.path.exists(os.path.join(here, link)), (name, link))

    def test_the_manifests(self):
        """Each names all files but itself; and so does that of the three."""
        for folder in (RELEASE, DIST):
            lines = read(folder, "MANIFEST").splitlines()
            self.assertEqual(lines[0], "# version " + VERSION)
            told = git("rev-parse", "HEAD").stdout.strip() if has_git else "unknown"
            self.assertEqual(lines[1:3], ["# commit " + told, "# toolchain " + read(ROOT, "build", "toolchain").strip()])
            sums = dict(reversed(line.split("  ")) for line in lines[3:])
            links = {name for name in files_of(folder) if os.path.islink(os.path.join(folder, name))}
            self.assertEqual(set(sums), files_of(folder) - {"MANIFEST"} - links)
            for name, told in sums.items():
                self.assertEqual(hashlib.sha256(contents(folder, name)).hexdigest(), told, name)
            self.assertEqual(run(["sha256sum", "--check", "--quiet", "--strict", "MANIFEST"], cwd=folder).returncode, 0)


class Identity(Case):
    """What a manifest says of the commit."""

    def told(self, tree, name, **env):
        lines = "import bellpulsar_release; print(bellpulsar_release.%s())" % name
        return run([sys.executable, "-B", "-c", lines], PYTHONPATH=os.path.join(tree, "python"), **env).stdout.strip()

    @unittest.skipUnless(has_git, "git is missing")
    def test_the_commit(self):
        head = git("rev-parse", "HEAD").stdout.strip()
        self.assertEqual(self.told(TREE, "commit"), head)
        write(TREE, "new", "")
        self.addCleanup(os.remove, os.path.join(TREE, "new"))
        self.assertEqual(self.told(TREE, "commit"), head)
        source = write(TREE, "crates/map/src/new.rt", "")
        self.assertEqual(self.told(TREE, "commit"), head + "-dirty")
        os.remove(source)
        self.addCleanup(write, TREE, "LICENCE", read(TREE, "LICENCE"))
        write(TREE, "LICENCE", "other\n")
        self.assertEqual(self.told(TREE, "commit"), head + "-dirty")

    def test_no_repository(self):
        """Of its own: one that it stands in is another's."""
        inner = os.path.join(self.folder, "inner")
        for name in ("python", "include"):
            shutil.copytree(os.path.join(TREE, name), os.path.join(inner, name))
        shutil.copy(os.path.join(TREE, "LICENCE"), inner)
        self.assertEqual(self.told(inner, "commit"), "unknown")
        if has_git:
            run(["git", "init", "--quiet"], cwd=self.folder)
            self.assertEqual(self.told(inner, "commit"), "unknown")


class Newcomer(Case):
    """README's first screen."""

    SCREEN = "".join(read(ROOT, "README.md").splitlines(keepends=True)[:40])

    def test_three_commands_fill_a_slot(self):
        lines = re.findall(r"(?:^    .*\n)+", self.SCREEN, re.MULTILINE)[0].replace("    ", "").splitlines()
        self.assertEqual(len(lines), 3)
        shutil.copy(os.path.join(DIST, STEM + ".tar.gz"), self.folder)
        self.prints("", " && ".join(lines), cwd=self.folder)
        there = os.path.join(self.folder, STEM)
        self.assertEqual(os.path.getsize(os.path.join(there, "slot.cf32")), 2 * 2048 * 8)
        points = "python3 examples/points.py 2880 | cmp - points.cf32"
        self.prints("", "bin/bellpulsar empty pusc-dl 2048 5 slot.cf32 points.cf32 && " + points, cwd=there)

    def test_what_it_says(self):
        words = " ".join(self.SCREEN.split())
        self.assertIn("PUSC and FUSC are at FFT size 2048 only", words)
        self.assertLess(words.index("needs no toolchain"), words.index("Only building the engine needs the Rattle toolchain"))
        for name in (DEB, STEM + ".tar.gz", "bellpulsar-%s-*.whl" % VERSION):
            self.assertIn(name, words)

    def test_versions_that_the_documents_name(self):
        for name in ("README.md", "docs/GUIDE.md"):
            text = read(ROOT, name)
            self.assertEqual(set(re.findall(r"\bbellpulsar[-_](\d+\.\d+\.\d+)", text)), {VERSION}, name)
            self.assertEqual(set(re.findall(r"find_package\(bellpulsar (\d+)", text)), {str(MAJOR)}, name)

    def test_the_licence(self):
        """In one line, everywhere."""
        [line] = read(ROOT, "LICENCE").splitlines()
        self.assertIn("owner's to set", line)
        self.assertIn("\n%s\n" % line, read(RELEASE, "README.md"))
        self.assertIn(line[0].lower() + line[1:].rstrip("."), read(RELEASE, "rust", "Cargo.toml"))
        self.assertIn('license-file = "../LICENCE"', read(RELEASE, "rust", "Cargo.toml"))
        self.assertEqual(read(RELEASE, "LICENCE"), line + "\n")


class Used(Case):
    """The archive, in whatever folder it is unpacked."""

    FOUND = {"PKG_CONFIG_PATH": os.path.join(RELEASE, "lib", "pkgconfig"), "LD_LIBRARY_PATH": os.path.join(RELEASE, "lib")}

    def test_no_file_names_the_tree(self):
        for name in files_of(RELEASE):
            self.assertNotIn(HOME.encode(), contents(RELEASE, name), name)

    def test_the_command(self):
        self.prints(ANSWER, [os.path.join(RELEASE, "bin", "bellpulsar"), *ASKED])
        self.prints(ANSWER, "sh examples/c/run.sh point 2 1024 17 0 0 0 | head -n 1", cwd=RELEASE)
        shutil.rmtree(os.path.join(RELEASE, "build"))

    def test_c_and_cpp(self):
        for compiler, name, text, answer in (("cc", "yours.c", C, ANSWER), ("c++", "yours.cpp", CPP, CPP_ANSWER)):
            source = write(self.folder, name, text)
            line = "%s -Wall -Werror %s -I {0}/include {0}/lib/libbellpulsar.a -o yours && ./yours".replace("{0}", RELEASE)
            self.prints(answer, line % (compiler, source), cwd=self.folder)

    @unittest.skipUnless(shutil.which("pkg-config"), "pkg-config is missing")
    def test_c_and_cpp_with_pkg_config(self):
        for compiler, name, text, answer in (("cc", "yours.c", C, ANSWER), ("c++", "yours.cpp", CPP, CPP_ANSWER)):
            source = write(self.folder, name, text)
            line = "%s %s $(pkg-config --cflags --libs bellpulsar) -o yours && ./yours" % (compiler, source)
            self.prints(answer, line, cwd=self.folder, **self.FOUND)
        self.prints(VERSION + "\n", ["pkg-config", "--modversion", "bellpulsar"], **self.FOUND)

    @unittest.skipUnless(has_cmake, "cmake is missing")
    def test_cmake(self):
        for name, text in (("CMakeLists.txt", CMAKE), ("yours.c", C), ("yours.cpp", CPP)):
            write(self.folder, name, text)
        done = run(["cmake", "-S", ".", "-B", "made", "-D", "CMAKE_PREFIX_PATH=" + RELEASE], cwd=self.folder)
        self.assertEqual((done.stderr, done.returncode), ("", 0), done.stdout)
        done = run(["cmake", "--build", "made"], cwd=self.folder)
        self.assertEqual(done.returncode, 0, done.stdout + done.stderr)
        for name, answer, is_shared in (("with_c", ANSWER, True), ("with_cpp", CPP_ANSWER, False)):
            self.prints(answer, [os.path.join(self.folder, "made", name)])
            self.assertEqual(SHARED.encode() in contents(self.folder, "made", name), is_shared, name)

    @unittest.skipUnless(has_ensurepip, "ensurepip is missing")
    def test_python_in_a_new_environment(self):
        there = os.path.join(self.folder, "radio")
        self.assertEqual(run([sys.executable, "-m", "venv", there]).returncode, 0)
        pip = [os.path.join(there, "bin", "pip"), "--isolated", "--disable-pip-version-check"]
        done = run([*pip, "install", "--no-index", os.path.join(DIST, wheel())])
        self.assertEqual(done.returncode, 0, done.stderr)
        told = run([os.path.join(there, "bin", "python"), "-c", PYTHON]).stdout
        self.assertRegex(told, r"^%s/.*/site-packages/bellpulsar/__init__\.py %s\n%s$" % (there, VERSION, ANSWER))
        self.prints(ANSWER, [os.path.join(there, "bin", "bellpulsar"), *ASKED])

    def test_python_by_path(self):
        path = os.path.join(RELEASE, "lib", "python")
        self.prints(ANSWER, [sys.executable, "-m", "bellpulsar", *ASKED], PYTHONPATH=path)

    @unittest.skipUnless(has_cargo, "cargo is missing")
    def test_rust(self):
        """Without pkg-config: the crate has its library."""
        write(self.folder, "Cargo.toml", CARGO.replace("../rust", os.path.join(RELEASE, "rust")))
        write(self.folder, "src/main.rs", RUST)
        self.prints(ANSWER, ["cargo", "run", "--offline", "--quiet"], cwd=self.folder, PKG_CONFIG="/none")
        unpacked = os.path.join(self.folder, "unpacked")
        shutil.copytree(RELEASE, unpacked, symlinks=True)
        self.prints(ANSWER, "sh examples/rust/run.sh point 2 1024 17 0 0 0 | head -n 1", cwd=unpacked)


needs_dpkg = unittest.skipUnless(shutil.which("dpkg"), "dpkg is missing")
as_root = [] if is_root else ["fakeroot"]


class Debian(Case):
    @needs_dpkg
    def test_its_fields(self):
        done = run(["dpkg-deb", "-f", os.path.join(DIST, DEB)])
        fields = dict(line.split(": ", 1) for line in done.stdout.splitlines() if line[0] != " ")
        self.assertEqual((fields["Package"], fields["Version"], fields["Architecture"]), ("bellpulsar", VERSION, "amd64"))
        told = run(["readelf", "-V", os.path.join(ROOT, "build", SHARED)]).stdout
        least = max(int(number) for number in re.findall(r"Name: GLIBC_2\.(\d+)", told))
        self.assertEqual(fields["Depends"], "libc6 (>= 2.%d), python3 (>= 3.9)" % least)
        self.assertIn("\n " + read(ROOT, "LICENCE"), done.stdout)

    def dpkg(self, *words):
        """In a system of its own, which has no other package, and no shell to run scripts with."""
        forced = ["--force-depends", "--force-script-chrootless", "--log=" + os.devnull]
        done = run([*as_root, "dpkg", "--root=" + self.folder, *forced, *words], PATH=ENV["PATH"] + ":/usr/sbin:/sbin")
        self.assertEqual(done.returncode, 0, done.stderr)

    @needs_dpkg
    @unittest.skipUnless(is_root or shutil.which("fakeroot"), "fakeroot is missing, and this is not root")
    def test_installed_and_removed(self):
        for name in ("info", "updates", "triggers"):
            os.makedirs(os.path.join(self.folder, "var", "lib", "dpkg", name))
        write(self.folder, "var/lib/dpkg/status", "")
        self.dpkg("-i", os.path.join(DIST, DEB))
        usr = os.path.join(self.folder, "usr")
        modes = {stat.S_IMODE(os.stat(path).st_mode) for path, _, _ in os.walk(usr)}
        self.assertEqual(modes, {0o755})
        self.prints(ANSWER, [os.path.join(usr, "bin", "bellpulsar"), *ASKED], PYTHONDONTWRITEBYTECODE="")
        source = write(self.folder, "yours.c", C)
        lib = os.path.join(usr, "lib", "x86_64-linux-gnu")
        line = "cc -I %s/include %s -L %s -lbellpulsar -o yours && ./yours" % (usr, source, lib)
        self.prints(ANSWER, line, cwd=self.folder, LD_LIBRARY_PATH=lib)
        packages = os.path.join(usr, "lib", "python3", "dist-packages")
        told = "%s/bellpulsar/__init__.py %s\n%s" % (packages, VERSION, ANSWER)
        self.prints(told, [sys.executable, "-c", PYTHON], PYTHONPATH=packages)
        self.assertEqual(read(usr, "share", "doc", "bellpulsar", "copyright"), read(ROOT, "LICENCE"))
        for name in ("README.md", "docs/GUIDE.md"):
            self.assertEqual(read(usr, "share", "doc", "bellpulsar", name), read(ROOT, name))
        have = files_of(os.path.join(usr, "share", "bellpulsar"))
        self.assertEqual({"rust/lib/libbellpulsar.a", "rust/Cargo.toml", "examples/c/point.c", wheel()} - have, set())
        check = ["sha256sum", "--check", "--quiet", "--strict", "usr/share/doc/bellpulsar/MANIFEST"]
        self.prints("", check, cwd=self.folder)
        self.assertIn("__pycache__", os.listdir(os.path.join(packages, "bellpulsar")))
        self.dpkg("--remove", "bellpulsar")
        self.assertEqual(files_of(usr) if os.path.exists(usr) else set(), set())


class WithoutTheToolchain(Case):
    """In a tree that is not built: what is missing, and what to do, in one sentence, and what was not done for it."""

    @classmethod
    def setUpClass(cls):
        os.rename(os.path.join(TREE, "build"), os.path.join(HOME, "built"))
        cls.addClassCleanup(os.rename, os.path.join(HOME, "built"), os.path.join(TREE, "build"))

    def tearDown(self):
        self.assertFalse(os.path.exists(os.path.join(TREE, "build")))

    def test_the_command(self):
        done = run([os.path.join(TREE, "bellpulsar"), *ASKED])
        self.assertEqual((done.stdout, done.stderr, done.returncode), ("", MISSING + NOT_BUILT, 2))

    def test_make(self):
        for words in (["install", "DESTDIR=" + self.folder], ["dist"], []):
            done = run(["make", *words], cwd=TREE)
            self.assertEqual((done.stderr.splitlines(keepends=True)[0], done.returncode), (MISSING, 2), words)
            self.assertRegex(done.stderr, r"^.*\nmake: \*\*\* .* Error 2\n$")
        self.assertEqual(os.listdir(self.folder), [])

    def test_the_hooks_of_pip(self):
        for name in ("build_wheel", "build_editable"):
            lines = "import bellpulsar_wheel; bellpulsar_wheel.%s(%r)" % (name, self.folder)
            done = run([sys.executable, "-B", "-c", lines], PYTHONPATH=os.path.join(TREE, "python"))
            self.assertEqual((done.stdout, done.returncode), ("", 1), name)
            first, *_, last = done.stderr.splitlines(keepends=True)
            self.assertEqual(first, MISSING, name)
            self.assertIn("returned non-zero exit status 2", last, name)

    @unittest.skipUnless(has_pip, "pip is missing")
    def test_pip(self):
        """Its status is its own; it shows that of what it ran."""
        pip = [sys.executable, "-m", "pip", "--isolated", "--disable-pip-version-check", "install", "--no-index"]
        done = run([*pip, "--target", self.folder, TREE])
        self.assertEqual((done.returncode, os.listdir(self.folder)), (1, []))
        self.assertRegex(done.stderr, r"exit code: 1\n.*\[[0-9]+ lines of output\]\n +" + re.escape(MISSING))

    @unittest.skipUnless(has_cargo, "cargo is missing")
    def test_the_build_script(self):
        """Cargo's status is its own, too."""
        command = ["cargo", "check", "--offline", "--quiet", "--manifest-path", os.path.join(TREE, "rust", "Cargo.toml")]
        done = run(command, CARGO_TARGET_DIR=self.folder)
        self.assertEqual(done.returncode, 101)
        self.assertIn("build-script-build` (exit status: 1)\n", done.stderr)
        told = r"--- stderr\n +%s +bellpulsar: %s/build.sh failed, as told above\n" % (re.escape(MISSING), re.escape(TREE))
        self.assertRegex(done.stderr, told)
        self.assertEqual(done.stderr.count("bellpulsar: "), 2)


class Clean(Case):
    @unittest.skipUnless(has_git, "git is missing")
    def test_what_is_left_is_tracked(self):
        """And what somebody put there who is not known."""
        kept = os.path.join(HOME, "kept")
        os.rename(os.path.join(TREE, "build"), kept)
        self.addCleanup(os.rename, kept, os.path.join(TREE, "build"))
        for name in ("build/stamp", "dist/MANIFEST", "crates/map/out/x", "rust/target/x", "examples/rust/target/x"):
            write(TREE, name, "")
        for name in ("rust/Cargo.lock", "examples/rust/Cargo.lock", "tests/rust/Cargo.lock", "tests/rust/target/x"):
            write(TREE, name, "")
        for name in ("python", "python/bellpulsar", "tests", "tests/capi", "bench", "installed"):
            write(TREE, name + "/__pycache__/x.pyc", "")
        write(TREE, "mine", "")
        self.addCleanup(os.remove, os.path.join(TREE, "mine"))
        for _ in range(2):
            done = run(["make", "clean"], cwd=TREE)
            self.assertEqual((done.stderr, done.returncode), ("", 0))
            self.assertEqual(git("status", "--porcelain", "--ignored").stdout, "?? mine\n")


if __name__ == "__main__":
    subprocess.run([os.path.join(ROOT, "build.sh")], check=True)
    tests = unittest.main(exit=False).result
    print("release: %d tests%s" % (tests.testsRun, told_skips(tests)))
    sys.exit(not tests.wasSuccessful())

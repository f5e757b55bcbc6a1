#!/usr/bin/env python3
"""Packs the Python package, installs it without a network and uses it away from its tree.

    ./build.sh && python3 tests/test_package.py

The tree that is packed is what the source archive has, with this tree's library, and is gone before anything is used.
Standard library only; what pip does is tried where this python3 has pip.
"""

import base64
import csv
import ctypes
import glob
import hashlib
import importlib.util
import itertools
import os
import re
import shutil
import subprocess
import sys
import tarfile
import tempfile
import unittest
import venv
import zipfile

from skips import told_skips
from trees import copy_built

ROOT = os.path.dirname(os.path.dirname(os.path.abspath(__file__)))
ASKED = "place 2 1024 17 0 0 0".split()
ANSWER = "symbol 0 carrier -425\n"
PROVER = "#!/bin/sh\ntouch '%s'\nexit 1\n"  # in place of the real one: it notes that it was called

has_pip = importlib.util.find_spec("pip") is not None


def header_version():
    with open(os.path.join(ROOT, "include", "bellpulsar.h")) as file:
        return ".".join(re.findall(r"^#define BP_VERSION(?:_MINOR|_PATCH)? (\d+)$", file.read(), re.MULTILINE))


def needed():
    """What the built library needs, as the linker's own tool reads it: libraries, and versions of their symbols."""
    built = os.path.join(ROOT, "build", LIBRARY)
    told = subprocess.run(["readelf", "-dV", "--wide", built], env={"PATH": os.environ["PATH"]}, capture_output=True, text=True)
    libraries = re.findall(r"\(NEEDED\).*\[(.*)\]", told.stdout)
    return libraries, re.findall(r"^  0x[0-9a-f]+: +Name: (\S+) ", told.stdout, re.MULTILINE)


def platforms():
    """Those on which pip may install a release's wheel: a glibc that has these symbols is there."""
    libraries, versions = needed()
    numbers = [int(number) for number in re.findall(r"GLIBC_2\.(\d+)", " ".join(versions))]
    if set(libraries) - {"libc.so.6"} or len(numbers) < len(versions):
        return ["linux_x86_64"]
    if max([0, *numbers]) <= 17:
        return ["manylinux_2_17_x86_64", "manylinux2014_x86_64"]
    return ["manylinux_2_%d_x86_64" % max(numbers)]


VERSION = header_version()
LIBRARY = "libbellpulsar.so." + VERSION.split(".")[0]
STEM = "bellpulsar-" + VERSION
TAG = "py3-none-linux_x86_64"
WHEEL, SOURCE = "%s-%s.whl" % (STEM, TAG), STEM + ".tar.gz"
MODULES = sorted(map(os.path.basename, glob.glob(os.path.join(ROOT, "python", "bellpulsar", "*.py"))))


def contents(path):
    with open(path, "rb") as file:
        return file.read()


FOLDER = tempfile.mkdtemp()  # of all that is packed
CALLED = os.path.join(FOLDER, "called")


def run(*command, **env):
    """In an environment without any of this tree's paths, nor pip's settings."""
    env = {"PATH": FOLDER + "/bin:" + os.environ["PATH"], "HOME": FOLDER, **env}
    return subprocess.run(command, env=env, cwd=FOLDER, capture_output=True, text=True, timeout=120)


def hook(tree, name, folder):
    """Calls a hook as pip does, in the tree's root; it prints the archive's name."""
    lines = "import os, sys; os.chdir(sys.argv[1]); import bellpulsar_wheel; print(bellpulsar_wheel.%s(sys.argv[2]))"
    return run(sys.executable, "-B", "-c", lines % name, tree, folder, PYTHONPATH=os.path.join(tree, "python"))


def source_tree(folder):
    """The tree that the source archive is, with this tree's library: current there, if the archive left nothing out."""
    subprocess.run(["tar", "xzf", os.path.join(FOLDER, SOURCE), "-C", folder], check=True)
    tree = os.path.join(folder, STEM)
    copy_built(ROOT, tree, LIBRARY)
    return tree


def setUpModule():
    """Packs both archives: the wheel from the tree of the source archive, which is gone then."""
    unittest.addModuleCleanup(shutil.rmtree, FOLDER)
    os.mkdir(os.path.join(FOLDER, "bin"))
    prover = os.path.join(FOLDER, "bin", "rt")
    with open(prover, "w") as file:
        file.write(PROVER % CALLED)
    os.chmod(prover, 0o755)
    done = hook(ROOT, "build_sdist", FOLDER)
    assert done.stdout == SOURCE + "\n", done
    with tempfile.TemporaryDirectory() as folder:
        done = hook(source_tree(folder), "build_wheel", FOLDER)
    assert done.stdout == WHEEL + "\n", done


class Wheel(unittest.TestCase):
    def setUp(self):
        self.wheel = zipfile.ZipFile(os.path.join(FOLDER, WHEEL))
        self.addCleanup(self.wheel.close)

    def read(self, name):
        return self.wheel.read(STEM + ".dist-info/" + name).decode()

    def test_what_is_in_it(self):
        self.assertIsNone(self.wheel.testzip())
        package = {"bellpulsar/" + name for name in [*MODULES, "py.typed", "VERSION", LIBRARY]}
        info = {STEM + ".dist-info/" + name for name in ("METADATA", "WHEEL", "RECORD", "entry_points.txt")}
        self.assertEqual(sorted(self.wheel.namelist()), sorted(package | info))
        for name in [*MODULES, "py.typed"]:
            tree = contents(os.path.join(ROOT, "python", "bellpulsar", name))
            self.assertEqual(self.wheel.read("bellpulsar/" + name), tree, name)
        self.assertEqual(self.wheel.read("bellpulsar/VERSION").decode(), VERSION + "\n")
        self.assertEqual(self.wheel.read("bellpulsar/" + LIBRARY), contents(os.path.join(ROOT, "build", LIBRARY)))

    def test_the_record(self):
        """Each file with its hash and length, in the order in which they are packed, and itself last."""
        *rows, own = csv.reader(self.read("RECORD").splitlines())
        self.assertEqual(own, [STEM + ".dist-info/RECORD", "", ""])
        self.assertEqual([row[0] for row in rows] + own[:1], self.wheel.namelist())
        for name, digest, length in rows:
            data = self.wheel.read(name)
            kind, told = digest.split("=")
            self.assertEqual((kind, int(length)), ("sha256", len(data)))
            self.assertEqual(base64.urlsafe_b64decode(told + "="), hashlib.sha256(data).digest(), name)

    def test_what_pip_is_told(self):
        lines = self.read("METADATA").splitlines()
        self.assertEqual(lines[:3], ["Metadata-Version: 2.1", "Name: bellpulsar", "Version: " + VERSION])
        self.assertIn("Requires-Python: >=3.9", lines)
        with open(os.path.join(ROOT, "LICENCE")) as file:
            self.assertIn("License: " + file.readline().rstrip(), lines)
        needs = [line for line in lines if line.startswith("Requires-Dist:")]
        self.assertEqual(needs, ['Requires-Dist: numpy >=1.21; extra == "arrays"'])
        lines = self.read("WHEEL").splitlines()
        self.assertEqual([lines[0], *lines[2:]], ["Wheel-Version: 1.0", "Root-Is-Purelib: false", "Tag: " + TAG])
        self.assertEqual(self.read("entry_points.txt"), "[console_scripts]\nbellpulsar = bellpulsar.command_line:run\n")


class Tags(unittest.TestCase):
    """What a release's wheel may be installed on goes by the symbols of its library."""

    LINES = """\
import sys, bellpulsar_wheel as packing
with open(sys.argv[1], "rb") as file:
    print(packing.tags(file.read()))
"""
    # Calls of the C library that came with its versions 2.17 and 2.34.
    CALLS = {"secure_getenv": "manylinux_2_17_x86_64.manylinux2014_x86_64", "close_range": "manylinux_2_34_x86_64"}

    def setUp(self):
        self.folder = tempfile.mkdtemp()
        self.addCleanup(shutil.rmtree, self.folder)

    def is_tagged(self, platform, text, *words):
        source, made = os.path.join(self.folder, "yours.c"), os.path.join(self.folder, "libyours.so")
        with open(source, "w") as file:
            file.write(text)
        subprocess.run(["cc", "-shared", "-fPIC", source, *words, "-o", made], check=True, capture_output=True)
        self.has_tags(platform, made)

    def has_tags(self, platform, library):
        done = run(sys.executable, "-B", "-c", self.LINES, library, PYTHONPATH=os.path.join(ROOT, "python"))
        self.assertEqual(done.stdout, "py3-none-%s\n" % platform, done.stderr)

    def test_of_this_library(self):
        self.has_tags(".".join(platforms()), os.path.join(ROOT, "build", LIBRARY))

    def test_by_symbols(self):
        for call, platform in self.CALLS.items():
            with self.subTest(call):
                if not hasattr(ctypes.CDLL(None), call):
                    self.skipTest("%s is not in this C library" % call)
                self.is_tagged(platform, "void %s(void); void yours(void) { %s(); }" % (call, call))

    def test_another_library(self):
        self.is_tagged("linux_x86_64", "double cos(double); double yours(double x) { return cos(x); }", "-lm")

    def test_no_library(self):
        self.is_tagged("manylinux_2_17_x86_64.manylinux2014_x86_64", "int yours(void) { return 0; }", "-nostdlib")


class Packing(unittest.TestCase):
    def setUp(self):
        self.folder = tempfile.mkdtemp()
        self.addCleanup(shutil.rmtree, self.folder)
        self.made = os.path.join(self.folder, "made")
        os.mkdir(self.made)

    def test_packed_again_the_same_bytes(self):
        """Of this tree itself, whose files have other times, and of one that was built and used."""
        used = source_tree(self.folder)
        for name in ("python", "python/bellpulsar"):
            os.mkdir(os.path.join(used, name, "__pycache__"))
            shutil.copy(__file__, os.path.join(used, name, "__pycache__", "arrays.cpython-311.pyc"))
        hooks = {"build_wheel": WHEEL, "build_sdist": SOURCE}
        for tree, (name, packed) in itertools.product((ROOT, used), hooks.items()):
            self.assertEqual(hook(tree, name, self.made).stdout, packed + "\n")
            again, before = contents(os.path.join(self.made, packed)), contents(os.path.join(FOLDER, packed))
            self.assertTrue(again == before, (tree, name))

    def test_the_source_archive(self):
        """All in a folder of its name, whoever packed it; only programs can be run."""
        with tarfile.open(os.path.join(FOLDER, SOURCE)) as archive:
            entries = archive.getmembers()
            told = archive.extractfile(STEM + "/PKG-INFO").read().decode()
        self.assertEqual({entry.name.partition("/")[0] for entry in entries}, {STEM})
        self.assertEqual({(entry.uid, entry.gid, entry.mtime) for entry in entries}, {(0, 0, 0)})
        self.assertEqual([entry.name for entry in entries if entry.mode != 0o644], [STEM + "/build.sh"])
        with zipfile.ZipFile(os.path.join(FOLDER, WHEEL)) as wheel:
            self.assertEqual(told, wheel.read(STEM + ".dist-info/METADATA").decode())

    def test_where_the_library_cannot_be_built(self):
        tree = source_tree(self.folder)
        shutil.rmtree(os.path.join(tree, "build"))
        done = hook(tree, "build_wheel", self.made)
        os.remove(CALLED)
        self.assertEqual((done.stdout, done.returncode), ("", 1))
        self.assertIn("returned non-zero exit status 2", done.stderr.splitlines()[-1])
        self.assertEqual(os.listdir(self.made), [])


USE = """\
import bellpulsar, importlib.metadata
print(bellpulsar.__file__)
print(bellpulsar.__version__, importlib.metadata.version("bellpulsar"))
print(bellpulsar.place(2, 1024, 17, 0, 0, 0), len(bellpulsar.slot_places(0, 2048, 5, 3)))
print(bellpulsar.place(7, 2048, 5, 0, 31, 46, pilots=range(26, 1677, 10)))
"""
USED = "%s %s\nPlace(symbol=0, carrier=-425) 2880\nPlace(symbol=0, carrier=-247)\n" % (VERSION, VERSION)


class Installed(unittest.TestCase):
    """In an environment of its own, which has no path to any tree."""

    @classmethod
    def setUpClass(cls):
        cls.root = tempfile.mkdtemp()
        cls.addClassCleanup(shutil.rmtree, cls.root)
        venv.create(cls.root, system_site_packages=True, symlinks=True)  # with the system's pip
        cls.python = os.path.join(cls.root, "bin", "python")

    def pip(self, *arguments):
        done = run(self.python, "-m", "pip", "--isolated", "--disable-pip-version-check", *arguments)
        self.assertEqual(done.returncode, 0, done)

    def is_used(self, folder, *commands, **env):
        """The package of this folder and no other, also by these commands; and nothing is built."""
        done = run(self.python, "-c", USE, **env)
        self.assertEqual(done.stdout, os.path.join(folder, "bellpulsar", "__init__.py\n") + USED, done.stderr)
        for command in ([self.python, "-m", "bellpulsar"], *commands):
            done = run(*command, *ASKED, **env)
            self.assertEqual((done.stdout, done.stderr, done.returncode), (ANSWER, "", 0))
        self.assertFalse(os.path.exists(CALLED))

    def test_unpacked(self):
        folder = os.path.join(self.root, "unpacked")
        with zipfile.ZipFile(os.path.join(FOLDER, WHEEL)) as wheel:
            wheel.extractall(folder)
        self.is_used(folder, PYTHONPATH=folder)

    @unittest.skipUnless(has_pip, "pip is not installed")
    def test_by_pip_from_a_tree(self):
        """The wheel that pip makes is the same bytes, and what it installs it takes away again."""
        with tempfile.TemporaryDirectory() as folder:
            tree = source_tree(folder)
            self.pip("wheel", tree, "--no-index", "--no-deps", "-w", folder)
            self.assertTrue(contents(os.path.join(folder, WHEEL)) == contents(os.path.join(FOLDER, WHEEL)))
            self.pip("install", tree, "--no-index")
        [site] = glob.glob(os.path.join(self.root, "lib", "python3*", "site-packages"))
        script = os.path.join(self.root, "bin", "bellpulsar")
        self.is_used(site, [script])
        self.pip("uninstall", "-y", "bellpulsar")
        self.assertEqual((glob.glob(site + "/bellpulsar*"), os.path.exists(script)), ([], False))

    @unittest.skipUnless(has_pip, "pip is not installed")
    def test_by_pip_editable(self):
        """What is edited in the tree is what is used."""
        with tempfile.TemporaryDirectory() as folder:
            tree = os.path.realpath(source_tree(folder))
            self.pip("install", "-e", tree, "--no-index")
            script = os.path.join(self.root, "bin", "bellpulsar")
            self.is_used(os.path.join(tree, "python"), [script])
            with open(os.path.join(tree, "python", "bellpulsar", "__init__.py"), "a") as file:
                file.write("print('edited')\n")
            self.assertEqual(run(self.python, "-c", "import bellpulsar").stdout, "edited\n")
            self.pip("uninstall", "-y", "bellpulsar")
        self.assertEqual((run(self.python, "-c", "import bellpulsar").returncode, os.path.exists(script)), (1, False))

    @unittest.skipUnless(has_pip, "pip is not installed")
    def test_by_pip_from_the_wheel(self):
        folder = os.path.join(self.root, "target")
        self.pip("install", os.path.join(FOLDER, WHEEL), "--no-index", "--target", folder)
        self.is_used(folder, [os.path.join(folder, "bin", "bellpulsar")], PYTHONPATH=folder)


if __name__ == "__main__":
    subprocess.run([os.path.join(ROOT, "build.sh")], check=True)
    tests = unittest.main(exit=False).result
    print("package: %d tests%s" % (tests.testsRun, told_skips(tests)))
    sys.exit(not tests.wasSuccessful())

#!/usr/bin/env python3
"""Installs from a copy of the tree, which is then moved away, and uses what is there from C, C++, Rust, Python and the
shell, in a folder outside of it.

    python3 tests/test_install.py
"""

import os
import re
import shlex
import shutil
import stat
import subprocess
import sys
import tempfile
import unittest

from programs import ANSWER, ASKED, C, CARGO, CPP, CPP_ANSWER, PYTHON, RUST
from skips import told_skips
from trees import copy_built, read, write

ROOT = os.path.dirname(os.path.dirname(os.path.abspath(__file__)))

with open(os.path.join(ROOT, "include", "bellpulsar.h")) as header:
    HEADER = header.read()
NUMBERS = re.findall(r"^#define BP_VERSION(?:_MINOR|_PATCH)? (\d+)$", HEADER, re.MULTILINE)
SIGNATURES = [" ".join(call.split()) for call in re.findall(r"^\w+ bp_\w+\([^)]*\);", HEADER, re.MULTILINE)]
CALLS = [re.search(r"bp_\w+", signature)[0] for signature in SIGNATURES]
VERSION = ".".join(NUMBERS)
SHARED = "libbellpulsar.so." + NUMBERS[0]
SITE = "lib/python%d.%d/site-packages" % sys.version_info[:2]
PACKAGE = os.path.join(SITE, "bellpulsar")
MODULES = [name for name in os.listdir(os.path.join(ROOT, "python", "bellpulsar")) if name.endswith((".py", ".typed"))]

HOME = os.path.realpath(tempfile.mkdtemp())  # all that the tests write
TREE = os.path.join(HOME, "tree")  # from here the first installation is made,
AWAY = os.path.join(HOME, "away")  # and here the tree is afterwards
PREFIX = os.path.join(HOME, "prefix")
COMMAND = os.path.join(PREFIX, "bin", "bellpulsar")
OUTSIDE = os.path.join(HOME, "outside")  # where what is installed is used

FOLDERS = ("DESTDIR", "PREFIX", "INCLUDEDIR", "LIBDIR", "BINDIR", "MANDIR", "PKGCONFIGDIR", "CMAKEDIR", "PYTHONDIR")
OWN = ("MAKEFLAGS", "MFLAGS", "MAKELEVEL", "LD_LIBRARY_PATH", "BELLPULSAR_LIBRARY", "BELLPULSAR_LIB_DIR")
OWN += ("PYTHONPATH", "PYTHONPYCACHEPREFIX", "CARGO_TARGET_DIR")
ENV = {name: value for name, value in os.environ.items() if name not in FOLDERS + OWN}
ENV["PYTHONDONTWRITEBYTECODE"] = "1"  # the first installation stays as it was made

PC = """\
prefix=%s
includedir=%s
libdir=%s

Name: bellpulsar
Description: The subcarrier map of IEEE 802.16e OFDMA, proved
Version: %s
Cflags: -I${includedir}
Libs: -L${libdir} -lbellpulsar
"""

# A python3 that looks elsewhere; of its words it takes -c alone.
DEBIAN = """\
#!%s
import site, sys
site.getsitepackages = lambda: ["/usr/lib/python3/dist-packages", "%s"]
del sys.argv[1]
exec(sys.argv.pop(1))
"""


def run(command, cwd=OUTSIDE, **env):
    """A command, or a line of shell."""
    options = {"cwd": cwd, "env": dict(ENV, **env), "capture_output": True, "text": True, "timeout": 120}
    return subprocess.run(command, shell=isinstance(command, str), **options)


def make(*words, tree=AWAY):
    return run(["make", *words], cwd=tree)


def copy_of_the_tree():
    """As a clone is, with the library that was built from the same source."""
    ignored = shutil.ignore_patterns(".git", "target", "build", "out", "__pycache__")
    shutil.copytree(ROOT, TREE, symlinks=True, ignore=ignored)
    copy_built(ROOT, TREE, SHARED)


def setUpModule():
    unittest.addModuleCleanup(shutil.rmtree, HOME)
    copy_of_the_tree()
    os.mkdir(OUTSIDE)
    done = make("install", "PREFIX=" + PREFIX, tree=TREE)
    if done.returncode:
        raise AssertionError(done.stderr)
    os.rename(TREE, AWAY)


def installed(root):
    """The target of each link and the mode of each other file."""
    found = {}
    for folder, _, files in os.walk(root):
        for name in files:
            path = os.path.join(folder, name)
            link = os.path.islink(path)
            found[os.path.relpath(path, root)] = os.readlink(path) if link else stat.S_IMODE(os.stat(path).st_mode)
    return found


def folders(root):
    return [os.path.join(folder, name) for folder, names, _ in os.walk(root) for name in names]


def wanted(include="include", lib="lib", pkgconfig="lib/pkgconfig", site=SITE, programs="bin", man="share/man"):
    """The same, of a whole installation."""
    package = os.path.join(site, "bellpulsar")
    return {
        os.path.join(include, "bellpulsar.h"): 0o644,
        os.path.join(lib, "libbellpulsar.a"): 0o644,
        os.path.join(lib, SHARED): 0o755,
        os.path.join(lib, "libbellpulsar.so"): SHARED,
        os.path.join(pkgconfig, "bellpulsar.pc"): 0o644,
        os.path.join(lib, "cmake", "bellpulsar", "bellpulsar-config.cmake"): 0o644,
        os.path.join(lib, "cmake", "bellpulsar", "bellpulsar-config-version.cmake"): 0o644,
        **{os.path.join(package, name): 0o644 for name in [*MODULES, "VERSION"]},
        os.path.join(package, SHARED): os.path.join(os.path.relpath(lib, package), SHARED),
        os.path.join(programs, "bellpulsar"): 0o755,
        os.path.join(man, "man1", "bellpulsar.1"): 0o644,
        **{os.path.join(man, "man3", name + ".3"): 0o644 for name in ["bellpulsar", *CALLS]},
    }


class Case(unittest.TestCase):
    def setUp(self):
        self.folder = tempfile.mkdtemp(dir=HOME)

    def prints(self, text, command, **options):
        done = run(command, **options)
        self.assertEqual((done.stdout, done.stderr, done.returncode), (text, "", 0), command)

    def made(self, *words):
        done = make(*words)
        self.assertEqual((done.stderr, done.returncode), ("", 0), words)
        return done.stdout

    def no_file_names(self, root, *paths):
        for name in installed(root):
            with open(os.path.join(root, name), "rb") as file:
                data = file.read()
            for path in paths:
                self.assertNotIn(path.encode(), data, name)


class Files(Case):
    """What is installed, and where."""

    def test_below_a_prefix(self):
        self.assertEqual(installed(PREFIX), wanted())
        self.no_file_names(PREFIX, ROOT + "/", TREE)
        self.assertEqual(read(PREFIX, PACKAGE, "VERSION"), VERSION + "\n")
        pc = read(PREFIX, "lib", "pkgconfig", "bellpulsar.pc")
        self.assertEqual(pc, PC % (PREFIX, "${prefix}/include", "${prefix}/lib", VERSION))
        for kept in ("include/bellpulsar.h", "lib/libbellpulsar.a", "lib/" + SHARED):
            source = kept.replace("lib/", "build/")
            with open(os.path.join(PREFIX, kept), "rb") as new, open(os.path.join(ROOT, source), "rb") as old:
                self.assertEqual(new.read(), old.read(), kept)

    def test_below_a_destination(self):
        """Whose name has a blank, in folders of their own, where nobody else may read what is new."""
        given = "PREFIX=/usr INCLUDEDIR=/usr/include/bp LIBDIR=/usr/lib64 PKGCONFIGDIR=/usr/share/pkgconfig "
        given += "PYTHONDIR=/srv/python BINDIR=/opt/bin MANDIR=/usr/man"
        there = os.path.join(self.folder, "a destination")
        line = "umask 077 && make %s DESTDIR=%s %s"
        for _ in range(2):
            done = run(line % ("install", shlex.quote(there), given), cwd=AWAY)
            self.assertEqual((done.stderr, done.returncode), ("", 0))
        places = {"include": "usr/include/bp", "lib": "usr/lib64", "pkgconfig": "usr/share/pkgconfig"}
        self.assertEqual(installed(there), wanted(**places, site="srv/python", programs="opt/bin", man="usr/man"))
        self.assertEqual({stat.S_IMODE(os.stat(folder).st_mode) for folder in folders(there)}, {0o755})
        self.no_file_names(there, there, AWAY)
        pc = read(there, "usr", "share", "pkgconfig", "bellpulsar.pc")
        self.assertEqual(pc, PC % ("/usr", "${prefix}/include/bp", "${prefix}/lib64", VERSION))
        self.prints(ANSWER, [os.path.join(there, "opt", "bin", "bellpulsar"), *ASKED])
        done = run(line % ("uninstall", shlex.quote(there), given), cwd=AWAY)
        self.assertEqual((done.returncode, installed(there)), (0, {}), done.stderr)

    def test_a_folder_that_is_not_below_the_prefix(self):
        there = os.path.relpath(self.folder, AWAY)
        self.made("install", "DESTDIR=" + there, "PREFIX=/usr", "LIBDIR=/opt/usr/lib", "PYTHONDIR=/usr/py")
        pc = read(self.folder, "opt", "usr", "lib", "pkgconfig", "bellpulsar.pc")
        self.assertEqual(pc, PC % ("/usr", "${prefix}/include", "/opt/usr/lib", VERSION))
        self.prints(ANSWER, [os.path.join(self.folder, "usr", "bin", "bellpulsar"), *ASKED])

    def test_folders_that_are_there_keep_their_mode(self):
        os.makedirs(os.path.join(self.folder, "lib"))
        os.chmod(os.path.join(self.folder, "lib"), 0o2775)
        self.made("install", "PREFIX=" + self.folder)
        self.assertEqual(stat.S_IMODE(os.stat(os.path.join(self.folder, "lib")).st_mode), 0o2775)

    def test_what_would_be_done(self):
        told = self.made("-n", "install", "PREFIX=" + self.folder)
        for name in ("./build.sh", "%s/lib'" % self.folder, "command_line.py", "installed/bellpulsar.pc"):
            self.assertIn(name, told)
        self.assertEqual(os.listdir(self.folder), [])


class Refused(Case):
    """Nothing is installed then."""

    def is_refused(self, words, *given):
        done = make("install", "DESTDIR=" + self.folder, *given)
        self.assertEqual((done.returncode, os.listdir(self.folder)), (2, []), given)
        self.assertIn(words, done.stderr)

    def test_folders(self):
        for name, value in (("PREFIX", "usr"), ("PREFIX", ""), ("LIBDIR", "/a b"), ("PYTHONDIR", "lib")):
            self.is_refused("%s must be one absolute path, without blanks" % name, "%s=%s" % (name, value))

    def test_a_build_that_fails(self):
        header = read(AWAY, "include", "bellpulsar.h")
        self.addCleanup(write, AWAY, "include/bellpulsar.h", header)
        for name, words in (("BP_VERSION", "bellpulsar: %s\n"), ("BP_VERSION_MINOR", "%s.")):
            write(AWAY, "include/bellpulsar.h", header.replace("#define %s " % name, "#define OTHER "))
            self.is_refused(words % ("include/bellpulsar.h has no " + name))


class Uninstalled(Case):
    def test_what_others_put_there_stays(self):
        self.made("install", "PREFIX=" + self.folder)
        self.prints(ANSWER, [os.path.join(self.folder, "bin", "bellpulsar"), *ASKED], PYTHONDONTWRITEBYTECODE="")
        self.assertIn("__pycache__", os.listdir(os.path.join(self.folder, PACKAGE)))
        foreign = [os.path.join(PACKAGE, "mine.py"), os.path.join(PACKAGE, "__pycache__", "mine.pyc"), "bin/mine"]
        foreign.append("lib/libbellpulsar.so.0")
        for name in foreign:
            write(self.folder, name, "")
        self.made("uninstall", "PREFIX=" + self.folder)
        self.assertEqual(sorted(installed(self.folder)), sorted(foreign))
        for name in foreign:
            os.remove(os.path.join(self.folder, name))
        self.made("uninstall", "PREFIX=" + self.folder)
        self.assertEqual(installed(self.folder), {})
        for name in ("include", "lib/pkgconfig", "lib/cmake", SITE, "bin", "share/man/man1", "share/man/man3"):
            self.assertEqual(os.listdir(os.path.join(self.folder, name)), [])


needs_pkg_config = unittest.skipUnless(shutil.which("pkg-config"), "pkg-config is missing")


class Programs(Case):
    """As README has them."""

    def compiled(self, line, name, text):
        """Of a line of shell with %s for the source and the program."""
        source, program = write(self.folder, name, text), os.path.join(self.folder, "yours")
        done = run(line % (source, program), PKG_CONFIG_PATH=os.path.join(PREFIX, "lib", "pkgconfig"))
        self.assertEqual((done.stderr, done.returncode), ("", 0), line)
        with open(program, "rb") as file:
            return program, SHARED.encode() in file.read()

    def works_shared(self, compiler, name, text, answer):
        line = compiler + " -Wall -Werror %s $(pkg-config --cflags --libs bellpulsar) -o %s"
        program, is_shared = self.compiled(line, name, text)
        self.assertTrue(is_shared)
        self.prints(answer, [program], LD_LIBRARY_PATH=os.path.join(PREFIX, "lib"))

    @needs_pkg_config
    def test_c(self):
        self.works_shared("${CC:-cc}", "yours.c", C, ANSWER)

    @needs_pkg_config
    def test_cpp(self):
        self.works_shared("${CXX:-c++}", "yours.cpp", CPP, CPP_ANSWER)

    @needs_pkg_config
    def test_c_static(self):
        line = "${CC:-cc} %s $(pkg-config --cflags bellpulsar) "
        line += "$(pkg-config --variable=libdir bellpulsar)/libbellpulsar.a -o %s"
        program, is_shared = self.compiled(line, "yours.c", C)
        self.assertFalse(is_shared)
        self.prints(ANSWER, [program])

    def test_c_without_pkg_config(self):
        line = "${CC:-cc} -I {0}/include %s {0}/lib/libbellpulsar.a -o %s".replace("{0}", PREFIX)
        program, _ = self.compiled(line, "yours.c", C)
        self.prints(ANSWER, [program])

    @needs_pkg_config
    @unittest.skipUnless(shutil.which("cargo"), "cargo is missing")
    def test_rust(self):
        shutil.copytree(os.path.join(AWAY, "rust"), os.path.join(self.folder, "rust"))
        write(self.folder, "yours/Cargo.toml", CARGO)
        write(self.folder, "yours/src/main.rs", RUST)
        found = {"PKG_CONFIG_PATH": os.path.join(PREFIX, "lib", "pkgconfig")}
        self.prints(ANSWER, ["cargo", "run", "--offline", "--quiet"], cwd=os.path.join(self.folder, "yours"), **found)


class Python(Case):
    def test_the_package(self):
        path = {"PYTHONPATH": os.path.join(PREFIX, SITE)}
        module = os.path.join(PREFIX, PACKAGE, "__init__.py")
        self.prints("%s %s\n%s" % (module, VERSION, ANSWER), [sys.executable, "-c", PYTHON], **path)
        self.prints(ANSWER, [sys.executable, "-m", "bellpulsar", *ASKED], **path)

    def test_a_debian(self):
        """Its Python looks at no site-packages below /usr/local."""
        place = "/usr/local/lib/python3.99/dist-packages"
        stub = write(self.folder, "python3", DEBIAN % (sys.executable, place))
        os.chmod(stub, 0o755)
        done = run(["make", "-n", "install"], cwd=AWAY, PATH=self.folder + ":" + ENV["PATH"])
        self.assertIn("'%s/bellpulsar'" % place, done.stdout)


class Command(Case):
    def setUp(self):
        super().setUp()
        self.prefix = os.path.join(self.folder, "moved")
        shutil.copytree(PREFIX, self.prefix, symlinks=True)
        self.command = os.path.join(self.prefix, "bin", "bellpulsar")

    def test_wherever_it_is(self):
        self.prints(ANSWER, [self.command, *ASKED])
        link = os.path.join(self.folder, "link")
        os.symlink(self.command, link)
        self.prints(ANSWER, [link, *ASKED])
        self.prints(ANSWER, ["bellpulsar", *ASKED], PATH=os.path.dirname(self.command) + ":" + ENV["PATH"])

    def test_statuses(self):
        refused = run([self.command, "place", "2", "1024", "256", "0", "0", "0"])
        self.assertEqual((refused.returncode, refused.stderr), (1, ""))
        self.assertRegex(refused.stdout, "^refused 3: ")
        self.assertEqual(run([self.command, "nothing"]).returncode, 2)
        os.remove(os.path.join(self.prefix, "lib", SHARED))
        done = run([self.command, *ASKED])
        self.assertEqual((done.stdout, done.returncode), ("", 2))
        self.assertRegex(done.stderr, "^bellpulsar: no Bellpulsar library at %s" % self.prefix)
        shutil.rmtree(os.path.join(self.prefix, PACKAGE))
        done = run([self.command, *ASKED])
        told = "bellpulsar: there is no Python package at %s\n" % os.path.join(self.prefix, PACKAGE)
        self.assertEqual((done.stdout, done.stderr, done.returncode), ("", told, 2))

    def test_a_python_that_is_too_old(self):
        """As if this one were: its number is another one before the command is run."""
        lines = "import runpy, sys; sys.version_info = (3, 8, 18, 'final', 0); runpy.run_path(sys.argv[1], run_name='__main__')"
        done = run([sys.executable, "-c", lines, self.command])
        told = "bellpulsar: Python 3.9 or later is needed, and this is 3.8.18\n"
        self.assertEqual((done.stdout, done.stderr, done.returncode), ("", told, 2))

    def test_its_neighbours_are_not_imported(self):
        """Packages that have the name of a module of Python's own are often among the installed ones."""
        for name in ("typing.py", "argparse.py", "enum.py"):
            write(self.prefix, os.path.join(SITE, name), "raise SystemExit(9)\n")
        self.prints(ANSWER, [self.command, *ASKED])


# Words of the header that are for the compiler alone.
NOT_TOLD = {"ifdef", "ifndef", "cplusplus", "extern", "stddef", "stdint"}


class ManPage(Case):
    PAGE = os.path.join(PREFIX, "share", "man", "man1", "bellpulsar.1")

    def test_version(self):
        self.assertIn('"bellpulsar %s"' % VERSION, read(self.PAGE))
        self.assertNotIn("@", read(self.PAGE))

    def test_every_command_has_an_entry(self):
        told = run([COMMAND, "--help"])
        commands = re.findall("^    ([a-z]+)\\b", told.stdout, re.MULTILINE)
        self.assertIn("place", commands)
        entries = read(self.PAGE).partition(".SH COMMANDS")[2].partition(".SH OPTIONS")[0]
        entries = re.findall('^\\.TP\n\\.BI? "?([a-z]+)', entries, re.MULTILINE)
        self.assertEqual(set(commands) - set(entries), set())

    def test_examples(self):
        text = read(self.PAGE).partition(".SH EXAMPLES")[2].partition(".EX\n")[2].partition(".EE")[0]
        for example in text.replace("\\-", "-").replace("\\(aq", "'").split("$ bellpulsar ")[1:]:
            words, answer = example.split("\n", 1)
            done = run([COMMAND, *words.split()], cwd=self.folder)
            self.assertEqual((done.stdout, done.stderr), (answer, ""), words)

    def test_the_example_with_a_list(self):
        text = read(self.PAGE).partition(".SH EXAMPLES")[2].split(".EX\n")[2].partition(".EE")[0].replace("\\-", "-")
        lines = [line[2:] for line in text.splitlines() if line.startswith("$ ")]
        answer = "".join(line + "\n" for line in text.splitlines() if not line.startswith("$ "))
        self.assertEqual(len(lines), 2)
        self.prints(answer, "; ".join(lines).replace("bellpulsar", COMMAND), cwd=self.folder)

    def test_the_calls(self):
        """Section 3 has each call of the header with its signature, twice, and a page of each name leads there."""
        self.assertGreaterEqual(len(CALLS), 19)
        text = read(PREFIX, "share", "man", "man3", "bellpulsar.3")
        plain = text.replace("\\-", "-").replace("\\(aq", "'").replace("\\(ga", "`")
        names = re.search(r"^\.SH NAME\n(.*) - ", plain, re.MULTILINE)[1]
        self.assertEqual(names.split(", "), ["bellpulsar", *CALLS])
        synopsis, _, calls = plain.partition(".SH DESCRIPTION")
        found = [" ".join(call.split()) for call in re.findall(r"^\w+ bp_\w+\([^)]*\);", synopsis, re.MULTILINE)]
        self.assertEqual(found, SIGNATURES)
        entries = re.findall(r"^\.SS (bp_\w+)\n\.EX\n([^;]*;)\n\.EE$", calls, re.MULTILINE)
        self.assertEqual([(name, " ".join(call.split())) for name, call in entries], list(zip(CALLS, SIGNATURES)))
        self.assertEqual(set(re.findall(r"[a-z]{3,}", HEADER)) - set(re.findall(r"[a-z]{3,}", plain)), NOT_TOLD)
        for name in CALLS:
            self.assertEqual(read(PREFIX, "share", "man", "man3", name + ".3"), ".so man3/bellpulsar.3\n")

    @unittest.skipUnless(shutil.which("groff"), "groff is missing")
    def test_section_3_is_set_without_a_warning(self):
        done = run(["groff", "-man", "-Tutf8", "-ww", os.path.join(PREFIX, "share", "man", "man3", "bellpulsar.3")])
        self.assertEqual((done.stderr, done.returncode), ("", 0))

    @unittest.skipUnless(shutil.which("groff"), "groff is missing")
    def test_it_is_set_without_a_warning(self):
        done = run(["groff", "-man", "-Tutf8", "-ww", self.PAGE])
        self.assertEqual((done.stderr, done.returncode), ("", 0))
        for part in ("NAME", "SYNOPSIS", "COMMANDS", "EXIT STATUS", "ENVIRONMENT", "FILES", "EXAMPLES", "SEE ALSO"):
            self.assertIn(part, re.sub(".\b", "", re.sub("\033\\[[0-9;]*m", "", done.stdout)))


if __name__ == "__main__":
    subprocess.run([os.path.join(ROOT, "build.sh")], check=True)
    tests = unittest.main(exit=False).result
    print("install: %d tests%s" % (tests.testsRun, told_skips(tests)))
    sys.exit(not tests.wasSuccessful())

#!/usr/bin/env python3
"""Tries build.sh, and what goes by it, in copies of the tree where a stub stands for the prover.

    python3 tests/test_build.py
"""

import filecmp
import glob
import os
import re
import shutil
import signal
import subprocess
import sys
import tempfile
import time
import unittest

ROOT = os.path.dirname(os.path.dirname(os.path.abspath(__file__)))
LIBRARY = os.path.join(ROOT, "build", "libbellpulsar.a")
ASKED = ["place", "2", "1024", "17", "0", "0", "0"]
ANSWER = "symbol 0 carrier -425\n"
PLACED = "Place(symbol=0, carrier=-425)\n"
VERSION = "#define BP_VERSION 5\n"
SHARED = "libbellpulsar.so.5"

# Each stub notes its process where that matters, in a file of the tree: it is run in a crate's folder. The first proves at once
# what the crate is built on, and it: each crate after those that it needs, with nothing said of one that was proved before, as
# the prover does. The second makes a static library too, where it notes its process, and fails where a crate that it needs is
# not proved.
IDENTITY = "stub 1 logic 0\n"
CHECKS = """\
#!/bin/sh
tree=${0%/*}/..
[ "$*" != version ] || exec echo stub 1 logic 0
here=${PWD##*/}
needs() { sed -n "s/^$1\\( staticlib\\)*:\\(.*\\)/\\2/p" ../../crates.txt; }
heard=" "
prove() {
    case $heard in *" $1 "*) return ;; esac
    [ -e "../$1/src/lib.rt" ] || return 0
    for need in $(needs "$1"); do prove "$need"; done
    heard="$heard$1 "
    echo "== $1"
    [ ! -e "../$1/out" ] || return 0
    mkdir "../$1/out"
    echo "fn $1::f: proved"
    echo "logic=proved functions=3 of $1"
}
if [ "$1" = all ]; then
    [ "$2 $3" = "check --jobs" ] && [ "$4" -gt 0 ] && [ $# = 4 ] || exit 9
    prove "$here"
    echo "== summary"
    echo "$here: ok"
    exit
fi
"""
PROVES = CHECKS + """\
echo $$ >>"$tree/calls"
[ "$*" = lib ] || exit 9
for need in $(needs "$here"); do [ -e "../$need/out" ] || exit 9; done
sleep ${PROOF:-0}
echo "logic=proved functions=14 target=x of $here"
cd out && ar x '%s' "$here.o" && ar rcsD "lib$here.a" "$here.o" || exit 9
echo done >>"$tree/calls"
""" % LIBRARY
# The next two never end by themselves, the one at the first crates and the other at the static libraries, nor does the child,
# whose process they note too.
ENDLESS = '#!/bin/sh\ntree=${0%/*}/..\nsleep 600 & echo $! >>"$tree/calls"\necho $$ >>"$tree/calls"\nwait\n'
ENDLESS_CALLS = CHECKS + ENDLESS
FAILS = """\
#!/bin/sh
echo called >>"${0%/*}/../calls"
echo "statements std: modules loaded=1489 checked=0"
echo "== base"
echo "note: src/lib.rt:1:1: it is not proved"
echo "statements std: modules loaded=21 checked=0"
echo "logic=not-proved"
echo "== text"
echo "fn text::f: proved"
echo "logic=proved functions=3"
echo "== summary"
echo "text: ok"
echo "base: failed (1)"
echo "rt: the check failed" >&2
exit 1
"""
# What is shown of it: not the counts, nor what is proved.
FAILED = "== base\nnote: src/lib.rt:1:1: it is not proved\nlogic=not-proved\n== summary\nbase: failed (1)\nrt: the check failed\n"
FAILS_CALLS = CHECKS + 'echo "error: no library"\nexit 1\n'
# And one that reads nothing of the second crate of C calls.
FAILS_LATER = PROVES.replace('    prove "$here"\n', """\
    [ ! -e "$tree/calls" ] || { echo "error: no such name"; exit 1; }
    prove "$here"
""")
COMPILER = '#!/bin/sh\necho "$0" "$@" >>words\nexec cc "$@"\n'
# Notes its words, and makes a program that does nothing; the preprocessor is the compiler's own.
NO_COMPILER = """\
#!/bin/sh
echo "$0" "$@" >>words
if [ "$1" = -E ]; then exec cc "$@"; fi
while [ $# -gt 1 ]; do
    if [ "$1" = -o ]; then ln -sf /bin/true "$2"; fi
    shift
done
"""

CLEARED = ("CC", "CFLAGS", "LDFLAGS", "BELLPULSAR_LIBRARY")


def heed_signals():
    """In a child, before its program: as from a terminal, even where the tests were started under nohup or behind `&`."""
    for number in (signal.SIGINT, signal.SIGTERM, signal.SIGHUP):
        signal.signal(number, signal.SIG_DFL)


def stub(tree, name, text):
    """A program of the tree's own."""
    path = os.path.join(tree, "bin", name)
    with open(path, "w") as file:
        file.write(text)
    os.chmod(path, 0o755)


def environment(tree):
    """As a user has it; the tree's own programs come first."""
    env = {name: value for name, value in os.environ.items() if name not in CLEARED}
    return dict(env, PATH=os.path.join(tree, "bin") + ":" + env["PATH"])


def running(process):
    """Whether a process runs; one that has ended and was not waited for does not."""
    try:
        with open("/proc/%d/stat" % process) as file:
            return file.read().rsplit(")", 1)[1].split()[0] not in "ZX"
    except (FileNotFoundError, ProcessLookupError):
        return False


def until(what, seconds=10):
    end = time.monotonic() + seconds
    while not what():
        if time.monotonic() > end:
            return False
        time.sleep(0.01)
    return True


def small_crates(root, listed):
    """Crates with one small file in each folder."""
    with open(os.path.join(root, "crates.txt"), "w") as file:
        file.write(listed)
    for crate in re.findall(r"^(\w+)(?: staticlib)?:", listed, re.MULTILINE):
        for part in ("src/lib.rt", "specs/Lib.antt", "proofs/Lib.antt"):
            path = os.path.join(root, "crates", crate, part)
            os.makedirs(os.path.dirname(path))
            with open(path, "w") as file:
                file.write(crate)


def small_tree(root):
    for name in ("build.sh", "bellpulsar"):
        shutil.copy(os.path.join(ROOT, name), root)
    ignored = shutil.ignore_patterns("__pycache__")
    for name in ("python", "include", "examples/c"):
        shutil.copytree(os.path.join(ROOT, name), os.path.join(root, name), ignore=ignored)
    small_crates(root, FEW)


def crates(listed):
    """The crates that have the C calls; and these and all below them, each with those that it needs."""
    needs = dict(re.findall(r"^(\w+)(?: staticlib)?:(.*)$", listed, re.MULTILINE))
    calls = [name for name in needs if name.startswith("capi_")]
    names = list(calls)
    for name in names:
        names += [need for need in needs[name].split() if need in needs and need not in names]
    return calls, {name: [need for need in needs[name].split() if need in names] for name in names}


def declared():
    """The functions that the header declares."""
    with open(os.path.join(ROOT, "include", "bellpulsar.h")) as file:
        return re.findall(r"^(?:uint32_t|size_t) (bp_\w+)\(", file.read(), re.MULTILINE)


with open(os.path.join(ROOT, "crates.txt")) as file:
    LISTED = file.read()
CALLS = crates(LISTED)[0]
# The crates of the C calls, over few others, in three levels; and one that no call needs.
FEW = "# (No call needs the program.)\nbase:\ntext:\namc: base\nmap: base amc\nplan: base map text\nzones: plan\n"
FEW += "".join("%s staticlib: %s\n" % (name, "plan" if name == "capi_plan" else "base map") for name in CALLS)
NOTES = 2 * len(CALLS)  # what the stub notes in one build
MODEL = tempfile.mkdtemp()  # the tree that every test copies


def setUpModule():
    unittest.addModuleCleanup(shutil.rmtree, MODEL)
    small_tree(MODEL)
    os.mkdir(os.path.join(MODEL, "bin"))
    stub(MODEL, "rt", PROVES)
    subprocess.run(["./build.sh"], cwd=MODEL, env=environment(MODEL), check=True, capture_output=True)
    os.remove(os.path.join(MODEL, "calls"))
    forget_proofs(MODEL)


def forget_proofs(tree):
    """The folders of the prover are gone."""
    for folder in glob.glob(os.path.join(tree, "crates", "*", "out")):
        shutil.rmtree(folder)


class Case(unittest.TestCase):
    """A test has a tree of its own, whose library is current, and a prover that fails."""

    def setUp(self):
        self.tree = tempfile.mkdtemp()
        self.addCleanup(shutil.rmtree, self.tree)
        shutil.copytree(MODEL, self.tree, symlinks=True, dirs_exist_ok=True)
        self.env = environment(self.tree)
        self.stub("rt", FAILS)

    def path(self, *names):
        return os.path.join(self.tree, *names)

    def stub(self, name, text):
        stub(self.tree, name, text)

    def edit(self, *names):
        """A file is other than it was, though its time says that it is old."""
        with open(self.path(*names), "a") as file:
            file.write("\n")
        os.utime(self.path(*names), (10**9, 10**9))

    def run_in_tree(self, *command, **env):
        env = dict(self.env, **env)
        return subprocess.run(command, cwd=self.tree, env=env, capture_output=True, text=True, timeout=60)

    def build(self, *arguments, **env):
        return self.run_in_tree("./build.sh", *arguments, **env)

    def imported(self, **env):
        lines = "import bellpulsar; print(bellpulsar.place(2, 1024, 17, 0, 0, 0))"
        return self.run_in_tree(sys.executable, "-c", lines, PYTHONPATH=self.path("python"), **env)

    def calls(self):
        """What the stubs noted."""
        try:
            with open(self.path("calls")) as file:
                return file.read().split()
        except FileNotFoundError:
            return []

    def is_current(self):
        done = self.build()
        self.assertEqual((done.stdout, done.stderr, done.returncode, self.calls()), ("", "", 0, []))

    def is_made_anew(self):
        self.stub("rt", PROVES)
        done = self.build()
        self.assertEqual((done.returncode, len(self.calls())), (0, NOTES), done.stderr)
        os.remove(self.path("calls"))


class Current(Case):
    """What is current goes by content."""

    def test_a_copied_tree_is_current(self):
        for folder, _, files in os.walk(self.tree):
            for name in files:
                os.utime(os.path.join(folder, name))
        os.utime(self.path("build", SHARED), (10**9, 10**9))
        self.is_current()

    def test_without_the_folder_of_the_prover(self):
        """Each crate has one of its own."""
        self.assertEqual(glob.glob(self.path("crates", "*", "out")), [])
        self.is_current()

    def test_what_is_in_a_folder_of_the_prover(self):
        os.mkdir(self.path("crates", "map", "out"))
        with open(self.path("crates", "map", "out", "lib.rt"), "w") as file:
            file.write("other")
        self.is_current()

    def test_what_is_changed_is_made_anew(self):
        for names in (["crates", "map", "src", "lib.rt"], ["crates.txt"], ["build.sh"]):
            self.edit(*names)
            self.is_made_anew()
            self.stub("rt", FAILS)
            self.is_current()

    def test_files_that_come_and_go(self):
        extra = self.path("crates", "amc", "specs", "More.antt")
        with open(extra, "w"):
            pass
        self.is_made_anew()
        os.remove(extra)
        self.is_made_anew()
        for name in ("libbellpulsar.a", "link/libbellpulsar.so", SHARED, "toolchain"):
            os.remove(self.path("build", name))
            self.is_made_anew()

    def test_crates_that_the_library_does_not_have(self):
        self.edit("crates", "zones", "src", "main.rt")
        self.is_current()

    def test_whether_it_is(self):
        self.assertEqual(self.build("--check").returncode, 0)
        self.edit("crates", "map", "src", "lib.rt")
        self.assertEqual(self.build("--check").returncode, 1)
        self.assertEqual(self.calls(), [])
        self.assertEqual(self.build("--nothing").returncode, 2)


class Versions(Case):
    """The header tells the interface's version, and the shared library has it in its name."""

    def header_with(self, line):
        """The line that tells the version is another, or none."""
        with open(os.path.join(ROOT, "include", "bellpulsar.h")) as file:
            text = file.read()
        self.assertEqual(text.count(VERSION), 1)
        with open(self.path("include", "bellpulsar.h"), "w") as file:
            file.write(text.replace(VERSION, line))

    def test_of_the_header_only_the_version_counts(self):
        self.edit("include", "bellpulsar.h")
        self.is_current()
        for line, name in (("#define BP_VERSION 13\n", "libbellpulsar.so.13"), (VERSION, SHARED)):
            self.header_with(line)
            self.assertEqual(self.build("--check").returncode, 1)
            self.is_made_anew()
            copy = self.path("build", "link", "libbellpulsar.so")
            self.assertFalse(os.path.islink(copy))
            self.assertTrue(filecmp.cmp(copy, self.path("build", name), shallow=False))
            self.stub("rt", FAILS)
            self.is_current()

    def test_a_header_without_a_version(self):
        self.header_with("")
        for arguments in ([], ["--check"]):
            done = self.build(*arguments)
            told = (done.stderr, done.returncode, self.calls())
            self.assertEqual(told, ("bellpulsar: include/bellpulsar.h has no BP_VERSION\n", 2, []))

    def test_a_program_asks_for_its_version(self):
        command = ["cc", "-I", "include", "examples/c/point.c", "-L", "build/link", "-lbellpulsar", "-o", "point"]
        self.assertEqual(self.run_in_tree(*command).stderr, "")
        done = self.run_in_tree("./point", *ASKED[1:], LD_LIBRARY_PATH="build")
        self.assertEqual((done.stdout.splitlines()[0] + "\n", done.returncode), (ANSWER, 0), done.stderr)
        self.header_with("#define BP_VERSION 13\n")
        self.is_made_anew()
        os.remove(self.path("build", SHARED))
        done = self.run_in_tree("./point", *ASKED[1:], LD_LIBRARY_PATH="build")
        self.assertEqual((done.stdout, done.returncode), ("", 127))
        self.assertIn("%s: cannot open" % SHARED, done.stderr)

    def test_an_older_build(self):
        """The library had no version in its name at first: a program from then finds none."""
        shutil.rmtree(self.path("build", "link"))
        os.remove(self.path("build", SHARED))
        archive = ["-Wl,--whole-archive", "build/libbellpulsar.a", "-Wl,--no-whole-archive"]
        command = ["cc", "-shared", "-Wl,-soname,libbellpulsar.so", "-o", "build/libbellpulsar.so", *archive]
        self.assertEqual(self.run_in_tree(*command).stderr, "")
        command = ["cc", "-I", "include", "examples/c/point.c", "build/libbellpulsar.so", "-o", "point"]
        self.assertEqual(self.run_in_tree(*command).stderr, "")
        self.assertEqual(self.run_in_tree("./point", *ASKED[1:], LD_LIBRARY_PATH="build").returncode, 0)
        self.assertEqual(self.build("--check").returncode, 1)
        done = self.imported()
        self.assertEqual((done.stdout, done.returncode), ("", 1))
        last = done.stderr.splitlines()[-1]
        self.assertRegex(last, "^ImportError: no Bellpulsar library at .*/%s: run ./build.sh" % SHARED)
        self.is_made_anew()
        self.assertEqual(self.imported().stdout, PLACED)
        done = self.run_in_tree("./point", *ASKED[1:], LD_LIBRARY_PATH="build")
        self.assertEqual((done.stdout, done.returncode), ("", 127))
        self.assertIn("libbellpulsar.so: cannot open", done.stderr)


class Callers(Case):
    def test_an_old_library_is_not_used(self):
        self.assertEqual(self.imported().stdout, PLACED)
        self.edit("crates", "map", "src", "lib.rt")
        done = self.imported()
        self.assertEqual((done.stdout, done.returncode), ("", 1))
        last = done.stderr.splitlines()[-1]
        self.assertRegex(last, "^ImportError: .*/%s is old: .*run ./build.sh" % SHARED)
        named = self.imported(BELLPULSAR_LIBRARY=self.path("build", "link", "libbellpulsar.so"))
        self.assertEqual(named.stdout, PLACED)

    def test_the_command_line_builds(self):
        self.stub("rt", PROVES)
        shutil.rmtree(self.path("build"))
        done = self.run_in_tree("./bellpulsar", *ASKED)
        self.assertEqual((done.stdout, done.returncode, len(self.calls())), (ANSWER, 0, NOTES))
        self.edit("crates", "map", "src", "lib.rt")
        done = self.run_in_tree("./bellpulsar", *ASKED)
        self.assertEqual((done.stdout, done.returncode, len(self.calls())), (ANSWER, 0, 2 * NOTES))
        self.assertEqual(self.run_in_tree("./bellpulsar", *ASKED).stderr, "")

    def test_the_command_line_where_the_build_fails(self):
        self.edit("crates", "map", "src", "lib.rt")
        done = self.run_in_tree("./bellpulsar", *ASKED)
        self.assertEqual((done.stdout, done.returncode), ("", 2))
        told = "bellpulsar: the engine is not proved; build/log has all that was said\n"
        self.assertIn(FAILED + told, done.stderr)
        self.assertEqual(done.stderr.splitlines()[-1], "bellpulsar: the engine could not be built")

    def test_the_command_line_where_the_builder_is_killed(self):
        with open(self.path("build.sh"), "w") as file:
            file.write("#!/bin/sh\nkill -9 $$\n")
        done = self.run_in_tree("./bellpulsar", *ASKED)
        told = "bellpulsar: the engine could not be built\n"
        self.assertEqual((done.stdout, done.stderr, done.returncode), ("", told, 2))


class Building(Case):
    def shows_what_is_proved(self, listed):
        """Each crate after those that it needs."""
        calls, needs = crates(listed)
        self.stub("rt", PROVES)
        shutil.rmtree(self.path("build"))
        done = self.build()
        self.assertEqual((done.stdout, done.returncode), ("", 0))
        shown = done.stderr.splitlines()
        total = len(needs)
        self.assertRegex(shown[0], "^bellpulsar: proving and building the engine, %d crates" % total)
        names = [line.split()[1] for line in shown[1:]]
        self.assertEqual(sorted(names), sorted(needs))
        for n, name in enumerate(names):
            self.assertLessEqual(set(needs[name]), set(names[:n]), name)
            self.assertEqual(shown[1 + n], "bellpulsar: %s proved (%d of %d)" % (name, n + 1, total))
        with open(self.path("build", "log")) as file:
            said = re.findall(r"^logic=proved .* of (\w+)$", file.read(), re.MULTILINE)
        self.assertEqual(sorted(said), sorted([*needs, *calls]))

    def test_the_toolchain_is_noted(self):
        self.edit("crates.txt")
        self.is_made_anew()
        with open(self.path("build", "toolchain")) as file:
            self.assertEqual(file.read(), IDENTITY)

    def test_what_is_proved_shows(self):
        self.shows_what_is_proved(FEW)

    def test_the_crates_of_the_engine(self):
        shutil.rmtree(self.path("crates"))
        small_crates(self.tree, LISTED)
        self.shows_what_is_proved(LISTED)

    def test_the_library_has_each_call_once(self):
        self.stub("rt", PROVES)
        shutil.rmtree(self.path("build"))
        self.assertEqual(self.build().returncode, 0)
        for command in (["nm", "-g", self.path("build", "libbellpulsar.a")], ["nm", "-D", self.path("build", SHARED)]):
            done = subprocess.run([*command, "--defined-only"], capture_output=True, text=True, check=True)
            names = [line.split()[2] for line in done.stdout.splitlines() if " T " in line]
            self.assertEqual(sorted(names), sorted(declared()), command)

    def test_a_proof_that_fails(self):
        """The prover is not begun again after it."""
        self.edit("crates", "map", "src", "lib.rt")
        for _ in range(2):
            done = self.build()
            self.assertEqual((done.stdout, done.returncode), ("", 2))
            shown = done.stderr.partition("\n")[2]
            told = "bellpulsar: the engine is not proved; build/log has all that was said\n"
            self.assertEqual(shown, "bellpulsar: text proved (1 of %d)\n" % len(crates(FEW)[1]) + FAILED + told)
            self.assertEqual(self.build("--check").returncode, 1)
        self.assertEqual(self.calls(), ["called"] * 2)
        self.assertEqual(self.run_in_tree("sh", "examples/c/run.sh", "point", *ASKED[1:]).returncode, 2)

    def test_a_static_library_that_fails(self):
        """Its proof, or what its archive is made of."""
        alone = 'ar rcsD "lib$here.a" "$here.o"'
        self.assertIn(alone, PROVES)
        others = PROVES.replace(alone, 'cp "$here.o" more.o && %s more.o' % alone)
        self.edit("crates", "map", "src", "lib.rt")
        fails = "== library capi_map\nerror: no library\n"
        for prover, told in ((FAILS_CALLS, fails), (others, "is not made of capi_map.o alone\n")):
            self.stub("rt", prover)
            done = self.build()
            self.assertEqual((done.stdout, done.returncode), ("", 2))
            self.assertIn(told, done.stderr)
            self.assertEqual(self.build("--check").returncode, 1)

    def test_a_later_crate_that_fails(self):
        self.assertNotEqual(FAILS_LATER, PROVES)
        self.stub("rt", FAILS_LATER)
        self.edit("crates", "map", "src", "lib.rt")
        done = self.build()
        self.assertEqual((done.stdout, done.returncode), ("", 2))
        told = "bellpulsar: the engine is not proved; build/log has all that was said\n"
        self.assertRegex(done.stderr, r"\n== crates of capi_\w+\nerror: no such name\n" + told + "$")

    def test_a_compiler_that_fails(self):
        self.assertEqual(self.run_in_tree("sh", "examples/c/run.sh", "point", *ASKED[1:], CC="false").returncode, 2)
        self.stub("rt", PROVES)
        self.edit("crates", "map", "src", "lib.rt")
        done = self.build(CC="false")
        self.assertEqual(done.returncode, 2)
        told = "bellpulsar: the engine is proved, and its libraries could not be made of it"
        self.assertEqual(done.stderr.splitlines()[-1], told)
        self.assertEqual(self.build("--check").returncode, 1)

    def test_streams_that_are_closed_or_full(self):
        self.stub("rt", PROVES)
        for streams in ("2>&-", "2>/dev/full", "<&- >&- 2>&-"):
            self.edit("crates", "map", "src", "lib.rt")
            self.assertEqual(self.run_in_tree("sh", "-c", "./build.sh " + streams).returncode, 0, streams)
            self.assertEqual(self.run_in_tree("sh", "-c", "./build.sh --check " + streams).returncode, 0, streams)

    def test_two_at_once(self):
        self.stub("rt", PROVES)
        self.edit("crates", "map", "src", "lib.rt")
        options = {"env": dict(self.env, PROOF="0.3"), "stderr": subprocess.PIPE, "text": True}
        both = [subprocess.Popen(["./build.sh"], cwd=self.tree, **options) for _ in range(2)]
        told = [one.communicate(timeout=60)[1] for one in both]
        self.assertEqual(([one.returncode for one in both], len(self.calls())), ([0, 0], NOTES), told)
        self.assertEqual(sum("waiting" in text for text in told), 1)

    def test_the_compiler_and_its_words(self):
        self.stub("rt", PROVES)
        self.stub("mine", COMPILER)
        words = {"CC": "env mine", "CFLAGS": "-g -DA=1", "LDFLAGS": "-Wl,-z,now -Wl,-z,relro"}
        self.edit("crates", "map", "src", "lib.rt")
        self.assertEqual(self.build(**words).returncode, 0)
        done = self.run_in_tree("sh", "examples/c/run.sh", "point", *ASKED[1:], **words)
        self.assertEqual((done.stdout.splitlines()[0] + "\n", done.returncode), (ANSWER, 0), done.stderr)
        with open(self.path("words")) as file:
            lines = file.read().splitlines()
        self.assertEqual(len(lines), 2)
        for line in lines:
            self.assertIn(" -g -DA=1 ", line)
            self.assertIn(" -Wl,-z,now -Wl,-z,relro", line)

    def test_the_compiler_of_the_tests_and_the_benchmark(self):
        self.stub("mine", NO_COMPILER)
        self.stub("python3", "#!/bin/sh\n")
        for name in ("tests/capi", "bench"):
            shutil.copytree(os.path.join(ROOT, name), self.path(name))
        os.makedirs(self.path("crates", "plan_vectors"), exist_ok=True)
        with open(self.path("crates", "plan_vectors", "stdout"), "w"):
            pass
        words = {"CC": "env mine", "CFLAGS": "-g -DA=1", "LDFLAGS": "-Wl,-z,now"}
        for script, compiled in (("tests/capi/run.sh", 6), ("bench/run.sh", 2)):
            done = self.run_in_tree("sh", script, **words)
            self.assertEqual(done.returncode, 0, done.stderr)
            with open(self.path("words")) as file:
                lines = [line for line in file if " -o " in line and "-x c++" not in line]
            self.assertEqual(len(lines), compiled, script)
            for line in lines:
                self.assertIn(" -g -DA=1 -Wl,-z,now ", line)
            os.remove(self.path("words"))


class Killed(Case):
    """Whoever is killed, no prover runs on, and the next build is not held up."""

    def prover_ends(self, command, number, prover=ENDLESS):
        self.stub("rt", prover)
        self.edit("crates", "map", "src", "lib.rt")
        options = {"env": self.env, "stderr": subprocess.DEVNULL, "start_new_session": True}
        caller = subprocess.Popen(command, cwd=self.tree, preexec_fn=heed_signals, **options)
        self.assertTrue(until(lambda: len(self.calls()) == 2))
        processes = list(map(int, self.calls()))
        self.assertTrue(all(map(running, processes)))
        caller.send_signal(number)
        self.assertEqual(caller.wait(timeout=10), -number)
        self.assertTrue(until(lambda: not any(map(running, processes))), (command, number))
        os.remove(self.path("calls"))
        self.is_made_anew()

    def test_the_builder(self):
        for number in (signal.SIGINT, signal.SIGTERM, signal.SIGHUP, signal.SIGKILL):
            self.prover_ends([self.path("build.sh")], number)
            self.prover_ends([self.path("build.sh")], number, ENDLESS_CALLS)

    def test_the_command_line(self):
        for number in (signal.SIGINT, signal.SIGTERM, signal.SIGKILL):
            self.prover_ends([self.path("bellpulsar"), *ASKED], number)


if __name__ == "__main__":
    subprocess.run([os.path.join(ROOT, "build.sh")], check=True)
    unittest.main()

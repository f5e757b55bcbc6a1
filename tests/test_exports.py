#!/usr/bin/env python3
"""Holds it that a function that C can call requires nothing of its caller: no contract of one has a `requires`.

    python3 tests/test_exports.py

Reads every source of every crate. That it finds them all shows by the header, which declares the same functions.
"""

import glob
import os
import re
import unittest

ROOT = os.path.dirname(os.path.dirname(os.path.abspath(__file__)))

COMMENT = re.compile(r"//[^\n]*|/\*.*?\*/", re.DOTALL)
FUNCTION = re.compile(r"\bfn\s+(\w+)")
EXPORTED = re.compile(r'\bextern\s+("C"\s+)?fn\s+$')


def exported(text):
    """Each function of a source that C can call, with its text: up to the next function, or the source's end."""
    text = COMMENT.sub(" ", text)
    found = list(FUNCTION.finditer(text))
    ends = [function.start() for function in found[1:]] + [len(text)]
    for function, end in zip(found, ends):
        if EXPORTED.search(text[: function.start(1)]):
            yield function.group(1), text[function.start() : end]


def requiring(text):
    """The names of those that have a `requires`."""
    return [name for name, function in exported(text) if re.search(r"\brequires\b", function)]


def sources():
    for path in sorted(glob.glob(os.path.join(ROOT, "crates", "*", "src", "**", "*.rt"), recursive=True)):
        with open(path, encoding="utf-8") as file:
            yield path, file.read()


class Tree(unittest.TestCase):
    def test_no_exported_function_has_a_requires(self):
        found = [(os.path.relpath(path, ROOT), name) for path, text in sources() for name in requiring(text)]
        self.assertEqual(found, [])

    def test_the_exported_functions_are_the_headers(self):
        with open(os.path.join(ROOT, "include", "bellpulsar.h"), encoding="utf-8") as file:
            declared = re.findall(r"\b(bp_\w+)\(", COMMENT.sub(" ", file.read()))
        found = [name for _, text in sources() for name, _ in exported(text)]
        self.assertEqual(sorted(found), sorted(declared))


# A function that C can call, without and with a `requires`; and what is none of either.
FREE = """\
#[unsafe(no_mangle)]
pub extern "C" fn bp_free(mode: u32) -> u32
    ensures { result ≡ mode }
{
    mode
}
"""
BOUND = FREE.replace("bp_free", "bp_bound").replace("    ensures", "    requires { mode < 8 }\n    ensures")
INNER = 'fn inner(mode: u32) -> u32\n    requires { mode < 8 }\n{\n    mode\n}\n'


class Finding(unittest.TestCase):
    """A test that cannot fail is worse than none: what it must find, and what it must not."""

    def test_a_requires_is_found(self):
        self.assertIn("requires", BOUND)
        for text in (BOUND, FREE + BOUND, BOUND + FREE, FREE + INNER + BOUND, BOUND + INNER + FREE):
            self.assertEqual(requiring(text), ["bp_bound"], text)

    def test_after_the_ensures_and_on_one_line(self):
        last = FREE.replace("mode }\n{", "mode }\n    requires { mode < 8 }\n{")
        line = 'pub extern fn bp_free(mode: u32) requires { mode < 8 } {}'
        for text in (last, line, INNER + line):
            self.assertEqual(requiring(text), ["bp_free"], text)

    def test_what_is_none(self):
        comment = FREE + "// It requires nothing, as fn bound requires it.\n/* requires\nfn */\n"
        for text in ("", FREE, INNER, comment + INNER, INNER + FREE + INNER):
            self.assertEqual(requiring(text), [], text)


if __name__ == "__main__":
    unittest.main()

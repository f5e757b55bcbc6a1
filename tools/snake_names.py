#!/usr/bin/env python3
"""Spells the definitions and lemmas of the crates in snake case, by snake_names.tsv beside this file: old name, a tab, new name.

usage: snake_names.py FOLDER    where FOLDER has crates/ in the spelling that port.py leaves

In a file of antt every word of the table turns, and in a comment those in backticks and those that the file's code has. In a
file of Rattle the words of its clauses, ghost lines and comments' backticks turn, and none of its code. Run it once: nine
lemmas that would be spelled as a definition now is keep their dash, and a second run would turn that definition.
"""

import os
import re
import sys

WORD = re.compile(r'[^\s(){}.;,@"«»]+')
CLAUSE = re.compile(r"\b(?:requires|ensures)\b[^{\n]*\{")
SPAN = re.compile(r"`[^`\n]*`")


def table():
    path = os.path.join(os.path.dirname(os.path.realpath(__file__)), "snake_names.tsv")
    with open(path, encoding="utf-8") as lines:
        return dict(line.rstrip("\n").split("\t") for line in lines)


def turned(text, names):
    return WORD.sub(lambda word: names.get(word[0], word[0]), text)


def in_comment(text, names, known):
    parts, at = [], 0
    for span in SPAN.finditer(text):
        parts += [turned(text[at : span.start()], known), "`" + turned(span[0][1:-1], names) + "`"]
        at = span.end()
    return "".join(parts) + turned(text[at:], known)


def antt(text, names):
    code = re.sub(r"--[^\n]*", "", text)
    # A word of prose is a name where it can be nothing else.
    known = {it: names[it] for it in set(WORD.findall(code)) if it in names and re.search("[A-Z]", it)}
    return "".join(
        in_comment(part, names, known) if part.startswith("--") else turned(part, names)
        for part in re.split(r"(--[^\n]*)", text)
    )


def clause_end(text, at):
    """The place past the brace that closes the one before `at`."""
    depth = 1
    while depth:
        depth += {"{": 1, "}": -1}.get(text[at], 0)
        at += 1
    return at


def rattle(text, names):
    out, at = [], 0
    for found in re.finditer(r"//[^\n]*|ghost use\b[^;]*;|\b(?:requires|ensures)\b\*? *\w* *\{|\bghost\b[^{;\n]*\{", text):
        if found.start() < at:
            continue
        out.append(text[at : found.start()])
        if found[0].startswith("//"):
            at = found.end()
            out.append(SPAN.sub(lambda span: "`" + turned(span[0][1:-1], names) + "`", found[0]))
        else:
            at = found.end() if found[0].endswith(";") else clause_end(text, found.end())
            out.append(turned(text[found.start() : at], names))
    return "".join(out) + text[at:]


def main():
    if len(sys.argv) != 2:
        sys.exit(__doc__)
    names = table()
    for folder, folders, files in os.walk(os.path.join(sys.argv[1], "crates")):
        folders[:] = sorted(it for it in folders if it != "out")
        for name in sorted(files):
            turn = {".antt": antt, ".rt": rattle}.get(os.path.splitext(name)[1])
            if turn is None:
                continue
            path = os.path.join(folder, name)
            with open(path, encoding="utf-8") as file:
                text = file.read()
            new = turn(text, names)
            if new != text:
                with open(path, "w", encoding="utf-8") as file:
                    file.write(new)


if __name__ == "__main__":
    main()

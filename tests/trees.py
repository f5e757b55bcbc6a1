"""Files of a folder, and a tree's library in a copy of it, for the tests of what is installed, packed and released."""

import os
import shutil


def write(folder, name, text):
    path = os.path.join(folder, name)
    os.makedirs(os.path.dirname(path), exist_ok=True)
    with open(path, "w") as file:
        file.write(text)
    return path


def read(*names):
    with open(os.path.join(*names)) as file:
        return file.read()


def copy_built(root, tree, shared):
    """The library, as build.sh leaves it, from one tree to another of the same source."""
    os.makedirs(os.path.join(tree, "build", "link"))
    for name in ("libbellpulsar.a", shared, "link/libbellpulsar.so", "toolchain", "stamp"):
        shutil.copy2(os.path.join(root, "build", name), os.path.join(tree, "build", name))

"""The version of this package, which is that of the library's header."""

import os
import re

_HERE = os.path.dirname(os.path.abspath(__file__))
INSTALLED = os.path.join(_HERE, "VERSION")  # an installation has it beside its modules
HEADER = os.path.join(os.path.dirname(os.path.dirname(_HERE)), "include", "bellpulsar.h")  # a clone has this
_NUMBERS = ("BP_VERSION", "BP_VERSION_MINOR", "BP_VERSION_PATCH")


def _defined(text: str) -> str:
    """The version that a header's text defines."""
    told = dict(re.findall(r"^#define (\w+) ([0-9]+)$", text, re.MULTILINE))
    return ".".join(told.get(name, "") for name in _NUMBERS)


def _version() -> str:
    path = INSTALLED if os.path.exists(INSTALLED) else HEADER
    try:
        with open(path, encoding="utf-8") as file:
            text = file.read()
    except OSError as error:
        neither = "the version of Bellpulsar stands in %s, or else in %s, and neither can be read: %s"
        raise ImportError(neither % (INSTALLED, HEADER, error.strerror)) from None
    told = text.strip() if path == INSTALLED else _defined(text)
    if not re.fullmatch(r"[0-9]+\.[0-9]+\.[0-9]+", told):
        raise ImportError("%s does not tell the version of Bellpulsar" % path)
    return told


__version__ = _version()

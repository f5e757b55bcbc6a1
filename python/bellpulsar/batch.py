"""Many requests in a row: lines of standard input, of which each has its answer on a line of standard output."""

import os
from types import SimpleNamespace

from bellpulsar import answers
from bellpulsar.files import put, reason_of, standard_input
from bellpulsar.refusals import FUSC
from bellpulsar.words import MODES, SHIELD, NotUnderstood

CHUNK = 2**16  # bytes that are read at once, if so many have arrived
LINE_LIMIT = 2**20  # bytes: far more than any request needs

# The requests that are asked for by the thousand: fields and nothing else.
FIELDS = {
    "place": ["mode", "size", "cell", "slot", "subchannel", "index"],
    "locate": ["mode", "size", "cell", "symbol", "carrier"],
    "collisions ofusc": ["size", "cell_a", "subchannel_a", "cell_b", "subchannel_b"],
    "collisions amc": ["cell_a", "cell_b"],
}
ANSWERS = {
    "place": answers.place,
    "locate": answers.locate,
    "collisions ofusc": answers.ofusc_collisions,
    "collisions amc": answers.amc_collisions,
}

# Words as the argument parser would take them: all that can be accepted, and more.
NUMBER_WORDS = {str(number): number for number in range(-1024, 4096)}
MODE_WORDS = {word: number for number, name in enumerate(MODES) for word in (name, str(number))}


class Form:
    """How a request of fields alone is understood without the argument parser, which takes longer than an answer."""

    def __init__(self, name, is_json):
        self.fields = FIELDS[name]
        self.values = [MODE_WORDS if field == "mode" else NUMBER_WORDS for field in self.fields]
        self.options = SimpleNamespace(answer=ANSWERS[name], json=is_json, mode=None)

    def understand(self, words):
        """The options; or None where the parser is to say what they are."""
        if len(words) != len(self.fields):
            return None
        try:
            values = [values[word] for values, word in zip(self.values, words)]
        except KeyError:
            return None
        vars(self.options).update(zip(self.fields, values), pilots=None)
        return self.options


class Batch:
    """`parse` gives the options of any request, or raises NotUnderstood; `answer_to` a status and the answer. `pilots`
    are those of requests in FUSC that have none of their own."""

    def __init__(self, is_json, pilots, parse, answer_to):
        self.is_json, self.pilots, self.parse, self.answer_to = is_json, pilots, parse, answer_to
        self.forms = {name: Form(name, is_json) for name in FIELDS}
        self.requests, self.faults = 0, []

    def understand(self, words):
        name, *rest = words
        if name not in self.forms:
            name, rest = " ".join(words[:2]), words[2:]
        form = self.forms.get(name)
        options = form and form.understand(rest) or self.parse(words)
        if options.mode == FUSC and options.pilots is None:
            options.pilots = self.pilots
        return options

    def answer(self, line, at):
        """The answer's line; none to a line that has no request."""
        words = (line.partition("#")[0] if "#" in line else line).split()
        if not words:
            return ""
        self.requests += 1
        try:
            return self.answer_to(self.understand(words))[1]
        except NotUnderstood as error:
            told = str(error)
        except OSError as error:
            told = reason_of(error)
        self.faults.append(at)
        return answers.not_understood(told, self.is_json)


def arriving(source):
    """Lists of lines, each of what has arrived, so that nobody waits for an answer who is waited for."""
    rest = b""
    while data := os.read(source, CHUNK):
        whole, newline, rest = (rest + data).rpartition(b"\n")
        if newline:
            yield text_of(whole).split("\n")
        if len(rest) > LINE_LIMIT:
            raise OSError("standard input: a line has more than %d bytes" % LINE_LIMIT)
    yield [text_of(rest)]


def text_of(data):
    return data.decode("utf-8", "replace").replace(SHIELD, "\ufffd")


def answer_all(is_json, pilots, parse, answer_to):
    batch, first = Batch(is_json, pilots, parse, answer_to), 1
    for lines in arriving(standard_input()):
        put("".join([batch.answer(line, at) for at, line in enumerate(lines, first)]))
        first += len(lines)
    if batch.faults:
        told = (len(batch.faults), batch.requests, batch.faults[0])
        raise OSError("%d of %d requests not understood, the first on line %d" % told)
    return ""

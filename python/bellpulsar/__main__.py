"""python3 -m bellpulsar: the command line."""

from bellpulsar.command_line import run

run()

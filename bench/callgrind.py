"""Counts what one call ran, from two files that callgrind wrote with --dump-instr=yes and without compression: of `bench
count`, and of `bench twice`, which makes the call once more.

    callgrind.py PROGRAM COUNT TWICE NAME [--profile]
"""
import collections
import sys

from instructions import disassembled, profile, report


def costs(lines):
    """How often each (function, address) ran. The line after calls= is the cost of a call, which its function has too."""
    ran, function, of_call = collections.Counter(), "?", False
    for line in lines:
        if line.startswith("fn="):
            function = line[3:].strip().split("'")[0]
        elif line.startswith("calls="):
            of_call = True
        elif line.startswith("0x"):
            words = line.split()
            if not of_call:
                ran[function, int(words[0], 16)] += int(words[-1])
            of_call = False
    return ran


def read(file):
    with open(file) as lines:
        return costs(lines)


def main():
    program, once, twice, name = sys.argv[1:5]
    ran = read(twice)
    ran.subtract(read(once))
    (profile if "--profile" in sys.argv else report)(name, +ran, disassembled(program))


main()

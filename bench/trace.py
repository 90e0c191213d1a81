"""Counts what ran, from the log that qemu-x86_64 writes of every instruction.

    trace.py PROGRAM LOG NAMES [--profile]

LOG is what `-one-insn-per-tb -d exec,nochain` gives of `bench count`, NAMES what `bench list` prints for the same words.
Beside instructions and products it gives cycles where llvm-mca is there: its estimate for Skylake, four operations a
cycle, of the instructions in the order in which they ran, every branch foreseen and every load served by the first cache.
"""
import collections
import re
import shutil
import subprocess
import sys

from instructions import disassembled, profile, report

MCA = ["llvm-mca", "-mtriple=x86_64", "-mcpu=skylake", "-dispatch=4", "-iterations=1", "-instruction-info=0", "-resource-pressure=0"]


def stretches(log):
    """What ran inside `counted`: for each call of it a list of (function, address)."""
    stretch = None
    for line in log:
        if not line.startswith("Trace"):
            continue
        words = line.split()
        function = words[4] if len(words) > 4 else "?"
        if function == "counted" and stretch is None:
            stretch = []
        elif function == "counted_end" and stretch is not None:
            yield stretch
            stretch = None
        if stretch is not None:
            stretch.append((function, int(words[3].split("/")[1], 16)))


def straight(texts):
    """Code without a branch: a jump on a comparison is one operation with it, any other jump takes a place."""
    code, last = [], ""
    for text in texts:
        if re.match(r"j(?!mp)", text) and re.match(r"(cmp|test|add|sub|inc|dec|and)[bwlq]?\b", last):
            pass
        elif re.match(r"(j|call|ret|nop|data16|cs nop|endbr|bnd|notrack)", text):
            code.append("nop")
        else:
            code.append(text)
        last = text
    return code


def cycles(texts):
    """Cycles, and how many instructions llvm-mca would not read."""
    code, skipped = straight(texts), 0
    while True:
        ran = subprocess.run(MCA, input="\n".join(code) + "\n", capture_output=True, text=True)
        total = re.search(r"Total Cycles: +(\d+)", ran.stdout)
        if total:
            return int(total[1]), skipped
        refused = {int(n) for n in re.findall(r"^[^:\n]*:(\d+):\d+: error", ran.stderr, re.M)}
        if not refused:
            sys.exit("bench: llvm-mca: " + ran.stderr[:400])
        skipped += len(refused)
        for n in refused:
            code[n - 1] = "nop"


def estimate(name, texts):
    total, skipped = cycles(texts)
    print("cycles", name, total)
    if skipped:
        print("skipped", name, skipped)


def main():
    program, log, names = sys.argv[1:4]
    text = disassembled(program)
    with open(log, errors="replace") as lines, open(names) as wanted:
        for stretch, name in zip(stretches(lines), map(str.strip, wanted)):
            if "--profile" in sys.argv:
                profile(name, collections.Counter(stretch), text)
                continue
            if shutil.which("llvm-mca"):
                estimate(name, [text[address] for _, address in stretch])
            report(name, collections.Counter(stretch), text)


main()

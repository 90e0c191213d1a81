"""The instructions of a program for x86-64, and what is said of those that ran."""
import collections
import re
import shutil
import subprocess
import sys
from pathlib import Path

# Where pmullw and pmulhw make the two halves of eight products, both come up, so each counts as four.
LANES = {"pmullw": 4, "pmulhw": 4, "pmulhuw": 4, "pmaddwd": 8, "pmuludq": 2, "pmulld": 4}


def objdump(program, *words):
    """An objdump reads the programs of its own machine, and often no others."""
    for tool in filter(shutil.which, ("objdump", "x86_64-linux-gnu-objdump")):
        ran = subprocess.run([tool, *words, program], capture_output=True, text=True)
        if ran.returncode == 0:
            return ran.stdout.splitlines()
    sys.exit("bench: there is no objdump here that reads " + program)


def listing(program, *words):
    return objdump(program, "-d", "--no-show-raw-insn", *words)


def archive_of(words):
    """The archive that the words begin with, or the repository's own; and the other words."""
    if words and Path(words[0]).is_file():
        return words[0], words[1:]
    return "target/staticlib/libhoengtila.a", words


def functions(archive, *words):
    """Name to the lines of its code."""
    found, name = {}, None
    for line in listing(archive, *words):
        if head := re.match(r"[0-9a-f]+ <(.*)>:$", line):
            name = head[1]
            found[name] = []
        elif name:
            found[name].append(line)
    return found


def code(archive):
    """The bytes of its sections of code, of which each function has one."""
    sections = (line.split() for line in objdump(archive, "-h"))
    return sum(int(words[2], 16) for words in sections if len(words) > 2 and words[1].startswith(".text"))


def disassembled(program):
    """Address to instruction."""
    found = {}
    for line in listing(program):
        parts = re.match(r" *([0-9a-f]+):\t(.*)", line)
        if parts:
            found[int(parts[1], 16)] = re.sub(r" *(<.*|#.*)$", "", parts[2]).strip()
    return found


def products(text):
    """Scalar multiplications, those of addresses too, and the lanes of vector ones; not what shifts and adds make."""
    name = text.split()[0] if text else ""
    if re.fullmatch(r"i?mul[bwlq]?", name):
        return 1
    return LANES.get(name.removeprefix("v"), 0)


def report(name, ran, text):
    """ran: how often each (function, address) came up."""
    print("instructions", name, sum(ran.values()))
    print("products", name, sum(n * products(text.get(address, "")) for (_, address), n in ran.items()))


def profile(name, ran, text):
    count, product = collections.Counter(), collections.Counter()
    for (function, address), n in ran.items():
        count[function] += n
        product[function] += n * products(text.get(address, ""))
    print(f"{name}: {sum(count.values())} instructions\n  instructions  products  function")
    for function, n in count.most_common():
        print(f"  {n:12}  {product[function]:8}  {function}")

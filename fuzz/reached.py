"""How much of the archive's code a run of the harness reaches, by instruction.

    python3 fuzz/reached.py PROGRAM CALLGRIND_OUT ENTRY...

The archive has no counters, so the plain program (not position-independent) is
run under valgrind's callgrind with --dump-instr=yes --compress-pos=no, and the
addresses that it counted are held against objdump's listing of the archive's
functions.  Padding is left out.  A figure, not a test.
"""

import re
import subprocess
import sys

PADDING = ("nop", "cs nop", "data16", "int3", "xchg   %ax,%ax")


def listing(program, is_ours):
    """{address: function} of the instructions that are not padding"""
    found, function = {}, None
    for line in subprocess.run(["objdump", "-d", program], capture_output=True, text=True, check=True).stdout.splitlines():
        head = re.match(r"^[0-9a-f]+ <(.*)>:$", line)
        if head:
            function = head.group(1)
        row = re.match(r"^\s+([0-9a-f]+):\t[0-9a-f ]+\t(.*)", line)
        if row and function and is_ours(function) and not row.group(2).startswith(PADDING):
            found[int(row.group(1), 16)] = function
    return found


def counted(name):
    """The addresses of callgrind's lines; the line after calls= is the call's own."""
    with open(name, encoding="utf-8", errors="replace") as f:
        return {int(m.group(1), 16) for m in (re.match(r"^0x([0-9a-f]+) ", line) for line in f) if m}


def main():
    program, counts, *entries = sys.argv[1:]
    # The archive's own functions have names of two parts.
    code = listing(program, lambda name: name in entries or "::" in name)
    hit = counted(counts)
    for function in sorted(set(code.values())):
        rows = [at for at in code if code[at] == function]
        print(f"{function}: {sum(at in hit for at in rows)} of {len(rows)} instructions")
    reached = sum(at in hit for at in code)
    print(f"all: {reached} of {len(code)} instructions, {100 * reached / len(code):.1f} %")


main()

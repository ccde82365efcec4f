#!/usr/bin/env python3
"""loops.py FILE.s ...: whether the loops of a pass are in the machine code as docs/SPEED.md says.

An innermost loop is told by its float arithmetic: how many multiplications and additions it has of four numbers at once, and how many of one; and
by whether it stores four numbers at once, since j0 and the sixteen sums have as many of each. The files are named x86_64.s and aarch64.s. A loop
that is not found has fallen apart: the compiler works on one number at a time, or builds its fours by moves. Where llvm-mca is at hand (MCA may
name it) its estimate of cycles is added; it knows no cache and no branch. Version 19 knows all four processors; an older one takes another's
numbers for those that it does not know.
"""
import os
import re
import shutil
import subprocess
import sys

# what of a pass it is, products and sums of four numbers at once, whether it stores such fours, pixels at a turn
LOOPS = [
    ("places and weights", 3, 22, True, 4),
    ("a run of pixels, one of three images", 8, 5, True, 4),
    ("j0", 4, 4, True, 4),
    ("sixteen sums", 4, 4, False, 1),
]
PROCESSORS = {"x86_64": ["skylake", "znver3"], "aarch64": ["neoverse-n1", "neoverse-v1"]}
JUMP = re.compile(r"\s+(?:j\w+|b(?:\.\w+)?|cbn?z|tbn?z)\s+(?:.*,\s*)?(\.L\w+)")
FLOATS = {
    "x86_64": (r"\bmulps", r"\b(?:add|sub)ps", r"\b(?:mul|add|sub)ss"),
    "aarch64": (r"\bfmul\s+v", r"\bf(?:add|sub)\s+v", r"\bf(?:mul|add|sub)\s+s"),
}
STORE = {"x86_64": r"\bmov(?:[au]ps|dq[au])\s+%xmm\d+, .*\(", "aarch64": r"\bst[rp]\s+q"}


def innermost(lines):
    """the lines of each loop that holds no other: from a label to a jump back to it"""
    at = {m.group(1): i for i, m in enumerate(re.match(r"(\.L\w+):", line) for line in lines) if m}
    ends = [(at[m.group(1)], i) for i, m in enumerate(map(JUMP.match, lines)) if m and at.get(m.group(1), i) < i]
    for a, b in ends:
        if not any((a, b) != (c, d) and a <= c and d <= b for c, d in ends):
            yield [line for line in lines[a + 1 : b + 1] if re.match(r"\s+[a-z]", line)]


def cycles(body, processor, pixels):
    """the estimate for each kind of processor, in cycles a pixel"""
    program = os.environ.get("MCA") or shutil.which("llvm-mca")
    if not program:
        return ""
    told = []
    for kind in PROCESSORS[processor]:
        words = [program, "-march=" + processor.replace("_", "-"), "-mcpu=" + kind, "-iterations=200"]
        said = subprocess.run(words, input="\n".join(body), capture_output=True, text=True).stdout
        total = re.search(r"Total Cycles:\s+(\d+)", said)
        told.append(f"{kind} {int(total.group(1)) / 200 / pixels:.2f}" if total else f"{kind} ?")
    return ", ".join(told)


def main():
    missing = 0
    for path in sys.argv[1:]:
        processor = os.path.basename(path).removesuffix(".s")
        found = []
        for body in innermost(open(path).read().split("\n")):
            text = "\n".join(body)
            found.append(([len(re.findall(f, text)) for f in FLOATS[processor]], bool(re.search(STORE[processor], text)), body))
        for name, products, sums, stores, pixels in LOOPS:
            bodies = [body for counts, stored, body in found if counts == [products, sums, 0] and stored == stores]
            if not bodies:
                print(f"{processor}: {name}: NOT FOUND with {products} products and {sums} sums of four numbers and none of one")
                missing += 1
                continue
            shortest = min(bodies, key=len)
            print(f"{processor}: {name}: {len(shortest) / pixels:.2f} instructions a pixel. {cycles(shortest, processor, pixels)}".rstrip())
    sys.exit(1 if missing else 0)


main()

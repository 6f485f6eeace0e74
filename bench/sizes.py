"""The library's sizes by sections, and its largest functions: what it takes of a cabinet's memory beside the site and the stack.

  sizes.py     after `make build`
"""
import collections
import re
import subprocess
import sys

from built import LIBRARY

KINDS = (("code", r"\.text"), ("read-only data", r"\.rodata|\.data\.rel\.ro"), ("writable data", r"\.data(?!\.rel\.ro)|\.bss"))
SHOWN = 5


def sections():
    listed = subprocess.run(["size", "-A", LIBRARY], capture_output=True, text=True, check=True).stdout
    return [(name, int(size)) for name, size in re.findall(r"^(\.\S+)\s+(\d+)\s+\d+$", listed, re.MULTILINE)]


def functions():
    listed = subprocess.run(["nm", "-S", "--size-sort", "-r", LIBRARY], capture_output=True, text=True, check=True).stdout
    return [(name, int(size, 16)) for size, name in re.findall(r"^[0-9a-f]+ ([0-9a-f]+) [tT] (\S+)$", listed, re.MULTILINE)]


def main():
    sums = collections.Counter()
    for name, size in sections():
        sums[next((kind for kind, pattern in KINDS if re.match(pattern, name)), "for linkers and debuggers")] += size
    for kind in (*(kind for kind, _ in KINDS), "for linkers and debuggers"):
        print(f"{kind:26} {sums[kind]:7} bytes")
    print(f"{len(functions())} functions, the largest: " + ", ".join(f"{name} {size}" for name, size in functions()[:SHOWN]))
    return 0


if __name__ == "__main__":
    sys.exit(main())

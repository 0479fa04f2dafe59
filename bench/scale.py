#!/usr/bin/env python3
"""How the time of a check grows with its text.

Usage: scale.py BINARY   (as crates/prefast/out/prefast)
Checks texts of one form in three sizes each, and prints the time and how much faster than the text it grew (1.0: as the
text): functions that cycle a bounded store and one that is off by one; a file of comments, up to 4 MiB; uses of short
macros, up to 100,000; 64 headers, each included by the one before it, up to 4 MiB in all. Then, from 4,000 to 64,000 of
each: macros that are defined and used, warnings in one function, declarators in declarations of 20 behind 20 annotations,
typedef names that are defined and used.
"""
import os
import subprocess
import sys
import tempfile
import time

BOUNDED = "void f{k}(_Out_writes_(n) int *a, unsigned int n, unsigned int i)\n{{ if (i < n) a[i] = 1; }}\n"
OFF_BY_ONE = BOUNDED.replace("i < n", "i <= n")
COMMENT = "/* a comment that says nothing of any function, in a line of its own */\n"
MACROS = "#define ONE 1\n#define SAME(x) x\n"
REPLACED = (
    "void f{k}(_Out_writes_(n) int *a, unsigned int n, unsigned int i)\n"
    "{{ if (SAME(i) < SAME(n)) a[SAME(i)] = ONE; if (SAME(i) < SAME(n)) a[SAME(i)] = ONE; }}\n"
)
UNBUILT = "refused 33: outside the profile: not built yet"
FILE_BYTES = 4 * 1024 * 1024
DEPTH = 64


def functions(count):
    return {"t.c": "".join((BOUNDED if k % 2 == 0 else OFF_BY_ONE).format(k=k) for k in range(count))}


def comments(size):
    return {"t.c": COMMENT * (size // len(COMMENT))}


def macros(uses):
    return {"t.c": MACROS + "".join(REPLACED.format(k=k) for k in range(uses // 8))}


def includes(size):
    rest = COMMENT * (size // DEPTH // len(COMMENT))
    files = {f"h{k}.h": (f'#include "h{k + 1}.h"\n' if k < DEPTH else "") + rest for k in range(1, DEPTH + 1)}
    return files | {"t.c": '#include "h1.h"\n'}


def declarators(count):
    lists = (", ".join(f"f{k}(int n)" for k in range(first, first + 20)) for first in range(0, count, 20))
    return {"t.c": "".join("_Check_return_ " * 20 + f"int {them};\n" for them in lists)}


def typedefs(count):
    return {"t.c": "".join(f"typedef int t{k};\n" for k in range(count)) + "".join(f"t{k} x{k};\n" for k in range(count))}


def definitions(count):
    return {"t.c": "".join(f"#define M{k} 1\n" for k in range(count)) + "".join(f"int x{k} = M{k};\n" for k in range(count))}


def warnings(count):
    return {"t.c": "void f(_Out_writes_(n) int *a, unsigned int n)\n{\n" + "a[n] = 1;\n" * count + "}\n"}


def seconds(binary, files, wanted):
    with tempfile.TemporaryDirectory() as folder:
        for name, text in files.items():
            with open(os.path.join(folder, name), "w", encoding="ascii") as out:
                out.write(text)
        start = time.monotonic()
        run = subprocess.run([binary, "check", "t.c"], cwd=folder, capture_output=True, check=False, timeout=600)
        taken = time.monotonic() - start
    last = (run.stdout.decode("ascii").splitlines() or [""])[-1]
    if last != wanted:
        sys.exit(f"status {run.returncode}, last line {last!r}, wanted {wanted!r}")
    return taken


SERIES = (
    ("functions", functions, (400, 4000, 10000), lambda n: f"{n // 2} warnings in {n} functions"),
    ("bytes of comments", comments, (FILE_BYTES // 4, FILE_BYTES // 2, FILE_BYTES), lambda n: "0 warnings in 0 functions"),
    ("uses of macros", macros, (10000, 50000, 100000), lambda n: f"0 warnings in {n // 8} functions"),
    ("bytes of 64 nested headers", includes, (FILE_BYTES // 4, FILE_BYTES // 2, FILE_BYTES), lambda n: "0 warnings in 0 functions"),
    ("macros", definitions, (4000, 16000, 64000), lambda n: f"t.c:{n + 1}:1: {UNBUILT}"),
    ("warnings in a function", warnings, (4000, 16000, 64000), lambda n: f"{n} warnings in 1 functions"),
    ("declarators behind annotations", declarators, (4000, 16000, 64000), lambda n: f"t.c:1:1: {UNBUILT}"),
    ("typedef names", typedefs, (4000, 16000, 64000), lambda n: f"t.c:1:1: {UNBUILT}"),
)


def main():
    if len(sys.argv) != 2:
        sys.exit(__doc__)
    binary = os.path.abspath(sys.argv[1])
    for what, make, sizes, wanted in SERIES:
        before = None
        for size in sizes:
            taken = seconds(binary, make(size), wanted(size))
            line = f"{size} {what}: {taken:.3f} s, {size / taken:.0f} a second"
            if before is not None:
                line += f", growth {taken / before[1] / (size / before[0]):.2f}"
            print(line)
            before = (size, taken)


if __name__ == "__main__":
    main()

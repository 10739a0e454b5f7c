#!/usr/bin/env python3
"""Times programs on matrix files, in turn, and prints a table of the least times, in milliseconds:

    compare.py ROUNDS CALLS [--load FILE.so] NAME=PROGRAM:TYPE.. -- MATRIX..

Each program is called as PROGRAM MATRIX TYPE CALLS, and prints a line with words such as min_ns=TIME and phash=HASH. All programs that
tell a figure or that hash of a matrix must tell the same, or it is said. The drivers of peers/, which peers/build makes of what is
installed, are such programs. With --load, of process.c, the times are those of the processor, and
the table has the greatest memory of a call too, in megabytes, and the requests for it. At the end stand the ratios of the first program to
each other one: their geometric mean, and the least and the greatest."""
import math
import os
import re
import subprocess
import sys


def words(program, kind, matrix, calls, load):
    env = {**os.environ, "LD_PRELOAD": os.path.abspath(load)} if load else None
    ran = subprocess.run([program, matrix, kind, str(calls)], env=env, capture_output=True, text=True, check=True)
    return dict(re.findall(r"(\w+)=(\S+)", ran.stdout + ran.stderr))


def ratios(names, times):
    """A line for each program but the first: the ratios of the first one's times to its own."""
    for name in names[1:]:
        found = sorted(it[names[0]] / it[name] for it in times)
        mean = math.exp(sum(map(math.log, found)) / len(found))
        yield f"{names[0]} to {name}: {mean:.3f} in the mean of {len(found)}, {found[0]:.2f} to {found[-1]:.2f}"


def main():
    arguments = sys.argv[1:]
    rounds, calls, load = int(arguments.pop(0)), int(arguments.pop(0)), None
    if arguments[0] == "--load":
        load, arguments = arguments[1], arguments[2:]
    cut = arguments.index("--")
    programs = [re.fullmatch(r"([^=]+)=(.+):(\w+)", it).groups() for it in arguments[:cut]]
    names = [name for name, _, _ in programs]
    tells = ["ms", "MB", "requests"] if load else ["ms"]
    print("matrix", *(f"{name}.{it}" for name in names for it in tells), sep="\t", flush=True)
    times = []
    for matrix in arguments[cut + 1:]:
        least, told, more = {}, {}, {}
        for _ in range(rounds):
            for name, program, kind in programs:
                said = words(program, kind, matrix, calls, load)
                for it in ("lnz", "ldl", "lu", "dmax", "ndense", "phash"):
                    told.setdefault(it, set()).update([said[it]] if it in said else [])
                least[name] = min(least.get(name, 1 << 62), int(said["min_ns"]))
                more[name] = [f"{int(said.get('peak', 0)) / 1e6:.2f}", said.get("requests")] if load else []
        times.append(least)
        cells = [it for name in names for it in (f"{least[name] / 1e6:.2f}", *more[name])]
        print(os.path.basename(matrix), *cells, *["ANSWERS DIFFER"] * any(len(it) > 1 for it in told.values()), sep="\t", flush=True)
    print(*ratios(names, times), sep="\n")


main()

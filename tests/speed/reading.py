#!/usr/bin/env python3
"""Times programs that read matrix files, in turn, and prints a table of the least times of the processor in seconds, and of the greatest
memory in megabytes:

    reading.py ROUNDS NAME=COMMAND.. -- FILE..

Each command is called with the file as its last word, as in 'rimopaku=./rimopaku info' and, with reading.c compiled, 'cholmod=./reading'.
Without a file it writes one of 200 MB, reading.mtx, with nine million entries in a million rows, and reads that."""
import os
import random
import subprocess
import sys


def draw(path):
    rows, entries, any_of = 1000000, 9000000, random.Random(1)
    with open(path, "w") as file:
        file.write(f"%%MatrixMarket matrix coordinate real general\n{rows} {rows} {entries}\n")
        for _ in range(entries):
            row, column = int(any_of.random() * rows) + 1, int(any_of.random() * rows) + 1
            file.write(f"{row} {column} {any_of.random():.6f}\n")


def run(command, path):
    child = subprocess.Popen([*command.split(), path], stdout=subprocess.DEVNULL)
    _, status, used = os.wait4(child.pid, 0)
    assert status == 0, (command, path, status)
    return used.ru_utime + used.ru_stime, used.ru_maxrss / 1e3


def main():
    rounds, words = int(sys.argv[1]), sys.argv[2:]
    cut = words.index("--") if "--" in words else len(words)
    programs = [word.split("=", 1) for word in words[:cut]]
    files = words[cut + 1:]
    if not files:
        files = ["reading.mtx"]
        draw(files[0])
    print("file", "MB", *(f"{name}.{what}" for name, _ in programs for what in ("s", "MB")), sep="\t")
    for path in files:
        ran = {name: [] for name, _ in programs}
        for _ in range(rounds):
            for name, command in programs:
                ran[name].append(run(command, path))
        cells = [f"{min(it[part] for it in ran[name]):.{2 - 2 * part}f}" for name, _ in programs for part in (0, 1)]
        print(os.path.basename(path), f"{os.path.getsize(path) / 1e6:.0f}", *cells, sep="\t", flush=True)


main()

#!/usr/bin/env python3
"""Times programs as whole processes, each beside a program to compare it with and one that does nothing.

    processes.py FOLDER [PROGRAM OTHER]...

Microseconds, best and median (in brackets) of 200 runs that take turns; then PROGRAM's median over OTHER's.
"""
import glob
import os
import subprocess
import sys
import time

RUNS = 200


def once(command, path):
    with open(path, "rb") as text:
        start = time.perf_counter()
        subprocess.run([command], stdin=text, stdout=subprocess.DEVNULL, check=True)
        return (time.perf_counter() - start) * 1e6


def main():
    folder, words = sys.argv[1], sys.argv[2:]
    pairs = list(zip(words[::2], words[1::2]))
    programs = ["/bin/true"] + words
    print("| report | " + " | ".join(programs + ["ratio"] * len(pairs)) + " |")
    print("|---" * (len(programs) + len(pairs) + 1) + "|")
    for path in sorted(glob.glob(folder + "/*.in")):
        times = {program: [] for program in programs}
        for _ in range(RUNS):
            for program in programs:
                times[program].append(once(program, path))
        median = {program: sorted(t)[RUNS // 2] for program, t in times.items()}
        cells = ["%.0f (%.0f)" % (min(times[program]), median[program]) for program in programs]
        cells += ["%.2f" % (median[one] / median[other]) for one, other in pairs]
        print("| %s | %s |" % (os.path.basename(path)[:-3], " | ".join(cells)))


if __name__ == "__main__":
    main()

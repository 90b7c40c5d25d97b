#!/usr/bin/env python3
"""Prints a row for each input: its bytes, the answer, processor milliseconds and kilobytes.

    bench/check/measure.py PROGRAM INPUT..

The time is the least of three runs, the start of the process included; the memory is the greatest.
Needs GNU time, which tells the memory of the program alone.
"""
import os
import subprocess
import sys
from pathlib import Path


def run(program, path):
    """The answer, the seconds of the processor and the kilobytes of one run."""
    with open(path, "rb") as source:
        words = ["/usr/bin/time", "-q", "-f", "%M", program, "check"]
        child = subprocess.Popen(
            words, stdin=source, stdout=subprocess.PIPE, stderr=subprocess.PIPE
        )
        answer = child.stdout.read().decode().strip()
        memory = int(child.stderr.read().split()[-1])
        _, _, used = os.wait4(child.pid, 0)
    return answer, used.ru_utime + used.ru_stime, memory


def main():
    program, *paths = sys.argv[1:]
    print("input bytes answer milliseconds kilobytes")
    for path in sorted(map(Path, paths), key=lambda it: int(it.name.split("-")[0])):
        runs = [run(program, path) for _ in range(3)]
        time, memory = min(it[1] for it in runs), max(it[2] for it in runs)
        print(path.name, path.stat().st_size, runs[0][0], f"{time * 1000:.1f}", memory, flush=True)


if __name__ == "__main__":
    main()

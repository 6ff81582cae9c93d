#!/usr/bin/env python3
"""build.py OUT.csv: writes the first 32,000 files that a build reads, a row for each time that one is opened: time, key
and size.

The build is that of GoogleTest with its samples and tests (Debian: googletest, cmake, g++), by two compilers at a time.
`strace` notes each file that is opened to be read. The time is in milliseconds from the first, the key is the file's
number in the order of first opening, and the size is in bytes."""
import os
import re
import subprocess
import sys
import tempfile

MOST = 32_000
OPENED = re.compile(r"^\d+ +(\d+\.\d+) .*openat\(.*O_RDONLY.*\) = \d+<(/[^>]*)>$")


def main(out, source="/usr/src/googletest"):
    with tempfile.TemporaryDirectory() as folder:
        log = f"{folder}/opens"
        tests = ["-Dgtest_build_samples=ON", "-Dgtest_build_tests=ON", "-DCMAKE_CXX_FLAGS=-O0"]
        subprocess.run(["cmake", "-S", source, "-B", f"{folder}/build", *tests], check=True, stdout=subprocess.DEVNULL)
        words = [
            "strace",
            "-f",
            "-qq",
            "-ttt",
            "-y",
            "-e",
            "trace=openat",
            "-o",
            log,
            "make",
            "-C",
            f"{folder}/build",
            "-j2",
        ]
        subprocess.run(words, check=True, stdout=subprocess.DEVNULL)
        with open(log, encoding="utf-8", errors="replace") as file:
            opened = [it for it in map(OPENED.match, file) if it and os.path.isfile(it[2])][:MOST]
        write(opened, out)


def write(opened, out):
    numbers, first = {}, float(opened[0][1])
    with open(out, "w", encoding="utf-8") as file:
        file.write("time,key,size\n")
        for it in opened:
            number = numbers.setdefault(os.path.realpath(it[2]), len(numbers) + 1)
            file.write(f"{int((float(it[1]) - first) * 1000)},{number},{os.path.getsize(it[2])}\n")


if __name__ == "__main__":
    main(*sys.argv[1:])

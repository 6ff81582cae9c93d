#!/usr/bin/env python3
"""upstream.py UPSTREAM FOYER_TRACE >upstream.csv: the hits of foyer-memory itself on the traces of examples/traces.

UPSTREAM is upstream.rs, built over foyer-memory and the `ModHasher` of foyer-common; FOYER_TRACE tells the sizes of
caches. A row has the trace, what a record weighs, the policy, the shards, the size and the hits."""
import csv
import io
import pathlib
import subprocess
import sys

TRACES = pathlib.Path(__file__).resolve().parents[2] / "examples/traces"
RUNS = [("sqlite.keys", "one"), ("build.csv", "one"), ("build.csv", "size")]
POLICIES = ["fifo", "lru", "lfu", "s3fifo", "sieve"]


def requests(path):
    """The keys and the sizes of a trace, a line each."""
    if path.suffix == ".keys":
        return "".join(f"{key} 1\n" for key in path.read_text().split())
    rows = csv.DictReader(io.StringIO(path.read_text()))
    return "".join(f"{row['key']} {row['size']}\n" for row in rows)


def sizes(program, path, weigh):
    """The sizes that are replayed where none are given."""
    words = [program, path, "--policy", "fifo", "--weigh", weigh, "--csv", "/dev/stderr", "--quiet"]
    said = subprocess.run(words, capture_output=True, text=True, check=True).stderr
    return [row["size"] for row in csv.DictReader(io.StringIO(said))]


def main(upstream, program):
    print("trace,weigh,policy,shards,size,hits")
    for name, weigh in RUNS:
        lines = requests(TRACES / name)
        for size in sizes(program, TRACES / name, weigh):
            for policy in POLICIES:
                for shards in (1, 4):
                    words = [upstream, policy, size, str(shards), weigh]
                    hits = subprocess.run(words, input=lines, capture_output=True, text=True, check=True).stdout.strip()
                    print(f"{name},{weigh},{policy},{shards},{size},{hits}")


if __name__ == "__main__":
    main(*sys.argv[1:])

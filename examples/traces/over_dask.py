#!/usr/bin/env python3
"""Spreads the runs of foyer-trace over a Dask cluster (Debian: python3-dask, python3-distributed).

    over_dask.py TRACE [OPTION..]                       with a worker for each processor of this machine
    over_dask.py --scheduler tcp://HOST:8786 TRACE ..   on a cluster, whose workers find TRACE and the program by their paths
    over_dask.py --parts 8 TRACE ..                     a part of the keys for each task, where the trace is too large for
                                                        one worker's memory

Without --parts each policy and size is a task of its own, and the table is that of one process. With it each task replays
a sample, as `foyer-trace --part I/N` does, and the table is that of `foyer-trace --merge`. What follows TRACE goes to
foyer-trace: --policy, --size and so on; --csv, --svg, --html and --title go to the merge. --program names another program
than ./foyer-trace, and --workers another number of workers."""
import argparse
import contextlib
import os
import pathlib
import subprocess
import sys
import tempfile

from distributed import Client, LocalCluster

PROGRAM = pathlib.Path(__file__).resolve().parents[2] / "foyer-trace"
SIZES = "0.001,0.003,0.01,0.03,0.1,0.3"


def rows_of(program, words):
    """Runs in a worker: the CSV text of one run."""
    with tempfile.TemporaryDirectory() as folder:
        out = os.path.join(folder, "rows.csv")
        ended = subprocess.run([program, *words, "--csv", out, "--quiet"], capture_output=True, text=True, check=False)
        if ended.returncode:
            raise RuntimeError(ended.stderr)
        return pathlib.Path(out).read_text(encoding="utf-8")


def policies_of(words):
    """Each policy of a list, with the parameters that follow it."""
    found = []
    for word in words.split(","):
        if word == "all":
            found += ["fifo", "lru", "lfu", "s3fifo", "sieve"]
        elif "=" in word and ":" not in word:
            found[-1] += f",{word}"
        else:
            found.append(word)
    return [*dict.fromkeys(found)]


def distinct(texts):
    """The CSV texts of single runs, each policy and size once: two sizes may come to as many records."""
    return [*{tuple(it.splitlines()[1].split(",")[:3]): it for it in texts}.values()]


def tasks_of(options, others):
    """What each task gives to foyer-trace."""
    if options.parts:
        words = [options.trace, "--policy", options.policy, "--size", options.size, "--jobs", "1", *others]
        return [[*words, "--part", f"{part}/{options.parts}"] for part in range(1, options.parts + 1)]
    sizes = [*dict.fromkeys(options.size.split(","))]
    return [
        [options.trace, "--policy", policy, "--size", size, "--jobs", "1", *others]
        for policy in policies_of(options.policy)
        for size in sizes
    ]


def main():
    parser = argparse.ArgumentParser(description=__doc__, formatter_class=argparse.RawDescriptionHelpFormatter)
    parser.add_argument("trace")
    parser.add_argument("--scheduler")
    parser.add_argument("--workers", type=int)
    parser.add_argument("--parts", type=int)
    parser.add_argument("--program", default=str(PROGRAM))
    parser.add_argument("--policy", default="all")
    parser.add_argument("--size", default=SIZES)
    for name in ("--csv", "--svg", "--html", "--title"):
        parser.add_argument(name)
    options, others = parser.parse_known_args()
    options.trace = os.path.abspath(options.trace)
    with contextlib.ExitStack() as ends:
        if options.scheduler:
            client = ends.enter_context(Client(options.scheduler))
        else:
            cluster = LocalCluster(
                n_workers=options.workers, threads_per_worker=1, dashboard_address=None, silence_logs=40
            )
            client = ends.enter_context(Client(ends.enter_context(cluster)))
        tasks = [client.submit(rows_of, options.program, words, pure=False) for words in tasks_of(options, others)]
        texts = client.gather(tasks)
    if not options.parts:
        texts = distinct(texts)
    with tempfile.TemporaryDirectory() as folder:
        files = []
        for at, text in enumerate(texts):
            files.append(os.path.join(folder, f"{at}.csv"))
            pathlib.Path(files[-1]).write_text(text, encoding="utf-8")
        words = ["--title", options.title or f"{os.path.basename(options.trace)}: {len(texts)} tasks"]
        for name in ("csv", "svg", "html"):
            if getattr(options, name):
                words += [f"--{name}", getattr(options, name)]
        return subprocess.run([options.program, "--merge", *files, *words], check=False).returncode


if __name__ == "__main__":
    sys.exit(main())

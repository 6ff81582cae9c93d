#!/usr/bin/env python3
"""sqlite.py OUT.keys: writes the numbers of the pages that SQLite reads under load, one a line.

The `sqlite3` program works on a table of 40,000 accounts with two indexes, in pages of 4 KiB, with the smallest page cache
that it takes, so that nearly every page that a query visits is read from the file. `strace` notes where it reads. The load
is 6,000 queries from a fixed seed: look-ups of accounts, most of them of few, by both indexes, updates, and now and then a
scan of a range."""
import os
import random
import re
import subprocess
import sys
import tempfile

PAGE, ROWS, QUERIES = 4096, 40_000, 6_000


def script():
    """The SQL of the load."""
    rng = random.Random(2026)
    yield "PRAGMA page_size = 4096; PRAGMA journal_mode = OFF; PRAGMA synchronous = OFF;"
    yield "CREATE TABLE account (id INTEGER PRIMARY KEY, name TEXT, town TEXT, balance INTEGER, note TEXT);"
    yield f"""WITH RECURSIVE n(i) AS (SELECT 1 UNION ALL SELECT i + 1 FROM n WHERE i < {ROWS})
        INSERT INTO account SELECT i, 'name' || (i * 7919 % {ROWS}), 'town' || (i % 500), i, hex(zeroblob(60)) FROM n;"""
    yield "CREATE INDEX by_name ON account (name); CREATE INDEX by_town ON account (town, balance);"
    yield "PRAGMA cache_size = 1;\n.print begin"
    for _ in range(QUERIES):
        row = min(int(rng.paretovariate(0.35)), ROWS)
        kind = rng.random()
        if kind < 0.5:
            yield f"SELECT count(*) FROM account WHERE id = {row} AND balance >= 0;"
        elif kind < 0.75:
            yield f"SELECT sum(balance) FROM account WHERE name = 'name{row}';"
        elif kind < 0.9:
            yield f"UPDATE account SET note = '{row}' WHERE id = {row};"
        elif kind < 0.99:
            yield f"SELECT sum(length(note)) FROM account WHERE town = 'town{row % 500}' LIMIT 20;"
        else:
            first = rng.randrange(ROWS)
            yield f"SELECT sum(length(note)) FROM account WHERE id BETWEEN {first} AND {first + 3000};"


def main(out):
    with tempfile.TemporaryDirectory() as folder:
        log = f"{folder}/reads"
        words = ["strace", "-qq", "-y", "-e", "trace=pread64,write", "-o", log, "sqlite3", f"{folder}/accounts.db"]
        subprocess.run(words, input="\n".join(script()), text=True, check=True, stdout=subprocess.DEVNULL)
        with open(log, encoding="utf-8", errors="replace") as file:
            lines = file.readlines()
    begin = next(at for at, line in enumerate(lines) if line.startswith("write(1") and "begin" in line)
    reads = (
        re.search(r"accounts\.db>, .*, (\d+), (\d+)\) = \d+$", line)
        for line in lines[begin:]
        if line.startswith("pread64")
    )
    with open(out, "w", encoding="utf-8") as file:
        file.writelines(f"{int(it[2]) // PAGE + 1}\n" for it in reads if it and int(it[1]) == PAGE)
    print(f"{os.path.getsize(out)} bytes", file=sys.stderr)


if __name__ == "__main__":
    main(*sys.argv[1:])

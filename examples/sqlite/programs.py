"""The programs of tests/, which examples/sqlite/test and examples/sqlite/bench run."""
import os
import re
import sys

HERE = os.path.dirname(os.path.realpath(__file__))
sys.path.insert(0, os.path.dirname(HERE))
import engines

POLICIES = ("fifo", "lru", "lfu", "s3fifo", "sieve")
GLUE = (f"{HERE}/luffa_pcache.c", f"{HERE}/install.c")
ROWS = 100_000


class Programs:
    """Programs with the page cache that the variable LUFFA_PCACHE names, in a folder of their own."""

    def __init__(self, room):
        self.room, self.library, self.made = room, engines.library(room), {}

    def compiled(self, source, *flags, glue=GLUE):
        """A program over the library; with flags of a sanitizer over a luffapricot.c that has it too."""
        made = f"{self.room}/{re.sub('[.]c$', '', os.path.basename(source))}{len(flags)}"
        if made not in self.made:
            parts = [f"{self.library}/libluffapricot.a"]
            if any("sanitize" in it for it in flags):
                parts = [f"{engines.BINDINGS}/c/luffapricot.c", f"{self.library}/shard.o"]
            words = ["cc", "-std=gnu11", *engines.WARNINGS, *(flags or ["-O2"]), f"-I{self.library}", f"-I{HERE}"]
            engines.run(*words, source, *glue, *parts, "-o", made, "-lsqlite3", "-lm")
            self.made[made] = True
        return made

    def run(self, program, policy, *words):
        """Runs a program with a policy, or with SQLite's own cache if it is ''."""
        return engines.run(program, *words, env={**os.environ, "LUFFA_PCACHE": policy})

    def database(self):
        """A database of ROWS rows for `queries`."""
        made = f"{self.room}/rows.db"
        if not os.path.exists(made):
            self.run(self.compiled(f"{HERE}/tests/queries.c"), "", made, "fill", str(ROWS))
        return made

    def queries(self, policy, pages, queries, every=0):
        """What SQLite counts over the same queries: pages found and read, bytes of the heap, and the results' sum."""
        words = map(str, (pages, queries, every))
        said = self.run(self.compiled(f"{HERE}/tests/queries.c"), policy, self.database(), *words)
        found = re.fullmatch(r"found (\d+) read (\d+) heap (\d+) sum (-?\d+) ok\n", said)
        engines.expect(found, f"queries with {policy or 'pcache1'} wrote {said}")
        return [int(it) for it in found.groups()]

    def instructions(self, policy, program, *words):
        """The instructions of a program, and what it writes."""
        return engines.instructions(self.room, program, *words, env={**os.environ, "LUFFA_PCACHE": policy})

    def speedtest1(self, source, policy, size, pages):
        """The instructions of SQLite's speedtest1, the pages that it reads, and its verification hash."""
        program, made = self.compiled(source, "-O2", "-w"), f"{self.room}/speedtest1-{policy}-{size}-{pages}.db"
        words = ["--size", str(size), "--cachesize", str(pages), "--verify", "--stats", made]
        count, said = self.instructions(policy, program, *words)
        read = re.search(r"Page cache misses: +(\d+)", said)
        return count, int(read[1]), re.search(r"Verification Hash: (.*)", said)[1]

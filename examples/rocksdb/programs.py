"""The programs of tests/, which examples/rocksdb/test and examples/rocksdb/bench run."""
import os
import re
import sys

HERE = os.path.dirname(os.path.realpath(__file__))
sys.path.insert(0, os.path.dirname(HERE))
import engines

POLICIES = ("fifo", "lru", "lfu", "s3fifo", "sieve")
OWN = ("LRUCache", "HyperClock")


class Programs:
    """Programs over the library, in a folder of their own."""

    def __init__(self, room):
        self.room, self.library, self.made = room, engines.library(room), set()

    def compiled(self, name, *flags):
        """A program of tests/; with flags of a sanitizer over a luffapricot.c that has it too."""
        made = f"{self.room}/{name}-{re.sub('[^a-z]', '', ''.join(flags))}"
        if made in self.made:
            return made
        parts = [f"{self.library}/libluffapricot.a"]
        if any("sanitize" in it for it in flags):
            parts = [f"{made}.o", f"{self.library}/shard.o"]
            words = ["cc", "-std=gnu11", *engines.WARNINGS, *flags, "-c", f"{engines.BINDINGS}/c/luffapricot.c"]
            engines.run(*words, "-o", parts[0])
        words = ["c++", "-std=c++17", *engines.WARNINGS, *(flags or ["-O2"]), f"-I{self.library}"]
        engines.run(*words, f"{HERE}/tests/{name}.cc", *parts, "-o", made, "-lrocksdb")
        self.made.add(made)
        return made

    def database(self, rows):
        made = f"{self.room}/rows-{rows}"
        if not os.path.isdir(made):
            engines.run(self.compiled("reads"), made, "fill", str(rows))
        return made

    def reads(self, program, rows, *words):
        """What RocksDB counts over the same reads: blocks found and read, usage, pinned usage, and the values' sum."""
        said = engines.run(program, self.database(rows), *map(str, words))
        found = re.fullmatch(r"found (\d+) read (\d+) usage (\d+) pinned (\d+) sum (\d+)\n", said)
        engines.expect(found, f"reads {' '.join(map(str, words))} wrote {said}")
        return [int(it) for it in found.groups()]

    def lookup(self, cache):
        """The instructions of a Lookup that hits and its Release."""
        program = self.compiled("lookups")
        many, few = (engines.instructions(self.room, program, cache, str(it))[0] for it in (60_000, 10_000))
        return (many - few) / 50_000

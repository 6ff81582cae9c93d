"""What the cases of tests/trace share: the program under test, requests, and plain models of caches."""
import collections
import csv
import heapq
import io
import pathlib
import random
import subprocess

HERE = pathlib.Path(__file__).resolve().parent
ROOT = HERE.parents[1]
TRACES = ROOT / "examples/traces"
CASES = []
COUNTED = ("requests", "hits", "misses", "bytes", "miss_bytes", "evictions", "expired")


def case(function):
    CASES.append(function)
    return function


class Program:
    """The program under test, in a folder of its own."""

    def __init__(self, path, folder):
        self.path, self.folder = path, pathlib.Path(folder)

    def call(self, *words, data=b""):
        words = [self.path, *map(str, words)]
        ended = subprocess.run(words, input=data, capture_output=True, cwd=self.folder, timeout=300, check=False)
        return ended.returncode, ended.stdout.decode(), ended.stderr.decode()

    def rows(self, *words, data=b""):
        """The rows of the CSV file of a run, which has to end well."""
        status, _, said = self.call(*words, "--csv", "rows.csv", "--quiet", data=data)
        assert status == 0, (words, said)
        return list(csv.DictReader(io.StringIO((self.folder / "rows.csv").read_text())))

    def hits(self, *words, data=b""):
        return {(it["policy"], int(it["size"])): int(it["hits"]) for it in self.rows(*words, data=data)}

    def put(self, name, data):
        data = data if isinstance(data, bytes) else data.encode()
        (self.folder / name).write_bytes(data)
        return name

    def fails(self, status, said, *words, data=b""):
        """The program ends with this status, says this on standard error, and prints nothing."""
        found = self.call(*words, data=data)
        assert found[0] == status and said in found[2] and found[1] == "", (words, found)


def keys_of(name, most=None):
    return [int(it) for it in (TRACES / name).read_text().split()[:most]]


def some_keys(count=4000, keys=300, seed=1):
    rng = random.Random(seed)
    return [min(int(rng.paretovariate(0.6)), keys) for _ in range(count)]


def lines(keys):
    return "".join(f"{key}\n" for key in keys)


def mix(number):
    """The finalizer of splitmix64."""
    number = (number ^ number >> 30) * 0xBF58476D1CE4E5B9 % 2**64
    number = (number ^ number >> 27) * 0x94D049BB133111EB % 2**64
    return number ^ number >> 31


def place(key):
    """Where a key stands among all hashes, from 0 to below 1, by which samples and parts are taken."""
    return mix(mix(key) ^ 0x9E3779B97F4A7C15) / 2**64


def model(keys, capacity, is_lru):
    """The hits of LRU or FIFO."""
    cache, hits = collections.OrderedDict(), 0
    for key in keys:
        if key in cache:
            hits += 1
            if is_lru:
                cache.move_to_end(key)
        else:
            cache[key] = True
            if len(cache) > capacity:
                cache.popitem(last=False)
    return hits


def weighed_model(requests, capacity, ttl=None):
    """What FIFO with weights and lives counts: what has expired leaves first, the soonest first."""
    cache, used, counts = collections.OrderedDict(), 0, collections.Counter()
    for now, key, size in requests:
        counts["requests"] += 1
        counts["bytes"] += size
        if key in cache and (ttl is None or now < cache[key][1]):
            counts["hits"] += 1
            continue
        counts["misses"] += 1
        counts["miss_bytes"] += size
        while cache and used + size > capacity:
            due = min(cache, key=lambda it: cache[it][1]) if ttl else None
            victim = due if ttl and cache[due][1] <= now else next(iter(cache))
            counts["evictions"] += 1
            counts["expired"] += bool(ttl and cache[victim][1] <= now)
            used -= cache.pop(victim)[0]
        if key in cache:
            counts["expired"] += cache[key][1] <= now
            used -= cache.pop(key)[0]
        cache[key] = (size, now + (ttl or 0))
        used += size
    return counts


def belady_model(keys, capacity, operations=None):
    """The hits of a cache that looks through all later requests at each, and may leave a new key out. It keeps no key
    that is put or removed before it is got again."""
    cache, hits = set(), 0
    operations = operations or ["get"] * len(keys)
    for at, (key, operation) in enumerate(zip(keys, operations)):
        hits += operation == "get" and key in cache
        cache.add(key)
        if operation == "delete":
            cache.remove(key)
        if len(cache) > capacity:
            later = keys[at + 1 :]
            nexts = {it: later.index(it) if it in later else len(keys) for it in cache}
            used = {it: place for it, place in nexts.items() if operations[min(at + 1 + place, len(keys) - 1)] == "get"}
            cache.remove(max(cache, key=lambda it: used.get(it, len(keys))))
    return hits


def belady_by_heap(keys, capacity, skipped=0):
    """The same hits of gets alone, in less time, of those after the first `skipped`."""
    nexts, last = [0] * len(keys), {}
    for at in range(len(keys) - 1, -1, -1):
        nexts[at] = last.get(keys[at], len(keys))
        last[keys[at]] = at
    cache, heap, hits = {}, [], 0
    for at, key in enumerate(keys):
        hits += at >= skipped and key in cache
        cache[key] = nexts[at]
        heapq.heappush(heap, (-nexts[at], key))
        while len(cache) > capacity:
            place, victim = heapq.heappop(heap)
            if cache.get(victim) == -place:
                del cache[victim]
    return hits

"""Sizes that users have: millions of requests, keys past 2^20, twenty files, hundreds of runs, a hundred shards."""
import collections
import csv
import io
import random
import struct

from common import COUNTED, belady_by_heap, case, lines, mix, model, place, some_keys, weighed_model


@case
def belady_of_many_records(program):
    """Of keys in a circle Belady's cache keeps as many as it holds, and LRU all or none, of 2^20 requests and more."""
    keys, size, rounds = 1100, 300, 1000
    data = (lines(range(keys)) * rounds).encode()
    hits = program.hits("-", "--policy", "belady,lru,lru-curve", "--size", f"{size},{keys}", data=data)
    wanted = {(policy, keys): keys * (rounds - 1) for policy in ("belady", "lru", "lru-curve")}
    wanted |= {("belady", size): size * (rounds - 1), ("lru", size): 0, ("lru-curve", size): 0}
    assert keys * rounds > 2**20 and hits == wanted, hits
    row = program.rows("-", "--policy", "belady", "--size", size, "--warmup", keys * (rounds - 2), data=data)[0]
    assert (row["requests"], row["hits"]) == (str(2 * keys), str(2 * size)), row


@case
def caches_of_many_records(program):
    """Caches of more than 2^16 records hold so many, of each policy, and LRU's curve is as deep."""
    keys = list(range(90_000))
    everything = lines(keys * 2).encode()
    words = ["--policy", "all,belady,lru-curve,arc,lirs,2q,lru-k,s3fifo-paper", "--size", "100000"]
    hits = program.hits("-", *words, data=everything)
    assert len(hits) == 12 and set(hits.values()) == {len(keys)}, hits
    again = random.Random(2).sample(keys, len(keys))
    words = ["--policy", "belady,lru:high=1.0,lru-curve", "--size", "66000,80000"]
    hits = program.hits("-", *words, data=lines(keys + again).encode())
    for size in (66_000, 80_000):
        least, textbook = belady_by_heap(keys + again, size), model(keys + again, size, True)
        found = [hits[policy, size] for policy in ("belady", "lru", "lru-curve")]
        assert found == [least, textbook, textbook], (size, found, least, textbook)


@case
def footprints_of_many_keys(program):
    """A part of a footprint above 2^20 keys, some of which come twice, and what a small part of them is told of it."""
    count, twice = 1_060_000, 40_000
    keys = [*range(count), *range(0, twice * 26, 26)]
    name = program.put("m.keys", lines(keys))
    text = program.call(name, "--policy", "fifo", "--size", "0.25", "--csv", "m.csv")[1]
    assert "\n1,100,000 requests, 1,060,000 distinct keys\n" in text, text
    row = next(csv.DictReader(io.StringIO((program.folder / "m.csv").read_text())))
    assert (int(row["size"]), int(row["hits"])) == (count // 4, model(keys, count // 4, False)), row
    row = program.rows(name, "--policy", "fifo", "--size", "1.0", "--part", "1/1000")[0]
    assert int(row["size"]) == count and 900 < int(row["requests"]) < 1300, row


@case
def samples_with_puts(program):
    """Puts and removes of a sample's keys change its caches, and its estimate is of gets alone."""
    rng = random.Random(9)
    keys = some_keys(60_000, 4000, 3)
    operations = rng.choices(("get", "set", "delete"), (10, 5, 1), k=len(keys))
    sizes = [1 + key % 40 for key in keys]
    rows = "".join(f"{op},{key},{size}\n" for op, key, size in zip(operations, keys, sizes))
    name = program.put("p.csv", "op,key,size\n" + rows)
    gets = operations.count("get")
    for words, has, capacity in (
        (["--sample", "0.25"], lambda key: place(key) < 0.25, 1000),
        (["--part", "3/5"], lambda key: 2 <= 5 * place(key) < 3, 800),
    ):
        sampled = [it for it in zip(range(len(keys)), keys, sizes, operations) if has(it[1])]
        wanted = with_puts(sampled, capacity)
        row = program.rows(name, "--policy", "fifo", "--weigh", "size", "--size", "4000", *words)[0]
        assert all(int(row[it]) == wanted[it] for it in ("misses", "miss_bytes", "evictions")), (words, row, wanted)
        if words[0] == "--part":
            assert all(int(row[it]) == wanted[it] for it in COUNTED), (row, wanted)
        else:
            assert abs(int(row["requests"]) - gets / 4) <= 1, (row, gets)
            assert int(row["hits"]) == int(row["requests"]) - wanted["misses"], row
    assert min(wanted["hits"], wanted["misses"], wanted["evictions"]) > 500, wanted


def with_puts(requests, capacity):
    """What FIFO with weights counts of gets, puts and removes: a put stores its record anew."""
    cache, used, counts = collections.OrderedDict(), 0, collections.Counter()
    for _, key, size, operation in requests:
        if operation == "delete":
            used -= cache.pop(key, 0)
            continue
        if operation == "get":
            is_hit = key in cache
            counts.update({"requests": 1, "bytes": size})
            counts.update({"hits": 1} if is_hit else {"misses": 1, "miss_bytes": size})
            if is_hit:
                continue
        while cache and used + size > capacity:
            used -= cache.popitem(last=False)[1]
            counts["evictions"] += 1
        used += size - cache.pop(key, 0)
        cache[key] = size
    return counts


@case
def merges_of_many_files(program):
    """Twenty parts are added up, each as it is, and their hits are near those of the whole."""
    requests = [(at, key, 1 + key % 90) for at, key in enumerate(some_keys(30_000, 6000))]
    name = program.put("t.csv", "key,size\n" + "".join(f"{key},{size}\n" for _, key, size in requests))
    words = [name, "--policy", "fifo", "--weigh", "size", "--size", "20000"]
    wanted = collections.Counter()
    for part in range(1, 21):
        assert program.call(*words, "--part", f"{part}/20", "--csv", f"t{part}.csv")[0] == 0, part
        wanted += weighed_model([it for it in requests if part - 1 <= 20 * place(it[1]) < part], 1000)
    names = [f"t{part}.csv" for part in range(1, 21)]
    row = program.rows("--merge", *names)[0]
    assert {it: int(row[it]) for it in COUNTED} == {it: wanted[it] for it in COUNTED}, (row, wanted)
    assert int(row["requests"]) == len(requests)
    assert program.call("--merge", *names)[1].endswith("\n30,000 gets in 20 files\n")
    program.fails(1, "part 20/20 of fifo at 20000 is missing", "--merge", *names[:-1])
    program.fails(1, "part 20/20 of fifo at 20000 is there twice", "--merge", *names, names[-1])


@case
def many_runs_at_once(program):
    """Two hundred runs, a hundred at a time: each row has its own policy and size, in memory and in a stream."""
    keys = some_keys(3000, 400)
    name = program.put("r.keys", lines(keys))
    sizes = range(1, 101)
    words = [name, "--policy", "lru:high=1.0,fifo", "--size", ",".join(map(str, sizes)), "--jobs", "100"]
    wanted = [(policy, size, model(keys, size, policy == "lru")) for policy in ("lru", "fifo") for size in sizes]
    for more in ([], ["--stream"]):
        rows = program.rows(*words, *more)
        assert [(it["policy"], int(it["size"]), int(it["hits"])) for it in rows] == wanted, more
    sheet = program.put("all.csv", (program.folder / "rows.csv").read_text())
    assert program.rows("--merge", sheet) == rows


@case
def many_shards(program):
    """A hundred shards have a hundredth of the capacity each, and the first ones one more, by a plain model of each."""
    keys = some_keys(40_000, 9000)
    name = program.put("h.keys", lines(keys))
    for shards, size in ((100, 1234), (100, 60), (65, 1234), (1000, 2500)):
        parts = collections.defaultdict(list)
        for key in keys:
            parts[mix(key) % shards].append(key)
        hits = program.hits(name, "--policy", "lru:high=1.0,fifo", "--size", size, "--shards", shards)
        for policy in ("lru", "fifo"):
            shares = {shard: max(size // shards + (shard < size % shards), 1) for shard in parts}
            wanted = sum(model(part, shares[shard], policy == "lru") for shard, part in parts.items())
            assert hits[policy, size] == wanted, (policy, shards, size, hits, wanted)


@case
def records_across_reads(program):
    """Records that begin in one read and end in the next, of a file and of a pipe, of 24 bytes, a line and a row."""
    keys = [key * 2**40 for key in some_keys(40_000, 900)]
    binary = b"".join(struct.pack("<IQIq", at, key, 1, -1) for at, key in enumerate(keys))
    for form, data in (("oracle", binary), ("keys", lines(keys).encode()), ("csv", lines(keys).encode())):
        assert len(data) > 2 * 2**18
        words = ["--format", form, "--policy", "lru:high=1.0", "--size", "50"]
        found = [program.hits(program.put("r.bin", data), *words), program.hits("-", *words, data=data)]
        assert found == [{("lru", 50): model(keys, 50, True)}] * 2, (form, found)


@case
def many_windows(program):
    """A hundred windows, each of its own requests."""
    keys = some_keys(5000, 400)
    words = [program.put("w.keys", lines(keys)), "--policy", "fifo,belady", "--size", "30", "--windows", "100"]
    row = program.rows(*words)[0]
    hits = [model(keys[:end], 30, False) for end in range(0, 5001, 50)]
    assert row["windows"] == " ".join(f"{1 - (b - a) / 50:.6f}" for a, b in zip(hits, hits[1:])), row

"""The replays: hits against other caches and plain models, options, samples, streams and parts."""
import collections
import csv
import io
import random
import shutil
import subprocess
import sys

from common import (
    COUNTED,
    HERE,
    ROOT,
    TRACES,
    belady_by_heap,
    belady_model,
    case,
    keys_of,
    lines,
    model,
    place,
    some_keys,
    weighed_model,
)


@case
def hits_are_upstreams(program):
    """Five policies, six sizes, 1 and 4 shards, on each trace."""
    wanted = collections.defaultdict(dict)
    for row in csv.DictReader(io.StringIO((HERE / "upstream.csv").read_text())):
        wanted[row["trace"], row["weigh"], row["shards"]][row["policy"], int(row["size"])] = int(row["hits"])
    assert len(wanted) == 6 and all(len(it) == 30 for it in wanted.values())
    for (trace, weigh, shards), hits in wanted.items():
        assert program.hits(TRACES / trace, "--weigh", weigh, "--shards", shards) == hits, (trace, weigh, shards)


@case
def hits_are_those_of_plain_models(program):
    for keys in (some_keys(), keys_of("sqlite.keys", 20_000)):
        sizes = [1, 7, 50, 200]
        words = ["--policy", "fifo,lru:high=1.0", "--size", ",".join(map(str, sizes))]
        hits = program.hits("-", *words, data=lines(keys).encode())
        for size in sizes:
            assert hits["fifo", size] == model(keys, size, False), size
            assert hits["lru", size] == model(keys, size, True), size


@case
def belady_is_the_least(program):
    keys = some_keys(150_000, 9000)
    hits = program.hits("-", "--policy", "belady", "--size", "20,900", data=lines(keys).encode())
    assert hits == {("belady", size): belady_by_heap(keys, size) for size in (20, 900)}, hits
    # What is kept until its next get is hit then, or evicted before.
    row = program.rows("-", "--policy", "belady", "--size", "20", data=lines(keys).encode())[0]
    assert int(row["evictions"]) == len(keys) - len(set(keys)) - int(row["hits"]), row
    for keys in (some_keys(2000, 120), keys_of("sqlite.keys", 1500)):
        hits = program.hits("-", "--policy", "all,belady", "--size", "1,5,40", data=lines(keys).encode())
        for size in (1, 5, 40):
            assert hits["belady", size] == belady_model(keys, size), size
            assert all(
                hits["belady", size] >= hits[policy, size] for policy in ("fifo", "lru", "lfu", "s3fifo", "sieve")
            )


@case
def belady_of_puts_and_removes(program):
    keys = some_keys(1500, 80)
    rng = random.Random(7)
    operations = [rng.choice(("get", "get", "get", "set", "delete")) for _ in keys]
    name = program.put("o.csv", "op,key\n" + "".join(f"{op},{key}\n" for op, key in zip(operations, keys)))
    hits = program.hits(name, "--policy", "all,belady", "--size", "3,30")
    for size in (3, 30):
        assert hits["belady", size] == belady_model(keys, size, operations), size
        assert hits["belady", size] == max(hits[policy, at] for policy, at in hits if at == size), (size, hits)


@case
def belady_is_the_least_of_full_shards(program):
    """Where a shard's capacity is 0, it keeps a record all the same."""
    data = lines(some_keys(2000, 20)).encode()
    for shards in (1, 4):
        hits = program.hits("-", "--policy", "all,belady", "--size", "0,1,2,5", "--shards", shards, data=data)
        for size in (0, 1, 2, 5):
            found = {policy: hits[policy, size] for policy in ("fifo", "lru", "lfu", "s3fifo", "sieve", "belady")}
            assert max(found.values()) == found["belady"], (shards, size, found)
            assert found["belady"] == belady_model(some_keys(2000, 20), max(size, shards)), (shards, size)


@case
def weights_and_lives(program):
    requests = [(at // 3, key, 1 + key % 40) for at, key in enumerate(some_keys(3000, 200))]
    name = program.put("w.csv", "time,key,size\n" + "".join(f"{t},{k},{s}\n" for t, k, s in requests))
    words = ["--policy", "fifo", "--weigh", "size", "--size", "60,500"]
    column = program.put("t.csv", "".join(f"{t}.9,{k},{s},get,30\n" for t, k, s in requests))
    for ttl, more in ((None, [name]), (30, [name, "--ttl", "30"]), (30, [column])):
        for row in program.rows(*more, *words):
            wanted = weighed_model(requests, int(row["size"]), ttl)
            assert {it: int(row[it]) for it in COUNTED} == {it: wanted[it] for it in COUNTED}, (ttl, row, wanted)
            assert row["byte_miss_ratio"] == f"{wanted['miss_bytes'] / wanted['bytes']:.6f}", row
            assert (wanted["expired"] > 600) == (ttl == 30 and row["size"] == "500")


@case
def lives_of_numbered_requests(program):
    """Where a trace has no times, a record lives for so many requests; a life of 0 is for ever."""
    keys = some_keys(3000, 200)
    requests = [(at, key, 1) for at, key in enumerate(keys)]
    names = [program.put("n.keys", lines(keys)), program.put("n.csv", "key\n" + lines(keys))]
    wanted = weighed_model(requests, 100, 30)
    for name in names:
        row = program.rows(name, "--policy", "fifo", "--size", "100", "--ttl", "30")[0]
        assert all(int(row[it]) == wanted[it] for it in ("hits", "misses", "evictions", "expired")), (name, row, wanted)
    name = program.put("e.csv", "time,key,ttl\n" + "".join(f"{at},{key},0\n" for at, key in enumerate(keys)))
    assert program.hits(name, "--policy", "fifo", "--size", "100") == {("fifo", 100): weighed_model(requests, 100)["hits"]}


@case
def numbers_past_32_bits(program):
    """Times, sizes and lives whose differences have more than 32 bits, in memory and in a stream."""
    rng = random.Random(5)
    for least in (2**41, 2**48 - 2**40, 2**63 - 2**40):
        times = sorted(rng.randrange(least, least + 2**41) for _ in range(3000))
        requests = [(time, key, 1 + key * 2**31) for time, key in zip(times, some_keys(3000, 60))]
        name = program.put("l.csv", "time,key,size\n" + "".join(f"{t},{k},{s}\n" for t, k, s in requests))
        lives = program.put("m.csv", "".join(f"{t},{k},{s},get,{2**34}\n" for t, k, s in requests))
        plain = weighed_model(requests, 2**39)["hits"]
        for ttl, *more in ((None, name), (2**34, name, "--ttl", 2**34), (2**34, lives)):
            words = ["--policy", "fifo", "--weigh", "size", "--size", str(2**39), *more]
            wanted = weighed_model(requests, 2**39, ttl)["hits"]
            assert ttl is None or 100 < wanted < plain - 100, (wanted, plain)
            assert program.hits(*words) == program.hits(*words, "--stream") == {("fifo", 2**39): wanted}, (least, words)


@case
def operations(program):
    rows = ["get,a", "set,a", "get,a", "delete,a", "get,a", "GETS,a", "remove,b", "add,b", "read,b"]
    name = program.put("o.csv", "op,key\n" + "\n".join(rows))
    row = program.rows(name, "--policy", "lru", "--size", "10")[0]
    assert (row["requests"], row["hits"], row["misses"]) == ("5", "3", "2"), row
    bad = program.put("p.csv", "op,key\nget,a\nfetch,a\n")
    program.fails(1, "record 2: expected get, set, delete or the like in the column op, and found 'fetch'", bad)


@case
def each_policy_is_run_once(program):
    rows = program.rows("-", "--policy", "lru,all,lru:high=0.5,lru:high=0.5", "--size", "7,9,7", data=b"1\n2\n1\n")
    assert [(it["policy"], it["parameters"], it["size"]) for it in rows[:2]] == [("lru", "", "7"), ("lru", "", "9")]
    assert len({(it["policy"], it["parameters"], it["size"]) for it in rows}) == len(rows) == 12, rows


@case
def jobs_and_shards(program):
    name = program.put("j.keys", lines(some_keys(9000, 5000)))
    rows = [program.rows(name, "--policy", "all,belady", "--shards", "2", "--jobs", jobs) for jobs in (1, 3, 50)]
    for it in rows:
        for row in it:
            row.pop("seconds")
    assert rows[0] == rows[1] == rows[2] and len(rows[0]) == 30


@case
def warmup(program):
    keys = some_keys()
    name = program.put("u.keys", lines(keys))
    words = [name, "--policy", "fifo", "--size", "20"]
    whole = program.rows(*words)[0]
    row = program.rows(name, "--policy", "belady", "--size", "20", "--warmup", "2000")[0]
    assert (row["requests"], int(row["hits"])) == ("2000", belady_by_heap(keys, 20, 2000)), row
    for word in ("0.5", "50%", "2000"):
        row = program.rows(*words, "--warmup", word)[0]
        assert int(row["requests"]) == 2000 and row["miss_ratio"] == f"{int(row['misses']) / 2000:.6f}", row
        assert int(row["hits"]) == int(whole["hits"]) - model(keys[:2000], 20, False), row
    for more in ([], ["--stream"]):
        said = "the warmup leaves none of the 4,000 requests to be counted"
        program.fails(1, said, *words, "--warmup", "4000", *more)
        assert program.rows(*words, "--warmup", "3999", *more)[0]["requests"] == "1"
    assert program.rows(*words, "--warmup", "9000", "--part", "1/2")[0]["requests"] == "0"
    for warmup, wanted in (("1000", 3000), ("0.25", 3000), ("0", 4000)):
        rows = [program.rows(*words, "--warmup", warmup, "--part", f"{part}/4")[0] for part in range(1, 5)]
        assert abs(sum(int(it["requests"]) for it in rows) - wanted) <= 2, (warmup, rows)


@case
def stream_is_the_same(program):
    keys = some_keys(150_000, 2000)
    name = program.put("s.keys", lines(keys))
    for words in ([], ["--warmup", "70000"], ["--shards", "3"], ["--sample", "0.5"]):
        words = [*words, "--size", "10,300", "--jobs", "2"]
        kept, streamed = program.rows(name, *words), program.rows("-", "--stream", *words, data=lines(keys).encode())
        for row in kept + streamed:
            row.pop("seconds")
        assert kept == streamed, words


@case
def seconds_of_a_stream(program):
    """The seconds of a stream's run are those of all its parts, ten here, and so about those of the trace in memory."""
    name = program.put("s.keys", lines(some_keys(7000, 300) * 100))
    words = [name, "--policy", "lfu", "--size", "50"]
    kept = min(float(program.rows(*words)[0]["seconds"]) for _ in range(2))
    assert float(program.rows(*words, "--stream")[0]["seconds"]) > kept / 4


@case
def sample(program):
    """A sample of everything is everything, and a tenth is near."""
    rng = random.Random(3)
    keys = [int(rng.paretovariate(0.35)) % 20_000 for _ in range(200_000)]
    name = program.put("m.keys", lines(keys))
    words = [name, "--policy", "lru,s3fifo", "--size", "1000,4000"]
    assert program.hits(*words, "--sample", "1.0") == program.hits(*words)
    exact, sampled = program.rows(*words), program.rows(*words, "--sample", "0.1")
    for a, b in zip(exact, sampled):
        assert abs(float(a["miss_ratio"]) - float(b["miss_ratio"])) < 0.05, (a, b)
        assert int(b["requests"]) == 20_000
    assert "a sample of 0.1 of the keys, sizes scaled" in program.call(*words, "--sample", "0.1", "--svg", "m.svg")[1]
    assert "a sample of 0.1 of the keys, sizes scaled" in (program.folder / "m.svg").read_text()


@case
def samples_are_smaller_caches(program):
    """A part, or a sample, of the keys over a part of the capacity, by a plain model of FIFO."""
    requests = [(at, key, 1 + key % 90) for at, key in enumerate(some_keys(20_000, 3000))]
    name = program.put("s.csv", "key,size\n" + "".join(f"{key},{size}\n" for _, key, size in requests))
    words = [name, "--policy", "fifo", "--weigh", "size", "--size", "8000"]
    for part in (1, 2, 3, 4):
        sampled = [it for it in requests if part - 1 <= 4 * place(it[1]) < part]
        wanted, row = weighed_model(sampled, 2000), program.rows(*words, "--part", f"{part}/4")[0]
        assert sampled and all(int(row[it]) == wanted[it] for it in COUNTED), (part, row, wanted)
    for factor in (1, 2**26):  # 60 TB in all
        grown = [(at, key, size * factor) for at, key, size in requests]
        name = program.put("s.csv", "key,size\n" + "".join(f"{key},{size}\n" for _, key, size in grown))
        sampled = [it for it in grown if place(it[1]) < 0.1]
        row = program.rows(*words[:-1], 8000 * factor, "--sample", "0.1")[0]
        wanted = weighed_model(sampled, 800 * factor)
        assert all(int(row[it]) == wanted[it] for it in ("misses", "miss_bytes", "evictions")), (row, wanted)
        assert int(row["requests"]) == 2000 and abs(int(row["bytes"]) - sum(size for *_, size in grown) / 10) <= 1, row


@case
def parts_and_merge(program):
    keys = some_keys(20_000, 3000)
    name = program.put("r.csv", "key,size\n" + "".join(f"{key},{1 + key % 9}\n" for key in keys))
    words = [name, "--policy", "lru,sieve,lru:high=0.5", "--ttl", "5000"]
    exact = program.rows(*words)
    for part in range(1, 5):
        program.call(*words, "--part", f"{part}/4", "--csv", f"part{part}.csv")
    parts = [f"part{part}.csv" for part in range(1, 5)]
    rows = [it for part in parts for it in csv.DictReader(io.StringIO((program.folder / part).read_text()))]
    merged = program.rows("--merge", *parts)
    assert sum(int(it["requests"]) for it in merged) == len(keys) * 18 and len(merged) == len(exact) == 18
    for a, b in zip(exact, merged):
        assert all(a[it] == b[it] for it in ("policy", "parameters", "size", "requests", "bytes")), (a, b)
        same = [it for it in rows if all(it[name] == a[name] for name in ("policy", "parameters", "size"))]
        for count in ("hits", "misses", "miss_bytes", "evictions", "expired"):
            assert int(b[count]) == sum(int(it[count]) for it in same), (count, b)
    assert all(sum(int(it[count]) for it in merged) for count in ("evictions", "expired"))
    one = program.call(*words, "--csv", "one.csv")[1].split("\n\n")[1]
    assert program.call("--merge", "one.csv")[1].split("\n\n")[1].rstrip() == one.rstrip()
    program.fails(1, "bad.csv: line 1: expected a row as --csv writes it", "--merge", program.put("bad.csv", "a,b\n"))
    program.fails(
        1,
        "cut.csv: line 3",
        "--merge",
        program.put("cut.csv", "\n".join((program.folder / "one.csv").read_text().split("\n")[:2]) + "\nlru,,x\n"),
    )
    program.fails(1, "nowhere.csv", "--merge", "nowhere.csv")


@case
def parts_of_few_keys(program):
    """A part that no key falls into is a part, too."""
    name = program.put("two.keys", lines([1, 2] * 50))
    parts = [f"p{part}.csv" for part in range(1, 9)]
    for words in (["--size", "16"], ["--size", "8.0"], ["--size", "16", "--stream"]):
        for part, out in enumerate(parts, 1):
            status, _, said = program.call(name, "--policy", "fifo", *words, "--part", f"{part}/8", "--csv", out)
            assert status == 0, said
        assert program.hits("--merge", *parts) == {("fifo", 16): 98}
    program.fails(1, "no request is in the sample", name, "--sample", "0.000001")


@case
def merged_files_fit(program):
    """Files that lack a policy or a size, or have other units, are not added up; a size may come in any order."""
    program.put("k.keys", lines(some_keys()))
    for name, *words in (
        ["one.csv", "k.keys", "--policy", "lru,fifo", "--size", "9,40"],
        ["lru.csv", "k.keys", "--policy", "lru", "--size", "9,40"],
        ["fifo.csv", "k.keys", "--policy", "fifo", "--size", "40"],
        ["large.csv", "k.keys", "--policy", "fifo,lru", "--size", "40"],
        ["small.csv", "k.keys", "--policy", "fifo,lru", "--size", "9"],
        ["sized.csv", TRACES / "build.csv", "--policy", "fifo,lru", "--size", "9"],
        ["bytes.csv", TRACES / "build.csv", "--policy", "fifo,lru", "--size", "9", "--weigh", "size"],
    ):
        assert program.call(*words, "--csv", name)[0] == 0, name
    header = (program.folder / "one.csv").read_text().split("\n")[0]
    uneven, twice = "the files have not each policy at each size", "line 2: part 1/1 of"
    program.fails(1, f"lru.csv: {twice} lru at 9 is there twice", "--merge", "one.csv", "lru.csv")
    program.fails(1, f"large.csv: {twice} fifo at 40 is there twice", "--merge", "one.csv", "large.csv")
    program.fails(1, uneven, "--merge", "lru.csv", "fifo.csv")
    before = "line 2: expected the unit and the columns of the rows before it"
    program.fails(1, f"sized.csv: {before}", "--merge", "small.csv", "sized.csv")
    program.fails(1, f"bytes.csv: {before}", "--merge", "sized.csv", "bytes.csv")
    program.fails(1, "no.csv: line 2: expected a row", "--merge", "one.csv", program.put("no.csv", header + "\n"))
    assert "by cache size in bytes" in program.call("--merge", "bytes.csv")[1]
    table = program.call("--merge", "large.csv", "small.csv")[1]
    assert table.split("\n\n")[1] == program.call("k.keys", "--policy", "fifo,lru", "--size", "9,40")[1].split("\n\n")[1]
    assert table.endswith("\n4,000 gets in 2 files\n")


@case
def dask(program):
    """Two workers on this machine make the table of one process; skipped where Dask isn't installed."""
    python = next(
        (
            it
            for it in ("/usr/bin/python3", sys.executable)
            if shutil.which(it)
            and not subprocess.run([it, "-c", "import distributed"], capture_output=True, check=False).returncode
        ),
        None,
    )
    if python is None:
        print("trace: dask: skipped, since python3-dask and python3-distributed are not installed")
        return
    script, trace = ROOT / "examples/traces/over_dask.py", TRACES / "build.csv"
    words = [python, script, "--program", program.path, "--workers", "2"]
    words += [trace, "--policy", "lru,sieve,lru", "--size", "10,0.001,100,0.0001"]
    table = program.call(*words[6:], "--quiet")[1].split("\n\n")[1]
    called = {"capture_output": True, "text": True, "timeout": 200, "check": False}
    ended = subprocess.run([*map(str, words), "--csv", program.folder / "dask.csv"], **called)
    assert ended.returncode == 0 and table.strip() in ended.stdout, (ended, table)
    spread, alone = csv.DictReader(io.StringIO((program.folder / "dask.csv").read_text())), program.rows(*words[6:])
    assert [{**row, "seconds": ""} for row in spread] == [{**row, "seconds": ""} for row in alone]
    parts = subprocess.run([*map(str, words[:6]), "--parts", "3", *map(str, words[6:])], **called)
    for part in (1, 2, 3):
        program.call(*words[6:], "--part", f"{part}/3", "--csv", f"d{part}.csv")
    wanted = program.call("--merge", "d1.csv", "d2.csv", "d3.csv")[1].split("\n\n")[1]
    assert parts.returncode == 0 and wanted.strip() in parts.stdout, (parts, wanted)

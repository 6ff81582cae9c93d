"""What used to be answered wrongly in silence, or with an answer that means nothing: each is refused, or says so."""
import csv
import io
import re
import struct
import xml.etree.ElementTree as xml

from common import HERE, TRACES, case, lines, model, some_keys

SAMPLES = HERE / "samples"


@case
def bytes_are_not_records(program):
    """A size in bytes needs records that weigh theirs."""
    keys, sized = program.put("k.keys", lines(some_keys())), TRACES / "build.csv"
    for size in ("10MiB", "5,10kB", "7B", "1GB"):
        program.fails(2, "counts bytes, and each record weighs 1", keys, "--size", size)
        program.fails(2, "--weigh size", sized, "--size", size)
    assert program.rows(sized, "--weigh", "size", "--size", "10MiB", "--policy", "lru")[0]["size"] == str(10 * 2**20)
    assert program.rows(keys, "--size", "10M", "--policy", "lru")[0]["size"] == str(10**7)
    program.fails(2, "--warmup must be", keys, "--warmup", "1kB")
    program.fails(2, "--ttl must be", keys, "--ttl", "1MiB")
    program.fails(2, "has no number that fits", "--make", "zipf:ops=1MB")


@case
def wide_rows_have_no_meaning(program):
    """More than five columns without a header mean nothing by their order."""
    for row in ("128166372003061629,usr,0,Read,7014609920,24576,41286", "1,2,3,4,5,6"):
        name = program.put("m.csv", f"{row}\n{row}\n")
        columns = row.count(",") + 1
        program.fails(2, f"the first row has {columns} columns and no header: say --columns", name)
        assert program.rows(name, "--columns", "-,-,key", "--policy", "lru", "--size", "9")[0]["hits"] == "1"
    program.fails(2, "--format msr", program.put("m.csv", "1,usr,0,Read,2,3,4\n"))
    headed = program.put("h.csv", "a,b,c,key,d,e,f\n" + "1,2,3,7,4,5,6\n" * 2)
    assert program.rows(headed, "--policy", "lru", "--size", "9")[0]["hits"] == "1"


@case
def msr_requests_are_blocks(program):
    """Blocks of 4 KiB of a host and a disk, each a key."""
    name = SAMPLES / "msr.csv"
    rows = list(csv.reader(io.StringIO(name.read_text())))
    assert len(rows) == 10
    accesses = []
    for _, host, disk, what, offset, size, _ in rows:
        first, last = int(offset) // 4096, (int(offset) + int(size) - 1) // 4096
        accesses += [(what == "Read", (host, disk, block)) for block in range(first, last + 1)]
    seen, hits, gets = set(), 0, 0
    for is_read, key in accesses:
        hits += is_read and key in seen
        gets += is_read
        seen.add(key)
    assert 0 < hits < gets < len(accesses)
    row = program.rows(name, "--format", "msr", "--policy", "lru", "--size", "1000")[0]
    assert (int(row["requests"]), int(row["hits"]), int(row["bytes"])) == (gets, hits, gets * 4096), row
    weighed = program.rows(name, "--format", "msr", "--policy", "lru", "--size", "4MiB", "--weigh", "size")[0]
    assert weighed["hits"] == row["hits"]
    text = program.call(name, "--format", "msr", "--policy", "lru", "--size", "9", "--quiet")[1]
    assert f"{len(accesses)} requests ({gets} gets), {len(seen)} distinct keys" in text, text
    # A unit of time is 100 ns.
    assert int(program.rows(name, "--format", "msr", "--policy", "lru", "--size", "1000", "--ttl", "1")[0]["hits"]) < hits
    far = "".join(f"1,h,0,Read,{offset},4096,1\n" for offset in (0, 2**32, 2**40, 2**62)).encode()
    row = program.rows("-", "--format", "msr", "--policy", "lru", "--size", "9", data=far * 2)[0]
    assert (row["hits"], row["misses"]) == ("4", "4"), row
    past = 2**64 - 1
    for bad in ("1,h,0,Fetch,0,1,1", "1,h,0,Read,x,1,1", "1,h,0,Read,0", "1.5.2,h,0,Read,0,1,1", f"1,h,0,Read,{past},9,1"):
        program.fails(1, "record 2: expected", "-", "--format", "msr", data=f"1,h,0,Read,0,1,1\n{bad}\n".encode())


@case
def twitter_requests(program):
    """Seconds, key, key size, value size, client, operation and life in seconds."""
    name = SAMPLES / "twitter.csv"
    rows = list(csv.reader(io.StringIO(name.read_text())))
    assert len(rows) == 10
    held, hits, misses, read = {}, 0, 0, 0
    for now, key, key_size, value_size, _, what, ttl in rows:
        now, expiry = int(now), int(now) + int(ttl) if int(ttl) else 2**63
        is_get = what in ("get", "gets")
        found = held.get(key, 0) > now
        hits += is_get and found
        misses += is_get and not found
        read += (int(key_size) + int(value_size)) * is_get
        if what == "delete":
            held.pop(key, None)
        elif not (is_get and found):
            held[key] = expiry
    assert hits and misses
    row = program.rows(name, "--format", "twitter", "--policy", "lru", "--size", "100")[0]
    assert (int(row["hits"]), int(row["misses"]), int(row["bytes"])) == (hits, misses, read), row
    for bad in ("1,k,1,1,1,fetch,0", "x,k,1,1,1,get,0", "1,k,1,1,1,get"):
        program.fails(1, "record 2: expected", "-", "--format", "twitter", data=f"1,k,1,1,1,get,0\n{bad}\n".encode())


@case
def binary_is_no_text(program):
    """Binary records that are read as text are refused, whatever is skipped."""
    records = b"".join(struct.pack("<IQIq", at, at % 7, 1, -1) for at in range(100))
    for words in (["-"], ["-", "--skip-bad"], ["-", "--format", "csv"], ["-", "--format", "arc"], ["-", "--format", "msr"]):
        program.fails(1, "the trace has bytes of 0, so it is no text: say --format oracle", *words, data=records)
    program.fails(1, "bytes of 0", "-", "--stream", "--size", "9", data=lines(range(100_000)).encode() + b"\0\n")
    program.fails(1, "bytes of 0", program.put("k.csv", b"time,key\n1,a\n2,b\0\n"))
    for data in (lines(range(1000, 1240)), "1234567890,abc,def,123\n" * 24):
        program.fails(1, "the trace is text", "-", "--format", "oracle", data=data.encode())


@case
def times_are_whole_numbers_read(program):
    """A time is a number in the usual notations, or a bad record; what is behind its point is read too."""
    for word, time in (("2.5e3", 2500), ("12.9", 12), ("1e3", 1000), ("25E-1", 2), (".5", 0), ("7.", 7), ("1.25e+2", 125)):
        # The record of time 0 has expired at its life, and not before.
        name = program.put("t.csv", f"time,key\n0,a\n{word},a\n")
        for ttl, hits in ((time, "0"), (time + 1, "1")):
            if ttl:
                row = program.rows(name, "--ttl", ttl, "--policy", "fifo", "--size", "9")[0]
                assert row["hits"] == hits, (word, ttl, row)
    for word in ("1.x", "1.5.2", "1e", "2.5ms", "1,5"[:1] + "_5", "0x10", "1e30", "-1", "1.5e-", "e5", ".", "inf", "nan"):
        program.fails(1, "record 2: expected a number", program.put("b.csv", f"time,key\n0,a\n{word},a\n"))
    name = program.put("l.csv", "time,key,ttl\n0,a,1e1\n9,a,1e1\n10,b,2.0\n10,b,0\n")
    assert program.rows(name, "--policy", "fifo", "--size", "9")[0]["hits"] == "2"


@case
def each_part_once(program):
    """A merge takes each part of one trace once."""
    program.put("k.keys", lines(some_keys()))
    program.put("l.keys", lines(some_keys(seed=2)))
    words = ["--policy", "lru,fifo", "--size", "40,90"]
    for part in (1, 2, 3):
        program.call("k.keys", *words, "--part", f"{part}/3", "--csv", f"p{part}.csv")
    program.call("k.keys", *words, "--part", "1/2", "--csv", "half.csv")
    program.call("l.keys", *words, "--part", "3/3", "--csv", "other.csv")
    program.call("k.keys", *words, "--part", "3/3", "--ttl", "50", "--csv", "lives.csv")
    program.call("k.keys", *words, "--part", "3/3", "--shards", "2", "--csv", "shards.csv")
    program.call("k.keys", *words, "--part", "3/3", "--warmup", "100", "--csv", "warm.csv")
    merged = program.rows("--merge", "p3.csv", "p1.csv", "p2.csv")
    assert {int(it["requests"]) for it in merged} == {4000} and {it["part"] for it in merged} == {"1/1"}, merged
    program.fails(1, "p1.csv: line 2: part 1/3 of lru at 40 is there twice", "--merge", "p1.csv", "p1.csv", "p2.csv")
    program.fails(1, "part 2/3 of lru at 40 is missing", "--merge", "p1.csv", "p3.csv")
    program.fails(1, "half.csv: line 2: expected a part of 3", "--merge", "p1.csv", "p2.csv", "half.csv")
    for name in ("other.csv", "lives.csv", "shards.csv", "warm.csv"):
        said = f"{name}: line 2: expected a run of the same trace with the same options"
        program.fails(1, said, "--merge", "p1.csv", "p2.csv", name)
    rows = ["1,1,5,get,9", "2,1,5,get,9", "3,2,5,get,9", "4,1,5,get,9", "5,2,5,get,9"]
    for number, row in enumerate([rows[2], "6,2,5,get,9", "3,2,7,get,9", "3,2,5,set,9", "3,2,5,get,8"]):
        name = program.put("t.csv", "time,key,size,op,ttl\n" + "\n".join([*rows[:2], row, *rows[3:]]))
        program.call(name, "--policy", "lru", "--size", "4", "--part", "1/2" if row is rows[2] else "2/2", "--csv", f"t{number}.csv")
        if number:
            said = f"t{number}.csv: line 2: expected a run of the same trace"
            program.fails(1, said, "--merge", "t0.csv", f"t{number}.csv")
    program.call("k.keys", *words, "--csv", "whole.csv")
    program.fails(1, "is there twice", "--merge", "whole.csv", "whole.csv")
    program.call("--merge", "p1.csv", "p2.csv", "p3.csv", "--csv", "merged.csv")
    program.fails(1, "is there twice", "--merge", "merged.csv", "whole.csv")
    program.call("k.keys", "--policy", "lru,fifo", "--size", "7", "--csv", "seven.csv")
    assert len(program.rows("--merge", "whole.csv", "seven.csv")) == 6


@case
def few_records_mean_nothing(program):
    """A sample's sizes of fewer than 100 records are a dash, and a line says from which size on they are shown."""
    name = program.put("z.keys", program.call("--make", "zipf:ops=60k,keys=20k,skew=0.9,seed=3")[1])
    words = [name, "--sample", "0.01", "--policy", "lru,fifo", "--size", "100,9999,10000,15000", "--quiet"]
    said = program.call(*words, "--svg", "f.svg", "--html", "f.html", "--csv", "f.csv")[1]
    table = [it.split() for it in said.split("\n\n")[1].splitlines()]
    assert table[1] == ["100", "9999", "10000", "15000"], said
    for row in table[2:]:
        assert row[1:3] == ["-", "-"] and all(re.fullmatch(r"0\.\d{4}\*?", it) for it in row[3:]), said
    assert "a sample of fewer than 100 records says nothing: sizes are shown from 10,000 records on" in said, said
    rows = csv.DictReader(io.StringIO((program.folder / "f.csv").read_text()))
    assert [it["miss_ratio"] == "" for it in rows] == [True, True, False, False] * 2
    drawn = xml.parse(program.folder / "f.svg").getroot().findall(".//{*}polyline")
    assert [len(it.get("points").split()) for it in drawn] == [2, 2]
    page = (program.folder / "f.html").read_text()
    assert page.count("<td>-</td>") == 4 and "from 10,000 records on" in page
    assert "from " not in program.call(name, "--policy", "lru", "--size", "5", "--quiet")[1]
    sized = program.put("s.csv", "key,size\n" + "".join(f"{key},1000\n" for key in some_keys(20_000, 9000)))
    said = program.call(sized, "--sample", "0.1", "--weigh", "size", "--policy", "lru", "--size", "999000,1000000")[1]
    assert said.split("\n\n")[1].splitlines()[2].split()[1] == "-" and "from 977 KiB on" in said, said


@case
def shards_hold_a_record_each(program):
    """A cache with more shards than records says how many it may hold."""
    name = program.put("s.keys", lines(some_keys()))
    said = program.call(name, "--size", "10,300", "--shards", "100", "--policy", "lru", "--quiet")[1]
    assert "\nwarning: a cache of 10 records may hold 100: each of its 100 shards keeps one\n" in said, said
    assert "warning" not in program.call(name, "--size", "100", "--shards", "100", "--quiet")[1]
    assert "warning" not in program.call(name, "--size", "10", "--quiet")[1]
    sized = program.put("s.csv", "key,size\n" + "".join(f"{key},1000\n" for key in some_keys()))
    said = program.call(sized, "--weigh", "size", "--size", "50kB,1MB", "--shards", "100", "--policy", "lru", "--quiet")[1]
    assert "warning: a cache of 48.8 KiB may hold 100 records: each of its 100 shards keeps one" in said, said


@case
def files_are_opened_first(program):
    """A file that can't be written is said before the run, and a failed run leaves an older file as it was."""
    name = program.put("s.keys", lines(some_keys()))
    for option in ("--csv", "--svg", "--html"):
        program.fails(1, "/nowhere/x: No such file", name, option, "/nowhere/x")
        kept = program.put("kept", "kept")
        program.fails(1, "record 1: expected", program.put("b.csv", "1,2,x\n"), option, kept)
        assert (program.folder / "kept").read_text() == "kept"
        program.fails(2, "is the trace", name, option, name)
        program.fails(2, "two files of one name", name, "--csv", "out", "--svg", "out", "--html", "out")
    assert program.call(name, "--policy", "lru", "--csv", "kept")[0] == 0
    assert (program.folder / "kept").read_text().startswith("policy,")


@case
def near_names_alone(program):
    """A name is proposed only if few letters of it were mistaken."""
    trace = program.put("k.keys", "1\n2\n")
    for word, near in (("lur", "lru"), ("siev", "sieve"), ("belayd", "belady"), ("s3fif0", "s3fifo"), ("S3FIFO", "s3fifo")):
        program.fails(2, f"unknown policy '{word}': did you mean '{near}'?", trace, "--policy", word)
    for word in ("clock", "opt", "gdsf", "random", "tinylfu"):
        program.fails(2, f"unknown policy '{word}' (one of all, fifo", trace, "--policy", word)
    program.fails(2, "unknown format 'parquet' (one of keys", trace, "--format", "parquet")


@case
def pictures_say_it_once(program):
    """Sizes of the axis are in the units of the table, the page has its title once, and each line its own colour."""
    words = ["--policy", "all,belady,arc,lirs,2q,lru-k,s3fifo-paper,lru-curve", "--size", "10,100", "--title", "the title"]
    assert program.call(TRACES / "sqlite.keys", *words, "--svg", "p.svg", "--html", "p.html")[0] == 0
    drawn = xml.parse(program.folder / "p.svg").getroot().findall(".//{*}polyline")
    assert len(drawn) == 12 and len({it.get("stroke") for it in drawn}) == 12
    body = (program.folder / "p.html").read_text().partition("<body>")[2].partition("<pre>")[0]
    assert body.count("the title") == 1, body
    words = ["--weigh", "size", "--policy", "lru,fifo", "--svg", "b.svg", "--title", "the title"]
    said = program.call(TRACES / "build.csv", *words, "--size", "64KiB,1MiB,64MiB")[1]
    texts = [it.text for it in xml.parse(program.folder / "b.svg").getroot().iter() if it.tag.endswith("text")]
    assert sum(it.startswith("the title") for it in texts) == 1, texts
    marks = {it for it in texts if re.fullmatch(r"\d+ [kKMG]i?B", it)}
    assert len(marks) > 5 and all(it.split()[1] in ("KiB", "MiB") for it in marks), texts
    assert {"64.0 KiB", "1.0 MiB", "64.0 MiB"} <= set(re.findall(r"[\d.]+ [KM]iB", said)), said


@case
def lives_that_a_policy_knows_not(program):
    """Belady's cache and the others that know no lives refuse a trace that has some."""
    name = program.put("l.csv", "time,key,ttl\n0,a,5\n9,a,5\n")
    for policy in ("belady", "arc", "lru-curve"):
        program.fails(1, f"{policy} knows no lives, and the trace has some", name, "--policy", policy, "--size", "3")
        plain = program.put("p.csv", "time,key,ttl\n0,a,0\n9,a,0\n")
        assert program.rows(plain, "--policy", policy, "--size", "3")[0]["hits"] == "1"
    assert model([1, 1], 3, True) == 1

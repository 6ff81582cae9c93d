"""What must be exact: numbers of each width in each format, sums, memory, points of the pictures, progress."""
import math
import os
import pty
import re
import struct
import subprocess
import sys
import time
import xml.etree.ElementTree as xml

from common import COUNTED, TRACES, case, lines, some_keys, weighed_model


@case
def wide_numbers(program):
    """Keys that differ in any byte are distinct, and sizes and times have all their bits."""
    keys = [1, *(1 + 2**bit for bit in range(8, 64, 8)), 2**64 - 1]
    names = [
        program.put("w.keys", lines(keys * 2)),
        program.put("w.csv", "key\n" + lines(keys * 2)),
        program.put("w.oracle", b"".join(struct.pack("<IQIq", at, key, 1, -1) for at, key in enumerate(keys * 2))),
        program.put("w.arc", "".join(f"{key} 1 0 0\n" for key in keys[:-1] * 2)),
    ]
    for name in names:
        row = program.rows(name, "--policy", "lru", "--size", "100")[0]
        assert row["hits"] == row["misses"] == str(len(keys) - name.endswith("arc")), (name, row)
    requests = [(2**31 + at * 2**21, key, 1 + key * 2**22) for at, key in enumerate(some_keys(1000, 900))]
    name = program.put("z.oracle", b"".join(struct.pack("<IQIq", at, key, size, -1) for at, key, size in requests))
    for ttl in (None, 2**29):
        words = ["--policy", "fifo", "--weigh", "size", "--size", str(2**33), *(["--ttl", ttl] if ttl else [])]
        wanted, row = weighed_model(requests, 2**33, ttl), program.rows(name, *words)[0]
        assert {it: int(row[it]) for it in COUNTED} == {it: wanted[it] for it in COUNTED}, (row, wanted)


@case
def counts_of_many_requests(program):
    """What more than one part of a trace comes to, in memory and in a stream."""
    requests = [(at, key, 1 + key % 700) for at, key in enumerate(some_keys(150_000, 3000))]
    name = program.put("y.csv", "time,key,size\n" + "".join(f"{t},{k},{s}\n" for t, k, s in requests))
    wanted = weighed_model(requests, 50_000)
    for words in ([], ["--stream"]):
        row = program.rows(name, "--policy", "fifo", "--weigh", "size", "--size", "50k", *words)[0]
        assert {it: int(row[it]) for it in COUNTED} == {it: wanted[it] for it in COUNTED}, (row, wanted)


@case
def times_of_blocks(program):
    """All blocks of a line have the line's number as their time."""
    name = program.put("t.arc", "1 9 0 0\n1 9 0 0\n5 2 0 0\n1 9 0 0\n")
    rows = [program.rows(name, "--policy", "fifo", "--size", "100", "--ttl", ttl)[0] for ttl in (1, 2, 3, 4)]
    assert [row["hits"] for row in rows] == ["0", "11", "11", "20"], rows


@case
def footprints(program):
    """A part of the footprint is rounded to the nearest, of records, or of bytes as each was first."""
    big = 2**33
    name = program.put("f.csv", "key,size\n" + "".join(f"{key % 25},{big + key}\n" for key in range(75)))
    whole = sum(big + key for key in range(25))
    parts = [0.01, 0.02, 0.1, 0.3, 0.5]
    words = ["--policy", "fifo", "--size", ",".join(map(str, parts))]
    found = [int(row["size"]) for row in program.rows(name, *words)]
    assert found == [1, 3, 8, 13], found  # 0.25, 0.5, 2.5, 7.5 and 12.5 records
    found = [int(row["size"]) for row in program.rows(name, *words, "--weigh", "size")]
    assert all(abs(size - whole * part) <= 0.5 for size, part in zip(found, parts)), (found, whole)
    text = program.call(name, "--policy", "fifo", "--weigh", "size", "--quiet")[1]
    assert "75 requests, 25 distinct keys of 200 GiB, 600 GiB requested" in text, text
    grown = program.put("g.csv", "key,op,size\n1,get,1\n2,delete,101\n1,set,201\n2,get,301\n")
    text = program.call(grown, "--policy", "fifo", "--quiet")[1]
    assert "4 requests (2 gets), 2 distinct keys of 302 B, 302 B requested" in text, text


MEASURED = """import resource, subprocess, sys
subprocess.run(sys.argv[1:], stdout=subprocess.DEVNULL, check=True)
print(resource.getrusage(resource.RUSAGE_CHILDREN).ru_maxrss)"""


def memory_of(program, *words):
    """The bytes that a run has at its most."""
    words = [sys.executable, "-c", MEASURED, program.path, *words, "--policy", "fifo", "--size", "10", "--quiet"]
    said = subprocess.run(words, capture_output=True, text=True, cwd=program.folder, check=True).stdout
    return int(said) * 1024


@case
def memory(program):
    """A request takes at most 16 bytes, or 24 with a size, also where all keys are distinct, and none in a stream."""
    count = 1_500_000
    name = program.put("m.keys", lines(range(count)))
    sized = program.put("m.csv", "".join(f"{at // 100},{at * 7919},{at % 100_000}\n" for at in range(count)))
    for words, most in (([name], 16), ([sized], 24), ([name, "--stream"], 0)):
        found = memory_of(program, *words)
        assert found <= most * count + 16_000_000, (words, found)  # Python's own, and buffers


@case
def sums_past_32_bits(program):
    """Merged counts are sums of any size."""
    program.rows("-", "--policy", "lru", "--size", "9", data=b"1\n")
    names = (program.folder / "rows.csv").read_text().split("\n")[0].split(",")
    counts = {"requests": 5, "hits": 2, "misses": 3, "evictions": 4, "expired": 6, "bytes": 9, "miss_bytes": 8}
    for at in (1, 2):
        row = {"policy": "lru", "size": "9", "seconds": "1.5", "unit": "records"}
        row |= {"part": f"{at}/2", "read": "9", "checksum": "7"}
        row.update({name: str(count * 2**40 + at) for name, count in counts.items()})
        program.put(f"s{at}.csv", ",".join(names) + "\n" + ",".join(row.get(name, "") for name in names) + "\n")
    merged = program.rows("--merge", "s1.csv", "s2.csv")[0]
    assert {name: int(merged[name]) for name in counts} == {name: count * 2**41 + 3 for name, count in counts.items()}
    assert merged["seconds"] == "3.000"


def scale_of(root, anchor, place):
    """Where the picture has a number of an axis: from two labels on it, each with its text."""
    labels = [it for it in root.iter() if it.tag.endswith("text") and it.get("text-anchor") == anchor and it.get(place)]
    units = {"": 1, "k": 1000, "M": 10**6}
    found = []
    for it in labels:
        match = re.fullmatch(r"([0-9.]+)(k?)", it.text)
        if match:
            found.append((float(match[1]) * units[match[2]], float(it.get(place))))
    (first, low), (last, high) = found[0], found[-1]
    assert first != last and len(found) > 2
    return (first, low), (last, high)


@case
def points_are_the_rows(program):
    """Each line goes through its rows, by the labels of the axes."""
    words = ["--policy", "all,belady", "--size", "2,30,400,1000", "--svg", "a.svg"]
    rows = program.rows(TRACES / "sqlite.keys", *words)
    root = xml.parse(program.folder / "a.svg").getroot()
    (left, x1), (right, x2) = scale_of(root, "middle", "x")
    (bottom, y1), (top, y2) = scale_of(root, "end", "y")
    words = [it for line in root.findall(".//{*}polyline") for it in line.get("points").split()]
    points = [tuple(map(float, it.split(","))) for it in words]
    assert len(points) == len(rows) == 24 and x1 < x2 and y1 > y2
    for (x, y), row in zip(points, rows):
        part = (math.log(int(row["size"])) - math.log(left)) / (math.log(right) - math.log(left))
        assert abs(x - (x1 + part * (x2 - x1))) < 0.5, (x, row)
        part = (float(row["miss_ratio"]) - bottom) / (top - bottom)
        assert abs(y + 4.5 - (y1 + part * (y2 - y1))) < 0.5, (y, row)


@case
def progress_on_a_terminal(program):
    leader, follower = pty.openpty()
    sizes = [str(size) for size in range(10, 50)]
    words = [program.path, TRACES / "sqlite.keys", "--policy", "lfu,s3fifo", "--size", ",".join(sizes), "--jobs", "1"]
    with subprocess.Popen(list(map(str, words)), stdout=subprocess.DEVNULL, stderr=follower) as ran:
        os.close(follower)
        said = b""
        while True:
            try:
                more = os.read(leader, 4096)
            except OSError:  # nobody has the other end any more
                break
            said += more
        assert ran.wait() == 0
    os.close(leader)
    told = said.decode().split("\r")
    form = r"[0-9,]+ of 8,945,200 requests, [0-9.]+ million a second, [0-9.]+ minutes left *"
    assert len(told) > 3 and told[0] == "" and told[-2:] == [" " * 76, ""], told
    assert all(re.fullmatch(form, it) for it in told[1:-2]), told


@case
def progress_in_a_file(program):
    """A line every 10 seconds."""
    part = lines(range(70_000)).encode()
    words = [program.path, "-", "--stream", "--policy", "fifo", "--size", "10"]
    with subprocess.Popen(words, stdin=subprocess.PIPE, stdout=subprocess.PIPE, stderr=subprocess.PIPE) as ran:
        ran.stdin.write(part)
        ran.stdin.flush()
        time.sleep(10.3)
        _, said = ran.communicate(part)
    assert re.fullmatch(r"foyer-trace: 131,072 requests, 0\.01 million a second\n", said.decode()), said
    quiet = program.call(*words[1:], "--quiet", data=part)
    assert quiet[0] == 0 and quiet[2] == "", quiet

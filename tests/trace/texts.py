"""What the program reads and writes: formats, bad input, options, pictures, tables and synthetic traces."""
import collections
import html
import re
import shlex
import struct
import subprocess
import xml.etree.ElementTree as xml

from common import ROOT, TRACES, case, lines, some_keys


@case
def formats_agree(program):
    keys = some_keys()
    words = ["--policy", "lru,s3fifo", "--size", "5,40"]
    wanted = program.hits("-", *words, data=lines(keys).encode())
    named = [
        program.put("a.keys", lines(keys)),
        program.put("b.txt", "\r\n".join(map(str, keys))),
        program.put("c.csv", "key\n" + lines(keys)),
        program.put("d.csv", "".join(f"{at},{key},1\n" for at, key in enumerate(keys))),
        program.put("e.oracleGeneral", b"".join(struct.pack("<IQIq", at, key, 1, -1) for at, key in enumerate(keys))),
        program.put("f.arc", "".join(f"{key} 1 0 {at}\n" for at, key in enumerate(keys))),
    ]
    for name in named:
        assert program.hits(name, *words) == wanted, name
    quoted = program.put("g.csv", "when,what\r\n" + "".join(f'{at},"{key}"\r\n' for at, key in enumerate(keys)))
    for columns in ("time=when,key=what", "time=1,key=2", "time,key", "-,key"):
        assert program.hits(quoted, "--columns", columns, *words) == wanted, columns
    ranges = program.put("h.lis", "10 3 0 0\n11 2 0 0\n\n")
    assert int(program.rows(ranges, "--policy", "lru", "--size", "10")[0]["hits"]) == 2


@case
def headers(program):
    """Which row is a header, and which column it calls what."""
    rows = {
        "time,key,size\n1,7,5\n2,7,5\n": [],
        "\ufeffsize , Key, time\n5, 7,1\n5, 7,2\n": [],
        "url,timestamp,key,bytes,size\nx,1,7,9,5\ny,2,7,9,5\n": [],
        "when,what,much\n1,7,5\n2,7,5\n": ["--columns", "time,key,size"],
        "method,obj_id,ts,size\nget,7,1,5\nGET ,7,2,5\n": ["--columns", "op=1,key=2,size=4"],
    }
    for text, words in rows.items():
        found = program.rows(program.put("h.csv", text), "--policy", "lru", "--size", "10", *words)[0]
        assert (found["requests"], found["hits"], found["bytes"]) == ("2", "1", "10"), (text, found)
    signed = program.put("i.csv", "1,7,-5\n2,7,5\n")
    program.fails(1, "record 1: expected a number below 2^64", signed, "--columns", "time,key,size")


@case
def keys_are_text(program):
    """Numbers are told from texts, and texts may have a megabyte."""
    texts = ["7", "007", "seven", "7 ", "18446744073709551616", "\u00e9", "x" * 1_000_000, "x" * 999_999 + "y"]
    rows = program.rows("-", "--policy", "lru", "--size", "100", data="\n".join(texts * 2).encode())
    assert (rows[0]["hits"], rows[0]["misses"]) == ("8", "8"), rows


@case
def bad_input(program):
    empty = program.put("empty.keys", "")
    program.fails(1, "empty.keys: the trace has no requests", empty)
    program.fails(1, "blank.keys: the trace has no requests", program.put("blank.keys", "\n\r\n\n"))
    program.fails(1, "header.csv: the trace has no requests", program.put("header.csv", "time,key,size\n"))
    whole = struct.pack("<IQIq", 1, 2, 3, 4)
    cut = program.put("cut.oracle", whole + whole[:10])
    program.fails(1, "record 2: expected 24 bytes, and the file ends after 10", cut)
    assert "1 bad record" in program.call(cut, "--skip-bad")[1]
    assert program.rows(cut, "--skip-bad", "--policy", "lru")[0]["requests"] == "1"
    program.fails(
        1,
        "record 2: expected two numbers, a first block and a count, in line 2",
        program.put("x.arc", "1 1 0 0\nfour\n"),
    )
    program.fails(1, "in line 4", program.put("y.arc", "\n1 1 0 0\r\n\nfour\n"))
    program.fails(
        1, "record 1: expected a number below 2^64 in the column size, and found '-1'", program.put("n.csv", "1,2,-1\n")
    )
    program.fails(
        1,
        "record 1: expected a number below 2^64 in the column time, and found 'when'; --columns says which column is what",
        program.put("w.csv", "when,what\n1,2\n"),
    )
    program.fails(1, "record 2: expected a value in the column key, and found ''\n", program.put("v.csv", "1,2\n3\n"))
    past = "18446744073709551616"
    program.fails(1, f"column size, and found '{past}'", program.put("q.csv", f"1,2,{past}\n"))
    program.fails(1, "expected a value in the column size", program.put("s.csv", "time,key,size\n1,2\n"))
    program.fails(1, "nowhere.keys: No such file", "nowhere.keys")
    program.fails(1, "cannot read the trace", program.folder, "--format", "keys")


@case
def extreme_sizes(program):
    name = program.put("big.csv", "key,size\n" + "a,18446744073709551615\nb,0\na,18446744073709551615\nb,0\nc,5\n" * 2)
    for words in (
        [],
        ["--weigh", "size"],
        ["--weigh", "size", "--size", "0,1,18446744073709551615"],
        ["--size", "0,0.5"],
    ):
        rows = program.rows(name, "--policy", "all", *words)
        assert all(int(it["hits"]) + int(it["misses"]) == 10 for it in rows)
        assert all(int(it["bytes"]) == 4 * (2**64 - 1) + 10 for it in rows)
        status, _, said = program.call(name, *words, "--svg", "big.svg", "--html", "big.html")
        assert status == 0, said
    hits = program.hits(name, "--policy", "fifo", "--weigh", "size", "--size", "18446744073709551615")
    assert hits["fifo", 2**64 - 1] == 4, hits


@case
def bad_words(program):
    trace = program.put("k.keys", "1\n2\n")
    for said, *words in [
        ("unknown policy 'lur': did you mean 'lru'?", "--policy", "lur"),
        ("unknown policy 'S3FIFO': did you mean 's3fifo'?", "--policy", "S3FIFO"),
        ("unknown policy 'LRU': did you mean 'lru'?", "--policy", "LRU"),
        ("',' names no policy", "--policy", ","),
        ("unknown parameter of s3fifo 'smal': did you mean 'small'?", "--policy", "s3fifo:smal=1/10"),
        ("small must be a share such as 1/10 or 0.1", "--policy", "s3fifo:small=x"),
        ("fifo has no parameters", "--policy", "fifo:x=1"),
        ("unknown format 'key': did you mean 'keys'?", "--format", "key"),
        ("a size must be a number such as 10k", "--size", "10x"),
        ("unexpected argument '-1' found", "--size", "-1"),
        ("--shards must be a number from 1", "--shards", "0"),
        ("unknown weight 'sizes': did you mean 'size'?", "--weigh", "sizes"),
        ("--weigh size wants a trace with sizes", "--weigh", "size"),
        ("--sample must be a part above 0", "--sample", "2.0"),
        ("--part must be such as 1/4", "--part", "5/4"),
        ("--sample and --part do not go together", "--part", "1/4", "--sample", "0.1"),
        ("--stream does not know the footprint", "--stream"),
        ("--warmup must be a number of requests", "--warmup", "1.5"),
        ("--columns is for --format csv", "--columns", "key"),
        ("belady knows no lives", "--policy", "belady", "--ttl", "5"),
        ("a similar argument exists: '--shards'", "--shard", "5"),
    ]:
        program.fails(2, said, trace, *words)
    program.fails(2, "lfu:window=9/10: the ratios of window and protected", trace, "--policy", "lfu:window=9/10")
    program.fails(2, "a trace is missing")
    program.fails(2, "one trace is replayed at a time", trace, trace)
    program.fails(2, "the name of k does not tell its format", program.put("k", "1\n"))
    table = program.put("k.csv", "when,what\n1,2\n")
    program.fails(2, "the header has no column 'whom' (it has when, what)", table, "--columns", "time=when,key=whom")
    program.fails(2, "unknown column 'kye': did you mean 'key'?", table, "--columns", "kye")
    program.fails(2, "no column is the key", table, "--columns", "time")
    program.fails(2, "two columns are the key, in 'time,key,key=1'", table, "--columns", "time,key,key=1")
    for text in ("time;key\n1;2\n", "1\t2\n3\t4\n"):
        table = program.put("k.csv", text)
        program.fails(2, "the first row has no comma", table)
        assert program.rows(table, "--columns", "key", "--policy", "lru", "--size", "9")[0]["requests"] == "2"
    for ending, reader in (("zst", "zstdcat"), ("gz", "zcat"), ("xz", "xzcat"), ("bz2", "bzcat")):
        said = f"t.keys.{ending} is compressed: say {reader} t.keys.{ending} | foyer-trace -"
        for words in ([], ["--format", "keys"]):
            program.fails(2, said, program.put(f"t.keys.{ending}", "1\n"), *words)
    program.fails(2, "unknown kind of trace 'zip': did you mean 'zipf'?", "--make", "zip:ops=1")
    program.fails(2, "unknown parameter of zipf 'key': did you mean 'keys'?", "--make", "zipf:key=1")
    program.fails(2, "--merge takes the files", "--merge")


@case
def units_of_numbers(program):
    """What each unit is, at the ends of its range."""
    tens = {"k": 3, "K": 3, "kB": 3, "KB": 3, "m": 6, "M": 6, "MB": 6, "g": 9, "G": 9, "GB": 9, "T": 12, "TB": 12}
    units = {unit: 10**power for unit, power in tens.items()}
    units |= {"": 1, "B": 1, "KiB": 2**10, "MiB": 2**20, "GiB": 2**30, "TiB": 2**40}
    name = program.put("u.csv", "key,size\n1,1\n")
    for unit, factor in units.items():
        most = (2**64 - 1) // factor
        words = [name, "--policy", "fifo", *(["--weigh", "size"] if "B" in unit else []), "--size"]
        sizes = [int(it["size"]) for it in program.rows(*words, f"0{unit},3{unit},{most}{unit}")]
        assert sizes == [0, 3 * factor, most * factor], (unit, sizes)
        program.fails(2, "a size must be a number", *words, f"{most + 1}{unit}")
    program.fails(2, "a size must be a number", name, "--size", "1MIB")


@case
def parameters(program):
    """Each parameter that is said as it is by default changes nothing, and as it isn't, something of its own."""
    name, sizes = TRACES / "sqlite.keys", ["--size", "53,176"]
    words = {
        "lru": ["high=0.9", "high=0.3"],
        "lfu": ["window=1/10", "protected=8/10", "buckets=2719", "hashes=3"],
        "s3fifo": ["small=1/10", "ghost=1/1", "threshold=1"],
    }
    others = ["window=1/20", "protected=4/10", "buckets=50", "hashes=1", "small=1/3", "ghost=1/50", "threshold=3"]
    for policy, defaults in words.items():
        default = program.hits(name, "--policy", policy, *sizes)
        seen = [default]
        for word in defaults[: 1 if policy == "lru" else None]:
            assert program.hits(name, "--policy", f"{policy}:{word}", *sizes) == default, word
        kinds = {it.split("=")[0] for it in defaults}
        for word in [it for it in others + ["high=0.3"] if it.split("=")[0] in kinds]:
            found = program.hits(name, "--policy", f"{policy}:{word}", *sizes)
            assert found not in seen, word
            seen.append(found)


@case
def help_is_kept(program):
    status, said, _ = program.call("--help")
    assert status == 0 and said == (ROOT / "crates/foyer_trace/help.txt").read_text()
    assert set(re.findall(r"--[a-z-]+", said)) >= {"--skip-bad", "--merge", "--stream", "--title"}
    assert program.call("--version")[1].startswith("foyer-trace ")


@case
def pictures(program):
    name = TRACES / "build.csv"
    words = [
        name,
        "--policy",
        "all,belady,s3fifo:small=1/4",
        "--svg",
        "p.svg",
        "--html",
        "p.html",
        "--title",
        "a <b> & \"c\" 'd'",
    ]
    status, said, _ = program.call(*words)
    assert status == 0 and said.startswith("a <b> & \"c\" 'd': ")
    picture = xml.parse(program.folder / "p.svg").getroot()
    assert picture.tag.endswith("svg") and len(picture.findall(".//{*}polyline")) == 14
    assert {"miss ratio", "byte miss ratio", "s3fifo (small=1/4)"} <= {it.text for it in picture.findall(".//{*}text")}
    page = (program.folder / "p.html").read_text()
    assert page.count("<table>") == 2 and "<polyline" in page
    command = html.unescape(re.search("<pre>foyer-trace (.*)</pre>", page, re.S)[1])
    assert shlex.split(command) == [str(it) for it in words], command
    assert not re.search(r"(src|href)=|@import|url\(", page)
    assert "http" not in page.replace("http://www.w3.org/2000/svg", "")


@case
def pictures_have_room(program):
    """Ticks between any two sizes, a line of its own for each of many policies, and whole titles."""
    many = ",".join(f"s3fifo:small=1/{den}" for den in range(2, 26))
    words = [program.put("v.keys", lines(some_keys())), "--policy", many, "--svg", "v.svg", "--html", "v.html"]
    for size in ("100,137", "60,63,64", "7"):
        program.call(*words, "--size", size, "--title", "a long title, " * 8)
        root = xml.parse(program.folder / "v.svg").getroot()
        ticks = [it for it in root.iter() if it.get("y1") == "370" and it.get("y2") != "370"]
        assert len(ticks) >= 2, size
        looks = [(it.get("stroke"), it.get("stroke-dasharray")) for it in root.findall(".//{*}polyline")]
        legend = [it for it in root.findall(".//{*}text") if it.text.startswith("s3fifo")]
        assert len(looks) == len(legend) == 24
        assert float(legend[-1].get("y")) < float(root.get("height")) - 4
        markers = [it.get("d") for it in root.findall(".//{*}path") if it.get("transform")]
        markers = markers[:: len(markers) // 24]
        assert len(set(zip(looks, markers))) == 24
        assert float(root.get("width")) > 100 + 112 * 8


@case
def documents_are_of_today(program):
    """The picture and the tables that the documents show."""
    said = program.call(TRACES / "sqlite.keys", "--policy", "all,belady", "--svg", "d.svg", "--quiet")[1]
    assert (program.folder / "d.svg").read_text() == (ROOT / "docs/traces-sqlite.svg").read_text()
    table = said.split("\n\n")[1]
    assert table in (ROOT / "docs/TRACES.md").read_text()
    rows = re.findall(r"^(lru|s3fifo|belady) +(0\..*)$", (ROOT / "README.md").read_text(), re.M)
    whole = {it.split()[0]: it.replace("*", "").split() for it in table.splitlines()[2:]}
    assert len(rows) == 3 and all({*ratios.replace("*", "").split()} <= {*whole[name]} for name, ratios in rows), rows


@case
def names_are_escaped(program):
    """A name that a merged file has is text in the page and the picture."""
    program.call("-", "--policy", "lru", "--size", "9", "--csv", "e.csv", data=b"1\n")
    sheet = (program.folder / "e.csv").read_text().replace("\nlru,", "\na<b & c,")
    program.call("--merge", program.put("f.csv", sheet), "--html", "f.html", "--svg", "f.svg")
    assert "a<b" not in (program.folder / "f.html").read_text()
    assert "a<b & c" in {it.text for it in xml.parse(program.folder / "f.svg").getroot().findall(".//{*}text")}


@case
def table_marks_the_least(program):
    """The least of each column but Belady's has a star, in the table of bytes too, and is bold in the page."""
    for trace, count in (("build.csv", 2), ("sqlite.keys", 1)):
        said = program.call(TRACES / trace, "--policy", "all,belady", "--quiet", "--html", "l.html")[1]
        tables = said.split("\n\n")[1 : 1 + count]
        for table in tables:
            rows = {it.split()[0]: it.split()[1:] for it in table.splitlines()[2:]}
            assert set(rows) == {"fifo", "lru", "lfu", "s3fifo", "sieve", "belady"}
            for column in range(6):
                ratios = {name: row[column] for name, row in rows.items() if name != "belady"}
                least = min(float(it.rstrip("*")) for it in ratios.values())
                assert all(it.endswith("*") == (float(it.rstrip("*")) == least) for it in ratios.values()), ratios
        cells = re.findall(r"<td>(<b>)?([0-9.]+)(?:</b>)?</td>", (program.folder / "l.html").read_text())
        shown = [it for table in tables for line in table.splitlines()[2:] for it in line.split()[1:]]
        assert [ratio + "*" * bool(bold) for bold, ratio in cells] == shown, (cells, shown)
    assert "seconds" not in said and " a second" not in said
    assert "million requests a second" in program.call(TRACES / "sqlite.keys", "--policy", "fifo")[1]


@case
def ties_are_marked(program):
    """All ratios that print as the least of a column have its star, also where their digits behind those differ."""
    program.call("-", "--policy", "lru", "--size", "9", "--csv", "h.csv", data=b"1\n")
    names = (program.folder / "h.csv").read_text().split("\n")[0].split(",")
    rows = [",".join(names)]
    for policy, misses in {"fifo": 123_430, "lru": 123_410, "lfu": 123_460, "sieve": 123_410, "belady": 9}.items():
        row = {"policy": policy, "size": "9", "requests": "1000000", "hits": str(10**6 - misses), "misses": str(misses)}
        row |= {"miss_ratio": "0.1", "evictions": "0", "expired": "0", "seconds": "1.0", "unit": "records"}
        row |= {"part": "1/1", "read": "9", "checksum": "7"}
        rows.append(",".join(row.get(name, "") for name in names))
    said = program.call("--merge", program.put("t.csv", "\n".join(rows) + "\n"))[1]
    table = [it.split() for it in said.split("\n\n")[1].splitlines()[2:]]
    assert [it[1] for it in table] == ["0.1234*", "0.1234*", "0.1235", "0.1234*", "0.0000"], said


@case
def columns_line_up(program):
    """A size of any length stands above its ratios."""
    words = ["--policy", "fifo,lru:high=0.5", "--size", "1,10000000000,18446744073709551615", "--quiet"]
    table = program.call(TRACES / "sqlite.keys", *words)[1].split("\n\n")[1].splitlines()[1:]
    ends = [[it.end() for it in re.finditer(r"(?<= )[0-9]+(\.[0-9]{4})?", line)] for line in table]
    assert len(ends) == 3 and len(ends[0]) == 3 and ends[0] == ends[1] == ends[2], table
    assert "16.0 EiB" in program.call(TRACES / "build.csv", "--weigh", "size", *words)[1]


@case
def make(program):
    word = "zipf:ops=50k,keys=1k,skew=1.0,seed=7"
    first, second = program.call("--make", word)[1], program.call("--make", word)[1]
    counts = collections.Counter(map(int, first.split()))
    assert first == second and sum(counts.values()) == 50_000 and max(counts) < 1000
    harmonic = sum(1 / rank for rank in range(1, 1001))
    for rank in (1, 2, 10):
        assert abs(counts[rank - 1] / 50_000 - 1 / rank / harmonic) < 0.01, rank
    assert program.call("--make", word.replace("seed=7", "seed=8"))[1] != first
    flat = collections.Counter(program.call("--make", "zipf:ops=20k,keys=10,skew=0")[1].split())
    assert len(flat) == 10 and min(flat.values()) > 1800
    many = list(map(int, program.call("--make", "zipf:ops=20k,keys=300k,skew=0")[1].split()))
    for below in (2**16, 200_000, 300_000):
        assert abs(sum(it < below for it in many) / 20_000 - below / 300_000) < 0.02, below


@case
def closed_pipe(program):
    """A reader that goes away ends the program quietly."""
    for words in (["--make", "zipf:ops=1M,keys=100"], [TRACES / "sqlite.keys", "--quiet"]):
        with subprocess.Popen([program.path, *map(str, words)], stdout=subprocess.PIPE, stderr=subprocess.PIPE) as ran:
            ran.stdout.close()
            said = ran.stderr.read().decode()
            assert ran.wait(60) == 0 and said == "", (words, said)


@case
def files_that_cannot_be_written(program):
    found = program.call(TRACES / "sqlite.keys", "--policy", "fifo", "--csv", "/nowhere/x.csv", "--quiet")
    assert found[0] == 1 and "/nowhere/x.csv: No such file" in found[2] and found[1] == "", found
    found = program.call(TRACES / "sqlite.keys", "--policy", "fifo", "--csv", "/dev/full", "--quiet")
    assert found[0] == 1 and "/dev/full: No space" in found[2] and "\nfifo " in found[1], found
    with open("/dev/full", "wb") as full:
        words = [program.path, TRACES / "sqlite.keys", "--policy", "fifo", "--quiet"]
        ended = subprocess.run(words, stdout=full, stderr=subprocess.PIPE, check=False)
    assert ended.returncode == 1 and b"cannot write to standard output" in ended.stderr


@case
def traces_are_small(program):
    files = [it for it in TRACES.iterdir() if it.suffix in (".keys", ".csv")]
    assert len(files) == 2 and sum(it.stat().st_size for it in files) < 2_000_000, program.path

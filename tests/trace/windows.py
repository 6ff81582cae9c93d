"""Windows of a trace, what is recommended, and compressed traces."""
import gzip
import os
import random
import re
import shutil
import subprocess
import xml.etree.ElementTree as xml

from common import COUNTED, ROOT, TRACES, case, lines, model, some_keys


@case
def windows_are_parts_of_a_run(program):
    """Each window's ratio is that of its requests in the whole run, for parts that cross the program's own parts."""
    keys = some_keys(150_000, 3000)
    name = program.put("w.keys", lines(keys))
    for count in (2, 3, 7):
        words = [name, "--policy", "fifo,lru:high=1.0,belady,arc", "--size", "90", "--windows", count]
        rows = {it["policy"]: it for it in program.rows(*words)}
        whole = program.hits(*words[:-2])
        ends = [len(keys) * at // count for at in range(count + 1)]
        for policy in ("fifo", "lru"):
            hits = [model(keys[:end], 90, policy == "lru") if end else 0 for end in ends]
            wanted = [1 - (b - a) / (end - start) for a, b, start, end in zip(hits, hits[1:], ends, ends[1:])]
            assert rows[policy]["windows"] == " ".join(f"{it:.6f}" for it in wanted), (count, policy)
        for policy, row in rows.items():
            assert int(row["hits"]) == whole[policy, 90], (count, policy)
            mean = sum(float(it) * (b - a) for it, a, b in zip(row["windows"].split(), ends, ends[1:])) / len(keys)
            assert abs(mean - float(row["miss_ratio"])) < 0.00001, (count, row)


@case
def windows_of_all_kinds_of_requests(program):
    """What windows cut off from the program's own parts keeps its operation, its size and its life."""
    rng = random.Random(6)
    requests = [(at, key, 1 + key % 40) for at, key in enumerate(some_keys(4000, 300))]
    gets = "".join(f"{at},{key},{size},get,{20 + key % 60}\n" for at, key, size in requests)
    what = rng.choices(("get", "set", "delete"), (2, 1, 1), k=len(requests))
    mixed = "".join(f"{at},{key},{size},{op},0\n" for (at, key, size), op in zip(requests, what))
    for text in (gets, mixed):
        words = [program.put("k.csv", text), "--policy", "fifo,lru", "--weigh", "size", "--size", "700"]
        whole = [{it: row[it] for it in COUNTED} for row in program.rows(*words)]
        for count in (2, 7):
            cut = [{it: row[it] for it in COUNTED} for row in program.rows(*words, "--windows", count)]
            assert cut == whole, (count, cut, whole)
        assert (int(whole[0]["expired"]) > 100) == (text is gets), whole
        assert (int(whole[0]["requests"]) < 3000) == (text is mixed), whole


@case
def windows_are_shown(program):
    """A table and a panel for each size; a window without counted gets is a dash."""
    name = program.put("w.keys", lines(some_keys()))
    words = [name, "--policy", "lru,fifo", "--size", "5,50", "--windows", "4", "--warmup", "1000", "--quiet"]
    said = program.call(*words, "--svg", "w.svg", "--html", "w.html")[1]
    title, row = r"miss ratio in each of 4 parts of the trace, with (\d+) records", r"((?:  0\.\d{4}){3})"
    tables = re.findall(rf"{title}\n +1 +2 +3 +4\nlru +-{row}\nfifo", said)
    assert [it[0] for it in tables] == ["5", "50"], said
    rows = program.rows(*words[:-1])
    assert [f"{float(it):.4f}" for it in rows[0]["windows"].split()[1:]] == tables[0][1].split(), (rows[0], tables)
    panels = xml.parse(program.folder / "w.svg").getroot().findall("{*}g")
    assert len(panels) == 3
    for panel in panels[1:]:
        drawn = [it.get("points").split() for it in panel.findall("{*}polyline")]
        assert [len(it) for it in drawn] == [3, 3]
    assert "miss ratio in each of 4 parts of the trace" in (program.folder / "w.html").read_text()
    assert "windows" not in program.call(name, "--policy", "lru", "--size", "5")[1]
    for more in (["--stream"], ["--sample", "0.5"], ["--part", "1/2"]):
        program.fails(2, "--windows wants the whole trace", *words, *more)
    program.fails(2, "--windows must be a number from 1", name, "--windows", "0")
    program.fails(1, "4,001 windows are more than the 4,000 requests", name, "--windows", "4001")


@case
def the_least_size_is_recommended(program):
    """The least size whose miss ratio is wanted, the best policy there, and what twice that size has."""
    name = program.put("part.keys", "".join(open(TRACES / "sqlite.keys", encoding="utf-8").readlines()[:30_000]))
    words = [name, "--policy", "all,belady,arc", "--size", "18,53,176,529", "--quiet"]
    rows = program.rows(*words[:-1])
    for target in ("0.4", "0.2", "14%", "0.9"):
        ratio = float(target.rstrip("%")) / (100 if "%" in target else 1)
        fit = [it for it in rows if it["policy"] not in ("belady", "arc") and float(it["miss_ratio"]) <= ratio]
        best = min(fit, key=lambda it: (int(it["size"]), float(it["miss_ratio"])))
        twice = program.rows(name, "--policy", best["policy"], "--size", 2 * int(best["size"]))[0]
        wanted = f"recommend: {best['policy']} with {int(best['size']):,} records, miss ratio"
        wanted += f" {float(best['miss_ratio']):.4f}; with {2 * int(best['size']):,} records"
        wanted += f" {float(twice['miss_ratio']):.4f}\n"
        assert f"\n\n{wanted}" in program.call(*words, "--target", target)[1], (target, wanted)
    said = program.call(*words, "--target", "0.01")[1]
    least = min((it for it in rows if it["policy"] not in ("belady", "arc")), key=lambda it: float(it["miss_ratio"]))
    assert "recommend: no size here has a miss ratio of 0.01 or less; the least is" in said
    assert f"{float(least['miss_ratio']):.4f}, of {least['policy']} with 529 records" in said, said
    assert "recommend" not in program.call(*words)[1]
    words = [name, "--policy", "fifo", "--sample", "0.5", "--quiet"]
    twice = program.rows(*words[:-1], "--size", "800")[0]
    said = program.call(*words, "--size", "400", "--target", "0.9")[1]
    assert f"; with 800 records {float(twice['miss_ratio']):.4f}\n" in said, (said, twice)
    for word in ("2", "1.5", "-1", "x"):
        program.fails(2, "--target must be a miss ratio" if word != "-1" else "'-1'", name, "--target", word)


@case
def the_curve_recommends_between_sizes(program):
    """With the curve the least size of all is found, and a merge and a stream recommend what they have."""
    name = TRACES / "sqlite.keys"
    said = program.call(name, "--policy", "lru-curve", "--size", "10", "--target", "0.2", "--quiet")[1]
    size, ratio = re.search(r"recommend: lru \(high=1\.0\) with ([\d,]+) records, miss ratio (0\.\d+); with", said).groups()
    size = int(size.replace(",", ""))
    at, below = (program.rows(name, "--policy", "lru:high=1.0", "--size", it)[0] for it in (size, int(size / 1.03) - 1))
    assert f"{float(at['miss_ratio']):.4f}" == ratio and float(at["miss_ratio"]) <= 0.2 < float(below["miss_ratio"]), said
    words = ["--policy", "lru,fifo", "--size", "100,200,900"]
    for more in (["--stream"], []):
        said = program.call(name, *words, *more, "--target", "0.25", "--csv", "m.csv")[1]
        assert "recommend: lru with 200 records" in said, said
    assert "recommend: lru with 200 records" in program.call("--merge", "m.csv", "--target", "0.25")[1]


@case
def compressed_traces(program):
    """The launcher reads all that zstd and gzip wrote, under the name and the format of what they compressed."""
    folder = program.folder / "bin"
    folder.mkdir()
    launcher = folder / "foyer-trace"
    shutil.copy(ROOT / "foyer-trace", launcher)
    (folder / "run").write_text(f'#!/bin/sh\nshift\nexec "{program.path}" "$@"\n')
    (folder / "run").chmod(0o755)

    def call(*words, **how):
        said = subprocess.run([launcher, *map(str, words)], capture_output=True, cwd=program.folder, check=False, **how)
        return said.returncode, said.stdout.decode(), said.stderr.decode()

    keys = lines(some_keys())
    plain, table = program.put("a.keys", keys), program.put("a b.csv", "key\n" + keys)
    words = ["--policy", "lru", "--size", "40", "--quiet"]
    for name in (plain, table):
        data = (program.folder / name).read_bytes()
        (program.folder / f"{name}.gz").write_bytes(gzip.compress(data[:5000]) + gzip.compress(data[5000:]))
        assert call(f"{name}.gz", *words) == call(name, *words) == program.call(name, *words), name
        assert call(*words, "--title", "it", f"./{name}.gz")[1].startswith("it: 4,000 requests")
        if shutil.which("zstd"):
            subprocess.run(["zstd", "-q", name], cwd=program.folder, check=True)
            assert call(f"{name}.zst", *words) == call(name, *words)
    cut = (program.folder / "a.keys.gz").read_bytes()[:-20]
    program.put("cut.keys.gz", cut)
    status, _, said = call("cut.keys.gz", *words)
    assert status == 1 and "foyer-trace: gzip could not read all of cut.keys.gz" in said, said
    assert call("none.keys.gz", *words)[0] == 1
    tools = program.folder / "tools"
    tools.mkdir()
    for it in ("sh", "dirname", "readlink", "cat"):
        os.symlink(shutil.which(it), tools / it)
    status, _, said = call("a.keys.gz", *words, env={"PATH": str(tools)})
    assert status == 1 and "a.keys.gz needs gzip, which is not installed" in said, said
    named = program.call("-", "--name", "dir/x.csv", *words, data=("key\n" + keys).encode())[1]
    assert named.startswith("x.csv: 4,000 requests"), named
    program.fails(2, "--name is for standard input", plain, "--name", "x.csv")

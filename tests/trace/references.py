"""The policies to compare with, and LRU's curve, against naive models: lists, searched from end to end."""
import random
import xml.etree.ElementTree as xml

from common import COUNTED, TRACES, case, keys_of, lines, model, some_keys

REFERENCES = ("arc", "lirs", "2q", "lru-k", "s3fifo-paper")


class Arc:
    """Figure 4 of its paper: T1, T2 and the ghosts B1, B2, each with its least recently used key first."""

    def __init__(self, c):
        self.c, self.p, self.t1, self.t2, self.b1, self.b2 = c, 0.0, [], [], [], []

    def replace(self, x):
        if self.t1 and (len(self.t1) > self.p or (x in self.b2 and len(self.t1) == self.p)):
            self.b1.append(self.t1.pop(0))
        elif self.t2:
            self.b2.append(self.t2.pop(0))

    def touch(self, x):
        if x in self.t1 or x in self.t2:
            (self.t1 if x in self.t1 else self.t2).remove(x)
            self.t2.append(x)
            return True
        if x in self.b1 or x in self.b2:
            one, two = len(self.b1), len(self.b2)
            self.p = min(self.c, self.p + max(two / one, 1)) if x in self.b1 else max(0, self.p - max(one / two, 1))
            self.replace(x)
            (self.b1 if x in self.b1 else self.b2).remove(x)
            self.t2.append(x)
            return False
        if len(self.t1) + len(self.b1) >= self.c:
            if len(self.t1) < self.c:
                self.b1.pop(0)
                self.replace(x)
            else:
                self.t1.pop(0)
        elif len(self.t1) + len(self.t2) + len(self.b1) + len(self.b2) >= self.c:
            if len(self.t1) + len(self.t2) + len(self.b1) + len(self.b2) >= 2 * self.c:
                self.b2.pop(0)
            self.replace(x)
        self.t1.append(x)
        return False

    def remove(self, x):
        for it in (self.t1, self.t2, self.b1, self.b2):
            if x in it:
                it.remove(x)


class TwoQ:
    """The full version: Kin is a quarter of the cache, and Kout a half."""

    def __init__(self, c):
        self.c, self.a1in, self.a1out, self.am = c, [], [], []

    def reclaim(self):
        if len(self.a1in) + len(self.am) < self.c:
            return
        if len(self.a1in) > max(1, self.c // 4) or not self.am:
            self.a1out.append(self.a1in.pop(0))
            if len(self.a1out) > max(1, self.c // 2):
                self.a1out.pop(0)
        else:
            self.am.pop(0)

    def touch(self, x):
        if x in self.am:
            self.am.remove(x)
            self.am.append(x)
        elif x in self.a1in:
            pass
        elif x in self.a1out:
            self.a1out.remove(x)
            self.reclaim()
            self.am.append(x)
            return False
        else:
            self.reclaim()
            self.a1in.append(x)
            return False
        return True

    def remove(self, x):
        for it in (self.a1in, self.a1out, self.am):
            if x in it:
                it.remove(x)


class LruK:
    """K is 2: the key whose use before the last is the oldest goes; one use alone is the oldest of all."""

    def __init__(self, c):
        self.c, self.now, self.uses, self.gone = c, 0, {}, {}

    def touch(self, x):
        self.now += 1
        if x in self.uses:
            self.uses[x] = (self.uses[x][1], self.now)
            return True
        before = self.gone.pop(x, 0)
        if len(self.uses) >= self.c:
            victim = min(self.uses, key=self.uses.get)
            self.gone[victim] = self.uses.pop(victim)[1]
            if len(self.gone) > self.c:
                del self.gone[next(iter(self.gone))]
        self.uses[x] = (before, self.now)
        return False

    def remove(self, x):
        self.uses.pop(x, None)
        self.gone.pop(x, None)


class Lirs:
    """The stack S with its top last, and the queue Q of resident HIR keys, a hundredth of the cache."""

    def __init__(self, c):
        self.hirs = max(1, c // 100)
        self.lirs, self.s, self.q, self.lir = c - self.hirs, [], [], set()

    def to_top(self, x):
        if x in self.s:
            self.s.remove(x)
        self.s.append(x)

    def prune(self):
        while self.s and self.s[0] not in self.lir:
            self.s.pop(0)

    def touch(self, x):
        if x in self.lir:
            self.to_top(x)
            self.prune()
            return True
        found, in_stack = x in self.q, x in self.s
        if not found and not in_stack and len(self.lir) < self.lirs:
            self.lir.add(x)
            self.to_top(x)
            return False
        if not found and len(self.lir) + len(self.q) >= self.lirs + self.hirs:
            self.q.pop(0)
        if found:
            self.q.remove(x)
        self.to_top(x)
        if in_stack and self.lirs:
            self.lir.add(x)
            self.prune()
            if len(self.lir) > self.lirs:
                last = self.s.pop(0)
                self.lir.remove(last)
                self.q.append(last)
        else:
            self.q.append(x)
        self.prune()
        return found

    def remove(self, x):
        self.lir.discard(x)
        for it in (self.s, self.q):
            if x in it:
                it.remove(x)
        self.prune()


class S3FifoPaper:
    """Algorithm 1 of its paper, whose bits are cleared when a key moves to M."""

    def __init__(self, c):
        self.c, self.s, self.m, self.g, self.freq = c, [], [], [], {}

    def touch(self, x):
        if x in self.s or x in self.m:
            self.freq[x] = min(self.freq[x] + 1, 3)
            return True
        while len(self.s) + len(self.m) >= self.c:
            if self.s and len(self.s) >= 0.1 * self.c:
                self.evict_s()
            else:
                self.evict_m()
        if x in self.g:
            self.g.remove(x)
            self.m.append(x)
        else:
            self.s.append(x)
        self.freq[x] = 0
        return False

    def evict_s(self):
        while self.s:
            t = self.s.pop(0)
            if self.freq[t] <= 1:
                self.g = [*self.g, t][-(self.c * 9 // 10) :] if self.c * 9 // 10 else []
                return
            self.freq[t] = 0
            self.m.append(t)
            if len(self.m) > 0.9 * self.c:
                self.evict_m()
                return

    def evict_m(self):
        while self.m:
            t = self.m.pop(0)
            if not self.freq[t]:
                return
            self.freq[t] -= 1
            self.m.append(t)

    def remove(self, x):
        for it in (self.s, self.m, self.g):
            if x in it:
                it.remove(x)


MODELS = dict(zip(REFERENCES, (Arc, Lirs, TwoQ, LruK, S3FifoPaper)))


def hits_of(name, size, requests):
    cache, hits = MODELS[name](size), 0
    for operation, key in requests:
        if operation == "delete":
            cache.remove(key)
        else:
            hits += cache.touch(key) and operation == "get"
    return hits


@case
def references_are_their_models(program):
    """Gets alone, then with puts and removes, at small sizes and at some of hundreds of records."""
    rng = random.Random(11)
    loops = [at % 60 for at in range(1200)] + some_keys(1500, 90, 5)
    pages = keys_of("sqlite.keys", 9000)
    for keys, sizes in ((some_keys(3000, 250), (1, 2, 5, 40)), (loops, (1, 10, 50)), (pages, (10, 90, 250))):
        gets = [("get", key) for key in keys]
        mixed = [(rng.choice(("get",) * 8 + ("set", "delete")), key) for key in keys]
        for requests in (gets, mixed):
            name = program.put("r.csv", "op,key\n" + "".join(f"{operation},{key}\n" for operation, key in requests))
            found = program.hits(name, "--policy", ",".join(REFERENCES), "--size", ",".join(map(str, sizes)))
            wanted = {(it, size): hits_of(it, size, requests) for it in REFERENCES for size in sizes}
            assert found == wanted, {it: (found[it], wanted[it]) for it in wanted if found[it] != wanted[it]}


@case
def references_are_marked(program):
    """In the table, the legend and below; they are no part of all, and take no weights, lives or shards."""
    words = [TRACES / "sqlite.keys", "--size", "50,500", "--quiet"]
    said = program.call(*words, "--policy", "all,arc,2q", "--svg", "r.svg")[1]
    assert "\narc (unproved)  " in said and "\n2q (unproved)   " in said and "\nlru             " in said, said
    assert "unproved rows are those of other policies' papers" in said
    texts = {it.text for it in xml.parse(program.folder / "r.svg").getroot().findall(".//{*}text")}
    assert {"arc (unproved)", "2q (unproved)", "lru"} <= texts, texts
    assert "unproved" not in program.call(*words)[1]
    program.call(*words, "--policy", "arc", "--csv", "a.csv")
    assert "arc (unproved)" in program.call("--merge", "a.csv")[1]
    for why, *more in (
        ("takes records that weigh 1", "--weigh", "size", "--format", "csv"),
        ("knows no lives", "--ttl", "5"),
        ("needs the whole trace", "--stream"),
        ("has no shards", "--shards", "2"),
    ):
        for name in (*REFERENCES, "lru-curve"):
            program.fails(2, f"{name} {why}", *words, "--policy", name, *more)
    program.fails(2, "arc has no parameters", *words, "--policy", "arc:p=1")


@case
def references_behind_a_warmup(program):
    """The warmup ends behind the first of the program's own parts."""
    keys, warm = some_keys(70_000, 250), 67_000
    words = ["--policy", "arc,lru-curve", "--size", "40", "--warmup", warm]
    rows = program.rows("-", *words, data=lines(keys).encode())
    before = hits_of("arc", 40, [("get", key) for key in keys[:warm]])
    assert int(rows[0]["hits"]) == hits_of("arc", 40, [("get", key) for key in keys]) - before, rows
    assert int(rows[1]["hits"]) == model(keys, 40, True) - model(keys[:warm], 40, True), rows


@case
def the_curve_is_the_runs(program):
    """LRU's curve counts at each size what a run counts there: hits, bytes and evictions, with puts and removes."""
    rng = random.Random(4)
    keys = some_keys(6000, 500, 9)
    plain = "key,size\n" + "".join(f"{key},{1 + key % 50}\n" for key in keys)
    what = ("get",) * 6 + ("set", "delete")
    mixed = "op,key,size\n" + "".join(f"{rng.choice(what)},{key},{1 + key % 50}\n" for key in keys)
    sizes = ",".join(map(str, (1, 2, 3, 7, 20, 60, 61, 200, 499, 500, 5000)))
    names = [program.put("p.csv", plain), program.put("m.csv", mixed), TRACES / "sqlite.keys"]
    for name in names:
        for more in ([], ["--warmup", "0.3"], ["--sample", "0.5"], ["--windows", "7"]):
            words = [name, "--size", sizes, *more]
            curve = program.rows(*words, "--policy", "lru-curve")
            runs = program.rows(*words, "--policy", "lru:high=1.0")
            assert len(curve) == len(runs) == 11
            for one, other in zip(curve, runs):
                assert all(one[it] == other[it] for it in (*COUNTED, "size", "miss_ratio", "windows")), (more, one, other)
    assert program.rows(names[1], "--size", "0", "--policy", "lru-curve")[0]["hits"] == curve_of_one(mixed), mixed[:99]


def curve_of_one(text):
    """The hits of a cache of one record, as the cache of size 0 is one."""
    held, hits = None, 0
    for operation, key, _ in (it.split(",") for it in text.splitlines()[1:]):
        hits += operation == "get" and key == held
        held = None if operation == "delete" and key == held else held if operation == "delete" else key
    return str(hits)


@case
def the_curve_is_drawn_whole(program):
    """A picture has the curve at all sizes, whatever sizes are asked for; it falls, and goes through its rows."""
    name = TRACES / "sqlite.keys"
    rows = program.rows(name, "--policy", "lru-curve,fifo", "--size", "50,500", "--svg", "c.svg")
    drawn = xml.parse(program.folder / "c.svg").getroot().findall(".//{*}polyline")
    curve = [tuple(map(float, it.split(","))) for it in drawn[0].get("points").split()]
    assert len(curve) > 150 and len(drawn[1].get("points").split()) == 2, len(curve)
    assert all(a[0] <= b[0] and a[1] <= b[1] for a, b in zip(curve, curve[1:])), curve
    root = xml.parse(program.folder / "c.svg").getroot()
    marks = [it.get("transform") for it in root.iter() if it.get("fill") == "#ffffff"]
    assert len(rows) == 4 and len(marks) == 1 + 4 + 2, marks

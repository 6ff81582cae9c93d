"""Random scripts for `foyer-sim` at sizes that users have, each from its seed.

Numbers are drawn evenly in their logarithm, up to 2^64 - 1, and often beside a power of two. A script has a policy and a
number of shards by its seed, so 40 seeds in a row have each pair; of 800 seeds, 40 have a burst of thousands of records
that a call evicts or a caller holds. What a script may drop or end is what the replies gave, so `foyer-sim` carries it out
while it is written."""
import random
import re
import subprocess

POLICIES = ("fifo", "lru", "lfu", "s3fifo", "sieve")
SHARDS = (1, 2, 16, 17, 64, 65, 100, 1000)
MOST = 2**64 - 1
EDGES = (8, 16, 31, 32, 33, 48, 52, 53, 56, 61, 63, 64)  # numbers beside these powers of two come often
SECOND = 10**9
CHUNK = 50  # lines that are written at once

# How often each kind of line comes, of a script with a part of its own for bulk calls.
KINDS = {"insert": 36, "get": 20, "drop": 10, "touch": 5, "remove": 5, "contains": 4, "phantom": 3, "at": 7, "resize": 4}
KINDS |= {"evict": 2, "clear": 1, "high": 1, "strange": 2, "fetch": 8, "done": 4, "cancel": 2}
# Lines that a mapping without handles, phantoms and fetches knows.
PLAIN = {"insert": 45, "get": 25, "contains": 5, "remove": 8, "at": 9, "resize": 4, "clear": 1, "strange": 1}
STRANGE = ("", "  ", "insert 1", "get x", "clear 1", "steal 1", "insert 1 2 3 4 5", "get 1 ", "  get   2", "get -1")
STRANGE += ("get 18446744073709551616", "get 000000000000000000001", "get 00000000000000000001", "at 99999999999999999999")


class Judge:
    """`foyer-sim`, which carries out lines as they are written."""

    def __init__(self, program, words):
        pipes = {"stdin": subprocess.PIPE, "stdout": subprocess.PIPE, "stderr": subprocess.DEVNULL}
        self.ran = subprocess.Popen([program, *words], **pipes, text=True)

    def replies(self, lines):
        """The replies to these lines; one without words has none. Not more lines than a pipe holds."""
        self.ran.stdin.write("".join(f"{it}\n" for it in lines))
        self.ran.stdin.flush()
        return [self.ran.stdout.readline().rstrip("\n") for it in lines if it.split()]

    def close(self):
        self.ran.stdin.close()
        self.ran.stdout.close()
        self.ran.wait()


class Script:
    """The lines that were written so far, their replies, and what these gave."""

    def __init__(self, judge, is_plain):
        self.judge, self.is_plain = judge, is_plain
        self.lines, self.wanted, self.now = [], [], 0
        self.held, self.given = {}, 0  # the handles that no line dropped, in order, and how many were given
        self.open, self.led = {}, []  # the open fetch of each key, and all fetches with their keys
        self.expiries = {}  # of each key's last record
        # No fetch is open while the time changes, as behind locks it ends at its leader's time; and a plain script removes
        # nothing that has expired, which a mapping doesn't have.
        self.is_fair = True

    def write(self, *lines):
        """Carries lines out. Those of a plain script drop their handles, each at once, or are one alone."""
        replies = iter(self.judge.replies(lines))
        self.lines += lines
        for line in lines:
            if line.split():
                self.wanted.append(next(replies))
                self.note(line.split(), self.wanted[-1].partition(" | ")[0])
        while self.is_plain and self.held:
            self.is_fair &= len(lines) == 1
            self.write(f"drop {min(self.held)}")

    def begin(self, policy):
        if self.is_plain and policy == "lru":
            self.write("high 1 1")  # as the package has it

    def note(self, words, reply):
        """Keeps what a reply gave."""
        given = [int(it) for it in re.findall(r"\bh(\d+)", reply)]
        if words[0] == "drop" and reply == "ok":
            self.held.pop(int(words[1]), None)
        if words[0] == "at" and reply == "ok":
            self.now = int(words[1])
            self.is_fair &= not self.open
        if words[0] == "insert" and given:
            self.expiries[int(words[1])] = int(words[4]) if len(words) > 4 else None
        if words[0] == "remove" and given and self.is_plain:
            self.is_fair &= not self.has_expired(int(words[1]))
        if reply.startswith("lead"):
            self.open[int(words[1])] = int(reply.split()[2][1:])
            self.led.append((int(words[1]), self.open[int(words[1])]))
        elif words[0] in ("insert", "phantom", "done", "cancel") and (given or "=" in reply):
            self.open.pop(int(words[1]), None)
        self.held |= dict.fromkeys(given)
        self.given += len(given)


    def has_expired(self, key):
        expiry = self.expiries.get(key)
        return expiry is not None and expiry <= self.now


def spread(rng, most=MOST):
    """A number up to `most`, evenly drawn in its logarithm, and often beside a power of two."""
    if rng.random() < 0.25:
        found = 2 ** rng.choice([it for it in EDGES if 2**it <= 2 * most] or [0]) + rng.randrange(-2, 3)
    else:
        bits = rng.randrange(most.bit_length() + 1)
        found = rng.getrandbits(bits) | 1 << bits >> 1
    return min(max(found, 0), most)


class Maker:
    """Makes the lines of one script."""

    def __init__(self, seed, is_plain):
        self.rng = rng = random.Random(f"{seed} {is_plain}")
        self.policy, self.shards = POLICIES[seed % 5], SHARDS[seed // 5 % len(SHARDS)]
        self.is_plain, self.is_burst = is_plain, seed // 40 % 20 == 7
        self.is_heavy = rng.random() < 0.5
        self.burst = int(2 ** rng.uniform(11, 12.6)) if self.is_burst else 0
        self.burst //= 4 if self.shards == 1000 else 1  # after each line each shard is asked for its load
        self.capacity = self.capacity_of()
        self.heaviest = max(self.capacity // max(self.shards, self.burst // 2), 1)
        self.keys = self.keys_of(self.burst or int(2 ** rng.uniform(2, 9)))
        self.kinds = PLAIN if is_plain else KINDS
        self.moments = self.moments_of()

    def words(self):
        return [self.policy, str(self.capacity), str(self.shards)]

    def capacity_of(self):
        """Mostly one that some records fill."""
        if self.is_heavy or self.rng.random() < 0.1:
            return max(spread(self.rng), self.rng.randrange(3))
        return int(2 ** self.rng.uniform(0, 9 if not self.burst else 14)) * self.rng.choice((1, 1, self.shards)) - 1

    def keys_of(self, count):
        """Keys in a row, those that differ above bit 32 alone, those of one shard or of few, or any."""
        first, step = spread(self.rng), self.rng.choice((1, 2**32, 2**32, 2**33 + 2**40, 2**48, self.shards, self.shards * 2**32))
        if self.rng.random() < 0.2:
            return [*{spread(self.rng) for _ in range(count)}]
        return [*{(first + at * step) % 2**64 for at in range(count)}]

    def moments_of(self):
        """Those at which records expire and to which the time is set, so that these meet. Of a plain script they are whole
        seconds apart, as a float has lives exactly."""
        if not self.is_plain:
            return sorted(spread(self.rng) for _ in range(5))
        first = spread(self.rng, MOST - 5 * SECOND**2)
        return sorted(first + SECOND * spread(self.rng, 4 * SECOND) for _ in range(5))

    def weight(self):
        if not self.is_heavy:
            return self.rng.choice((0, 1, 1, 1, 2, 3, 5))
        if self.rng.random() < 0.1:
            return spread(self.rng)
        return min(int(self.heaviest * 2 ** self.rng.uniform(-6, 1)), MOST)

    def expiry(self, now):
        """One that has passed or is to come; of a plain script whole seconds away."""
        if not self.is_plain:
            return self.rng.choice(self.moments) if self.rng.random() < 0.8 else spread(self.rng)
        later = [it for it in self.moments if it > now and (it - now) % SECOND == 0 and it - now < 4 * SECOND**2]
        if later and self.rng.random() < 0.8:
            return self.rng.choice(later)
        return now + SECOND * max(spread(self.rng, min((MOST - now) // SECOND, 4 * SECOND)), 1)

    def insert(self, key, now, verb="insert"):
        value, chance = spread(self.rng), self.rng.random()
        if chance < 0.4 and not self.is_heavy:
            return f"{verb} {key} {value}"
        if chance < 0.75 or verb != "insert" or now > MOST - 2 * SECOND:
            return f"{verb} {key} {value} {self.weight()}"
        return f"{verb} {key} {value} {self.weight()} {self.expiry(now)}"

    def fetch(self, script, key):
        """A key and the number of a fetch: mostly an open one."""
        if script.open and self.rng.random() < 0.8:
            key = self.rng.choice([*script.open])
            return f"{key} {script.open[key]}"
        key, number = self.rng.choice(script.led) if script.led else (key, spread(self.rng))
        return f"{key} {number}"

    def line(self, script):
        rng, kind = self.rng, self.rng.choices([*self.kinds], [*self.kinds.values()])[0]
        key = rng.choice(self.keys) if rng.random() < 0.98 else spread(rng)
        if kind in ("insert", "phantom"):
            return self.insert(key, script.now, kind)
        if kind == "drop":
            return f"drop {rng.choice([*script.held]) if script.held and rng.random() < 0.95 else spread(rng)}"
        if kind == "at":
            near = max(rng.choice(self.moments) - rng.choice((0, 0, 1)), 0)
            return f"contains {key}" if script.open else f"at {near if rng.random() < 0.8 else spread(rng)}"
        if kind == "resize":
            return f"resize {self.capacity if rng.random() < 0.5 else int(self.capacity * rng.random()) if rng.random() < 0.7 else spread(rng)}"
        if kind in ("done", "cancel"):
            return f"{kind} {self.fetch(script, key)}{f' {spread(rng)}' if kind == 'done' else ''}"
        if kind == "high":
            return f"high {rng.choice((0, 1, 9, 2**32 - 1, 2**32))} {rng.choice((0, 1, 10, 2**32 - 1))}"
        if kind == "strange":
            return rng.choice(STRANGE)
        if kind == "remove" and self.is_plain and script.has_expired(key):
            kind = "contains"
        return kind if kind in ("evict", "clear") else f"{kind} {key}"

    def some(self, script, count):
        for _ in range(count):
            script.write(self.line(script))

    def thousands(self, script):
        """Thousands of records, of which some are held, while one call or two take them out."""
        rng, keeps = self.rng, not self.is_plain and self.rng.random() < 0.5
        room = rng.choice((self.capacity, MOST))
        script.write(f"resize {room}")
        for at in range(0, len(self.keys), CHUNK):
            lines = [self.insert(it, script.now) for it in self.keys[at : at + CHUNK]]
            if not keeps:
                lines = [it for at, line in enumerate(lines) for it in (line, f"drop {script.given + at}")]
            script.write(*lines)
        for at in range(0, len(self.keys) // 2 if keeps else 0, CHUNK):
            script.write(*(f"get {it}" for it in self.keys[at : at + CHUNK]))
        self.some(script, 50)
        calls = ["clear", "resize 0", f"resize {room // 50}", f"insert {self.keys[0]} 1 {room}"]
        calls += [] if self.is_plain else ["evict", f"at {spread(rng)}"]
        for it in rng.sample(calls, 3):
            if not (script.open and it.startswith("at")):
                script.write(it)
            self.some(script, 10)
        last = rng.sample([*script.held], len(script.held) // 2)
        for at in range(0, len(last), CHUNK):
            script.write(*(f"drop {it}" for it in last[at : at + CHUNK]))


def made(program, seed, is_plain):
    """The words and the lines of a seed's script, and what `foyer-sim` replies."""
    maker = Maker(seed, is_plain)
    judge = Judge(program, maker.words())
    script = Script(judge, is_plain)
    script.begin(maker.policy)
    maker.some(script, int(2 ** maker.rng.uniform(3, 8)))
    if maker.is_burst:
        maker.thousands(script)
        maker.some(script, 30)
    judge.close()
    return maker.words(), script


def replayed(program, words, lines, is_plain):
    """The script of these lines. A plain one gets drops of its own for those that it had."""
    judge = Judge(program, words)
    script = Script(judge, is_plain)
    script.begin(words[0])
    for it in lines[len(script.lines) :]:
        if not (is_plain and it.split()[:1] == ["drop"]):
            script.write(it)
    judge.close()
    return script

#!/usr/bin/env python3
"""make.py ORACLE

Makes the stored scripts of this folder anew, with the answers of the program ORACLE, which is called as
`ORACLE POLICY CAPACITY SHARDS` with a script on its standard input. README.md says which program that is.

Each script is a file `POLICY-CAPACITY-SHARDS-NUMBER.in` of lines as `foyer-sim` reads them; what ORACLE
writes for it stands in the file of the same name that ends in `.out`. The scripts are random, from seeds
that are their numbers, so they come out the same each time. The last ones have lines of fetches too.
"""
import pathlib
import random
import subprocess
import sys

FOLDER = pathlib.Path(__file__).resolve().parent
POLICIES = ("fifo", "lru", "lfu", "s3fifo", "sieve")
LINES = 48

# How often each kind of line comes, of one hundred.
KINDS = {
    "insert": 38,
    "get": 26,
    "drop": 10,
    "touch": 6,
    "remove": 5,
    "contains": 4,
    "phantom": 4,
    "resize": 2,
    "evict": 2,
    "clear": 1,
    "strange": 2,
}
# The same of scripts with fetches.
KINDS_WITH_FETCHES = {
    **KINDS,
    "insert": 13,
    "get": 7,
    "fetch": 26,
    "done": 12,
    "cancel": 6,
}
# How many scripts there are for each policy, of which kinds of lines, and in how many parts each is made.
SETS = ((12, KINDS, 4), (4, KINDS_WITH_FETCHES, 24))
STRANGE = ("", "  ", "insert 1", "get x", "clear 1", "steal 1", "get 18446744073709551616", "insert 1 2 3 4 5")


def answers(oracle, policy, capacity, shards, lines):
    """What the oracle writes for these lines."""
    text = "".join(line + "\n" for line in lines)
    words = [oracle, policy, str(capacity), str(shards)]
    return subprocess.run(words, input=text, capture_output=True, text=True, check=True).stdout


def exchanges(lines, replies):
    """The words of each line that was answered, with those of its answer."""
    spoken = [line.split() for line in lines if line.split()]
    return zip(spoken, (reply.split(" | ")[0].split() for reply in replies.splitlines()))


def held_handles(lines, replies):
    """The numbers of the handles that the replies gave and no line dropped."""
    held = set()
    for line, answer in exchanges(lines, replies):
        given = [word.split("=")[-1] for word in answer]
        held.update(int(word[1:]) for word in given if word[0] == "h" and word[1:].isdigit())
        if line[0] == "drop" and answer == ["ok"]:
            held.discard(int(line[1]))
    return sorted(held)


def led_fetches(lines, replies):
    """The numbers of the fetches of each key, in order. The keys whose fetch is open come last."""
    led = {}
    for line, answer in exchanges(lines, replies):
        if answer[0] == "lead":
            led[int(line[1])] = [*led.pop(int(line[1]), []), int(answer[2][1:])]
        elif any("=" in word for word in answer):
            led = {int(line[1]): led.pop(int(line[1])), **led}
    return led


def fetch_of(rng, key, led):
    """A key and the number of a fetch: half of the time the last one of the key, else an older one or none."""
    if not led:
        return f"{key} {rng.randrange(3)}"
    key = rng.choice(list(led)[-3:])
    last = led[key][-1]
    return f"{key} {last if rng.random() < 0.5 else rng.choice(led[key][:-1] or (last + 1,))}"


def line_of(rng, kind, held, led, keys, heavy, capacity):
    """A line of this kind."""
    key = rng.randrange(keys)
    if kind == "drop":
        return f"drop {rng.choice(held) if held and rng.random() < 0.9 else rng.randrange(60)}"
    if kind in ("insert", "phantom"):
        weight = f" {rng.choice((0, 1, 1, 2, 3, 5))}" if heavy else ""
        return f"{kind} {key} {rng.randrange(100)}{weight}"
    if kind == "resize":
        return f"resize {rng.randrange(2 * capacity + 1)}"
    if kind == "strange":
        return rng.choice(STRANGE)
    if kind in ("evict", "clear"):
        return kind
    if kind == "done":
        return f"done {fetch_of(rng, key, led)} {rng.randrange(100)}"
    if kind == "cancel":
        return f"cancel {fetch_of(rng, key, led)}"
    return f"{kind} {key}"


def script(oracle, number, policy, capacity, shards, kinds, parts):
    """The lines of a script. What a part of it may drop or end is what the parts before it hold or began."""
    rng = random.Random(number)
    keys = rng.choice((4, 8, 16))
    heavy = rng.random() < 0.4
    picked = rng.choices(list(kinds), list(kinds.values()), k=LINES)
    lines = []
    for kind in picked:
        if len(lines) % (LINES // parts) == 0:
            replies = answers(oracle, policy, capacity, shards, lines)
            held = held_handles(lines, replies)
            led = led_fetches(lines, replies)
        lines.append(line_of(rng, kind, held, led, keys, heavy, capacity))
    return lines


def sets():
    """The policy, the kinds of lines and the number of parts of each script, in order."""
    for count, kinds, parts in SETS:
        for _ in range(count):
            for policy in POLICIES:
                yield policy, kinds, parts


def main():
    if len(sys.argv) != 2:
        sys.exit("usage: make.py ORACLE")
    oracle = sys.argv[1]
    for old in (*FOLDER.glob("*.in"), *FOLDER.glob("*.out")):
        old.unlink()
    for number, (policy, kinds, parts) in enumerate(sets()):
        rng = random.Random(1000 + number)
        capacity = rng.choice((0, 1, 2, 3, 5, 8, 20))
        shards = rng.choice((1, 1, 2, 4))
        lines = script(oracle, number, policy, capacity, shards, kinds, parts)
        name = f"{policy}-{capacity}-{shards}-{number:02}"
        (FOLDER / f"{name}.in").write_text("".join(line + "\n" for line in lines))
        (FOLDER / f"{name}.out").write_text(answers(oracle, policy, capacity, shards, lines))


if __name__ == "__main__":
    main()

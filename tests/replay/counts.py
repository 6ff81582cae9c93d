"""What `--stats` prints at the end of a script, as counted from its lines and the replies to them."""
NAMES = "hits misses inserts evictions expired replaced removed cleared fetches waits refused".split()
EVENTS = {"evict": "evictions", "replace": "replaced", "remove": "removed", "clear": "cleared"}
LOOK_UPS = {"yes": ["hits"], "no": ["misses"], "none": ["misses"], "lead": ["misses", "fetches"], "wait": ["misses", "waits"]}


def of_answer(words, answer):
    """The counts that a command's answer adds to."""
    verb, first = words[0], answer.split()[0] if answer else ""
    if verb in ("get", "touch", "fetch"):
        return [] if first.startswith("F") else LOOK_UPS.get(first, ["hits"])
    if verb in ("insert", "phantom"):
        return ["refused"] if first.startswith("F") else ["inserts"][: verb == "insert"]
    if verb == "done" and first != "lost":
        return ["refused"] if "=F" in first else ["inserts"]
    return []


def counts(script, replies):
    """The lines that a script's counts are, of its text and that of its replies."""
    found, expiries, now = dict.fromkeys(NAMES, 0), {}, 0
    lines = [it.split() for it in script.splitlines() if it.split()]
    for words, reply in zip(lines, replies.splitlines()):
        if reply.startswith("bad line"):
            continue
        answer, leaves, _ = reply.split(" | ")
        verb, key = words[0], words[1] if len(words) > 1 else None
        if verb == "at":
            now = int(key)
        for name in of_answer(words, answer):
            found[name] += 1
        left = [] if leaves == "-" else [it.split() for it in leaves.split(", ")]
        if verb == "phantom" and left and left[-1] == ["remove", f"{int(key)}={int(words[2])}"]:
            left.pop()  # its own
        for event, pair in left if verb != "drop" else []:  # at a drop a phantom leaves
            expires = expiries.pop(pair.partition("=")[0], None)
            found[EVENTS[event]] += 1
            found["expired"] += event == "evict" and expires is not None and expires <= now
        if (verb, answer[:1]) == ("insert", "h"):
            expiries[str(int(key))] = int(words[4]) if len(words) > 4 else None
    return "".join(f"{name} {found[name]}\n" for name in NAMES)

"""What the proof of a crate can see of the crates below it.

That is all of their specs/, the lemmas in their proofs/ that it names, itself or through others, and of their src/ all
but comments and the bodies of functions. Where it is in doubt where a body is, or whether it can be seen (of a constant
function, a macro, an opaque type, or one with items in it), the text stays in."""
import functools
import re

import common
from common import files_below, folder_of, read

# The tokens that decide where a comment or a string begins and ends.
TOKEN = re.compile(
    r"""//[^\n]*|/\*|[bc]?r(\#*)".*?"\1|[bc]?"(?:[^"\\]|\\.)*"|'(?=\\)(?:[^'\\\n]|\\[^\n])*'|'[^\n\\]'|'\w+|r\#\w+|\w+|\s+|.""",
    re.S,
)
OPENS, CLOSES = {"(", "[", "{"}, {")", "]", "}"}
# What a block stands behind that is a clause, and no body.
CLAUSES = {"requires", "ensures", "writes_back"}
# What may stand behind a function's body.
BEHIND = {"pub", "fn", "#", "}", "impl", "ghost", "const", "unsafe", "struct", "type", "trait", "static", "enum", "use", "mod"}
BEHIND |= {"extern", "final", None}
# What in a body can be seen outside of it, as an impl in a function can.
ITEMS = {"impl", "struct", "enum", "trait", "macro_rules", "ghost", "unsafe", "mod"}
LEMMAS = re.compile(r"\b(\w+)\.proofs\.([A-Z][\w-]*)")


def tokens_of(text):
    """The tokens of a source file, without comments and spaces."""
    found, at = [], 0
    while at < len(text):
        token = TOKEN.match(text, at)[0]
        at += len(token)
        if token == "/*":  # they nest
            depth = 1
            while depth and at < len(text):
                it = re.compile(r"/\*|\*/|.", re.S).match(text, at)[0]
                depth += (it == "/*") - (it == "*/")
                at += len(it)
        elif not token.startswith("//") and not token.isspace():
            found.append(token)
    return found


def end_of(tokens, at):
    """Where the group that opens at a place has ended."""
    depth = 0
    while at < len(tokens):
        depth += (tokens[at] in OPENS) - (tokens[at] in CLOSES)
        at += 1
        if not depth:
            break
    return at


def body_of(tokens, at):
    """From where to where the body stands of the function whose `fn` is at a place, or None."""
    head = tokens[max(at - 4, 0) : at]
    begins = at
    while at < len(tokens) and tokens[at] not in ("{", ";", "}"):
        at = end_of(tokens, at) if tokens[at] in OPENS else at + 1
        if at < len(tokens) and tokens[at] == "{" and {tokens[at - 1], tokens[at - 2]} & CLAUSES:
            at = end_of(tokens, at)
    if at >= len(tokens) or tokens[at] != "{":
        return None
    ends = end_of(tokens, at)
    behind = tokens[ends] if ends < len(tokens) else None
    is_seen = "const" in head or "impl" in tokens[begins:at] or {*tokens[at:ends]} & ITEMS or behind not in BEHIND
    return None if is_seen else (at, ends)


@functools.cache
def surface(text):
    """A source file's tokens without comments and the bodies of functions."""
    tokens, left, at = tokens_of(text), [], 0
    while at < len(tokens):
        if tokens[at] == "!" and tokens[at - 1] != "#" and tokens[at + 1 : at + 2] != ["="]:  # a macro's call, or its rules
            opens = next((it for it in range(at + 1, min(at + 3, len(tokens))) if tokens[it] in OPENS), None)
            ends = end_of(tokens, opens) if opens else at + 1
            left += tokens[at:ends]
            at = ends
            continue
        body = body_of(tokens, at) if tokens[at] == "fn" and re.match(r"\w", tokens[at + 1]) else None
        if body:
            left += [*tokens[at : body[0]], "{}"]
            at = body[1]
        else:
            left.append(tokens[at])
            at += 1
    return " ".join(left)


def lemmas_of(name):
    """The files of lemmas below that a crate's proof names, itself or through others."""
    below = common.below(name)
    texts = [read(it) for part in ("specs", "proofs", "src") for it in files_below(f"{folder_of(name)}/{part}")]
    texts += [read(file) for it in below for file in files_below(f"{folder_of(it)}/specs")]
    found, asked = {}, set()
    for text in texts:  # grows as it goes
        for crate, lemmas in {*LEMMAS.findall(text)} - asked:
            asked.add((crate, lemmas))
            if crate in below:
                place = f"{folder_of(crate)}/proofs/{lemmas}"
                new = {it: read(it) for it in [f"{place}.antt", *files_below(place)]}
                texts += new.values()
                found |= new
    return found


def of_below(name):
    """What the crate's proof can see of the crates below it, as texts in an order that is always the same."""
    found = [common.ALL_USES[it] for it in common.below(name)]
    for it in common.below(name):
        found += [(path[len(common.ROOT) :], read(path)) for path in files_below(f"{folder_of(it)}/specs")]
        found += [(path[len(common.ROOT) :], surface(read(path))) for path in files_below(f"{folder_of(it)}/src")]
    return found + [(path[len(common.ROOT) :], text) for path, text in sorted(lemmas_of(name).items())]

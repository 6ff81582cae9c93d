"""The tokens of Rattle and of Rust, without ghost code: what the prover alone reads is skipped here."""
import re
from typing import NamedTuple


class Refused(Exception):
    """A form that no rule knows."""


class Token(NamedTuple):
    """A token, with the blanks and comments before it; its kind is one of str, char, life, id, num, p."""

    kind: str
    text: str
    lead: str = ""
    line: int = 0


PATTERNS = [
    ("blank", r"\s+"),
    ("comment", r"//[^\n]*|/\*.*?\*/"),
    ("str", r'b?r(?P<hashes>#*)".*?"(?P=hashes)|[bc]?"(?:[^"\\]|\\.)*"'),
    ("char", r"b?'(?:[^'\\]|\\(?:u\{[^}]*\}|x..|.))'"),
    ("life", r"'[A-Za-z_]\w*"),
    ("num", r"\d(?:\w|\.(?=\d))*"),
    ("id", r"(?:r#)?[A-Za-z_]\w*|«\w+»"),
    ("p", r"::|->|=>|\.\.|[!#$%&()*+,./:;<=>?@\[\]^{|}~\-]"),
]
TOKEN = re.compile("|".join(f"(?P<{kind}>{pattern})" for kind, pattern in PATTERNS), re.DOTALL | re.ASCII)
CLAUSE = re.compile(r"\*?\s*[\w«»-]*\s*(?=\{)")
BY = re.compile(r"\s*by\s*(?=\{)")
# What stays before an erased item: all up to a blank line or to a comment on the file, or one on the line before.
STAYS = re.compile(r".*(?:\n[ \t]*\n\s*|//![^\n]*)|[ \t]*//[^\n]*", re.DOTALL)
PAIRS = {"{": "}", "(": ")", "[": "]", "<": ">"}


def after_braces(text, at):
    """The index after the partner of the brace at `at`, in a prover's text."""
    depth = 0
    while at < len(text):
        if text[at] == '"':
            at = text.index('"', at + 1)
        depth += {"{": 1, "}": -1}.get(text[at], 0)
        at += 1
        if depth == 0:
            return at
    raise Refused("a brace of ghost code isn't closed")


def after_ghost(text, at):
    """The index after a ghost item: after its `;` or `,`, or before the `}` that ends its block."""
    while at < len(text):
        if text[at] == "{":
            at = after_braces(text, at)
        elif text[at] in ";,":
            return at + 1
        elif text[at] == "}":
            return at
        else:
            at += 1
    raise Refused("a ghost item isn't closed")


def after_clause(text, at):
    """The index after the name and braces of a `requires` or an `ensures`."""
    found = CLAUSE.match(text, at)
    if not found:
        raise Refused(f"a clause without braces: {text[at:at + 40]!r}")
    at = after_braces(text, found.end())
    found = BY.match(text, at)
    return after_braces(text, found.end()) if found else at


def without_item(tokens, lead):
    """Drops an item's visibility, and returns what stays of the blanks, comments and docs before it."""
    if tokens and tokens[-1].text == "pub":
        lead = tokens.pop().lead
    elif len(tokens) > 3 and tokens[-1].text == ")" and tokens[-4].text == "pub":
        lead = tokens[-4].lead
        del tokens[-4:]
    stays = STAYS.match(lead)
    return stays[0] if stays else ""


def lex(text, path="", line=1):
    """The tokens of a file of Rattle, without ghost items and clauses; the last one is the file's end."""
    tokens, at, lead = [], 0, ""
    try:
        while at < len(text):
            found = TOKEN.match(text, at)
            if not found:
                raise Refused(f"the character {text[at]!r}")
            word, kind, end = found.group(), found.lastgroup, found.end()
            if word == "ghost":
                end, lead = after_ghost(text, at), without_item(tokens, lead)
            elif word in ("requires", "ensures"):
                end, lead = after_clause(text, end), "\n"
            elif kind in ("blank", "comment"):
                lead += word
            else:
                tokens.append(Token("str" if kind == "hashes" else kind, word.strip("«»"), lead, line))
                lead = ""
            line += text.count("\n", at, end)
            at = end
    except Refused as refused:
        raise Refused(f"{path}:{line}: {refused}") from None
    return [*tokens, Token("p", "", lead, line)]


def find(tokens, at, *texts):
    """The index of the first token from `at` on that is one of these."""
    found = next((i for i in range(at, len(tokens)) if tokens[i].text in texts), None)
    if found is None:
        raise Refused(f"{tokens[at].line}: no {' or '.join(texts)} follows")
    return found


def closing(tokens, at):
    """The index of the partner of the bracket at `at`."""
    opens, closes, depth = tokens[at].text, PAIRS[tokens[at].text], 0
    for i in range(at, len(tokens)):
        if tokens[i].kind == "p":
            depth += {opens: 1, closes: -1}.get(tokens[i].text, 0)
        if depth == 0:
            return i
    raise Refused(f"{tokens[at].line}: {opens} isn't closed")


def put(tokens, start, end, text):
    """Puts the tokens of a text in the place of some, after what stood before these, and returns how many there are."""
    new = [it._replace(line=tokens[start].line) for it in lex(text)[:-1]]
    if start < end:
        new[0] = new[0]._replace(lead=tokens[start].lead)
    tokens[start:end] = new
    return len(new)


def text_of(tokens):
    return "".join(it.lead + it.text for it in tokens)

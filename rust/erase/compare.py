#!/usr/bin/env python3
"""compare.py [CRATE..]: a second look at what erase.py writes, which shares no code with its rules.

It reads both texts by a tokenizer of its own. From the source it takes what is ghost, from both what TABLES lists, and then
they have to be equal, token by token. So whatever is dropped, added or changed stands in TABLES. The comments of the output
have to be among those of the source, in order. The last line is 'N passed, M failed'."""
import re
import sys

sys.dont_write_bytecode = True
import erase

WORDS = re.compile(
    r"""//[^\n]*|/\*.*?\*/|b?r(?P<h>\#*)".*?"(?P=h)|[bc]?"(?:[^"\\]|\\.)*"|b?'(?:[^'\\]|\\(?:u\{[^}]*\}|x..|.))'|'\w+|\w+|«\w+»|\S""",
    re.DOTALL | re.VERBOSE)
BODY = r"(\{(?:[^{}]|\{(?:[^{}]|\{(?:[^{}]|\{(?:[^{}]|\{[^{}]*\})*\})*\})*\})*\})"  # braces, five deep
COPIED = "impl(?: <[^{;]*?>)? Copy for (\\w+)"
HANDLE = r"&? ?\w+(?: \. \w+)*"
# What goes from the source, and what is put for it.
SOURCE = [
    (r"# !? ?\[ (tactic|cycle)\b[^]]*\]", ""),
    (r"# \[ error \( \"[^\"]*\" \) \]", ""),
    (r"(?<=derive)( \([^)]*)", lambda it: re.sub(r"\b(Drop|Serialize|Deserialize|ThisError)\b ?,?", "", it[0])),
    (r"# \[ derive \( \) \]", ""),
    (r"(\( Clone ,? ?)(PartialEq \) \] pub (?:struct|enum) (?:Answer|Reply)\b)", r"( \2"),
    (rf"impl(?: <[^{{]*?>)? Model for [^{{]*{BODY}", ""),
    (r"impl(?: <[^{]*?>)? Drop for [^{]*\{ fn drop \( self \) \{ let \w+ (?:[({] (?:(?:\w+ : )?_ ,? ?)*[)}] )?= self ; \} \}", ""),
    (r"fn drop \( mut self \)", "fn drop ( self )"),
    (r" \+ Drop\b|\bDrop \+ ", ""),
    (r"\b(println|eprintln|print|eprint|assert|assert_eq|assert_ne|panic) ! \( " + HANDLE + " ;", r"\1 ! ("),
    (r"\b(format|vec) ! ([(\[]) in [^;]*;", r"\1 ! \2"),
    (r"\b(expect|expect_err) \( &? ?(?:self \. )?rt ,", r"\1 ("),
    (r"\bfmt < \w+ : fmt : : Write >", "fmt"),
    (r"\bFormatter < \w+ >", "Formatter < '_ >"),
    (r"use std : : marker : : Model ;|\bModel , |use thiserror : : Error as ThisError ;", ""),
    (r"(# \[ test \] fn \w+ \()[^)]*HostRuntime ,? ?\)", r"\1 )"),
    (r"(?<!: : )\b(std|crate) : : ", ""),
    (r"\bpub \( super \)", "pub ( crate )"),
]
# What goes from the output, and what is put for it. OWN is the crate, as its modules are named.
OUTPUT = [
    (r"use (crate : : )?rattle_std : : prelude : : \* ;|# \[ allow \( unused_imports \) \]", ""),
    (r"impl : : std : : fmt : : Display for \w+ " + BODY + r" ?impl : : std : : error : : Error for \w+ \{ \}", ""),
    (r"fn drop \( & mut self \)", "fn drop ( self )"),
    (r"let (\w+) = (\* \1|\1 \. take \( \)|unsafe \{ : : std : : mem : : ManuallyDrop : : take \( \1 \) \}) ;", ""),
    (r": : std : : mem : : ManuallyDrop < (\w+ < [^<>]*(?:< [^<>]*> ?[^<>]*)?>) >", r"\1"),
    (r"(\w+ : )?: : std : : mem : : ManuallyDrop : : new \( ((?:[^()]|\((?:[^()]|\([^()]*\))*\))*) \)", lambda it: it[2] if it[1] == it[2] + " : " else (it[1] or "") + it[2]),
    (r": Sized \+", ":"),
    (r" : Sized\b", ""),
    (r"let rt : HostRuntime = HostRuntime ;", ""),
    (r"fn main \( \) - > [^{]*\{ rattle_main \( HostRuntime \) \} fn rattle_main", "fn main"),
    (r"(?:crate : : )?\brattle_std : : (?:macros : : )?", ""),
    (r"(?:crate|luffapricot) : : proved : : (?:OWN : : )?", ""),
    (r"(?<!: : )\bcrate : : ", ""),
    (r"\bTryClone\b", "Clone"),
    (r"\b(collect|to_vec|to_string|to_owned|try_collect)_with\b", r"\1"),
    (r"\b(expect|expect_err)_at\b", r"\1"),
    (r"\bdebug_assert(_eq|_ne)? !", r"prove\1 !"),
]
# What goes from both.
BOTH = [
    (r"# \[ inline \]", ""),
    (r"& (listener|drops|fetch|rt)\b", r"\1"),
    (r"\b(\w+) : \1 (?=[,}])", r"\1 "),
    (r"\bwhere ((?:[^{;])*?)(?=[{;])", lambda it: predicates(it[1])),
    (r"< ((?:[^<>;{}]|<[^<>;{}]*>)*?) : Drop ", r"< \1 "),
    (r", (?=[>)\]}])", ""),
    (r": Drop (?=[,>{;=])", ""),
    (r"\btry_clone\b", "clone"),
]


def predicates(text):
    """A `where` without bounds that are `Drop` alone."""
    kept = [it.strip() for it in re.split(r",(?![^<(]*[>)])", text) if it.strip() and not it.strip().endswith(": Drop")]
    return f"where {' , '.join(kept)} " if kept else ""


def without_ghost(words):
    """The source's words without ghost items and clauses."""
    found, at = [], 0
    while at < len(words):
        if words[at] not in ("ghost", "requires", "ensures"):
            found.append(words[at])
            at += 1
            continue
        is_item, depth = words[at] == "ghost", 0
        if is_item:
            while found and found[-1] in ("pub", "(", ")", "crate", "super") and "pub" in found[-4:]:
                if found.pop() == "pub":
                    break
        while True:
            depth += {"{": 1, "}": -1}.get(words[at], 0)
            if depth < 0:
                break
            at += 1
            if depth == 0 and (words[at - 1] in (";", ",") if is_item else words[at - 1] == "}" and words[at] != "by"):
                break
    return found


def put_for(text, rules):
    for pattern, to in rules:
        text = re.sub(pattern, to, text, flags=re.DOTALL)
        text = re.sub(r" +", " ", text)
    return text.strip()


def comments(words):
    return [it for it in words if it.startswith(("//", "/*"))]


def read(text):
    words = [it[0].strip("«»") for it in WORDS.finditer(text)]
    return [it for it in words if not it.startswith(("//", "/*"))], comments(words)


def why_differs(crate, source, output, copied):
    """Where the two texts differ, or None."""
    (one, of_source), (other, of_output) = read(source), read(output)
    wanted = put_for(" ".join(without_ghost(one)), SOURCE)
    got = put_for(" ".join(other), [(it[0].replace("OWN", crate), it[1]) for it in OUTPUT])
    clones = [(rf"impl(?: <[^{{;]*?>)? Clone for {it}\b[^{{]*{BODY}", "") for it in copied]
    wanted, got = (put_for(it, clones + BOTH).split() for it in (wanted, got))
    if wanted != got:
        at = next((i for i, (a, b) in enumerate(zip(wanted, got)) if a != b), min(len(wanted), len(got)))
        return f"\n    source {' '.join(wanted[max(at - 8, 0):at + 12])}\n    output {' '.join(got[max(at - 8, 0):at + 12])}"
    rest = iter(of_source)
    lost = next((it for it in of_output if not it.startswith("// Written by") and it not in rest), None)
    return lost and f"the comment {lost}"


def main():
    passed = failed = 0
    for crate in sys.argv[1:] or erase.SHIPPED:
        target, sources = erase.Target(crate, crate not in erase.SHIPPED), erase.sources_of(crate)
        copied = sorted({it for text in sources.values() for it in re.findall(COPIED, " ".join(read(text)[0]))})
        for path, output in target.files().items():
            why = why_differs(crate, sources[path[:-3] + ".rt"], output, copied)
            passed, failed = passed + (not why), failed + bool(why)
            if why:
                print(f"{crate}/src/{path}: {why}")
    print(f"{passed} passed, {failed} failed")
    return 1 if failed or not passed else 0


if __name__ == "__main__":
    sys.exit(main())

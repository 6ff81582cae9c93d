#!/usr/bin/env python3
"""Checks that safe code of a user's reaches no function that asks something of its caller, and that what must not compile doesn't.

Each public function with `requires` in the crates that luffapricot is made of is tried by its path, and each snippet of
refused.rs is compiled alone: rustc has to refuse all, with the error that is named.
"""
import json, os, re, subprocess, sys, tempfile

HERE = os.path.dirname(os.path.abspath(__file__))
RUST = os.path.dirname(os.path.dirname(os.path.dirname(HERE)) + "/")
RUST = os.path.abspath(os.path.join(HERE, "..", "..", ".."))
CRATES = os.path.join(os.path.dirname(RUST), "crates")
ERASED = ["foyer_policy", "foyer_core", "foyer_raw", "foyer_memory"]
# So many there are at least: a list that shrinks by a fault of this script tells.
LEAST = 90


def headers(text):
    """Yields each public function's place, name and header."""
    for found in re.finditer(r"^[ \t]*pub (?:const )?fn (\w+)", text, re.M):
        rest = text[found.start():]
        end = re.search(r"\n[ \t]*\{[ \t]*\n|\{\n", rest)
        yield found.start(), found.group(1), rest[:end.start() if end else 800]


def owner(text, place):
    """Returns the type in whose `impl` a place is, if it is in one."""
    found = None
    for block in re.finditer(r"^(?:unsafe )?impl\b([^{]*)|^\}", text[:place], re.M):
        found = block.group(1) if block.group(0) != "}" else None
    if found is None:
        return None
    # Generics in angle brackets are dropped, and `Trait for Type` is its type.
    depth, plain = 0, ""
    for letter in found.replace("->", ""):
        depth += (letter == "<") - (letter == ">")
        plain += letter if depth == 0 and letter != ">" else ""
    words = re.findall(r"\w+", re.split(r"\bwhere\b", plain)[0])
    return words[words.index("for") + 1] if "for" in words else words[0]


def listed():
    """Returns crate, module path, type and name of each public function with `requires`."""
    functions = []
    for crate in ERASED:
        source = os.path.join(CRATES, crate, "src")
        for folder, _, files in os.walk(source):
            for file in sorted(files):
                if not file.endswith(".rt"):
                    continue
                path = os.path.join(folder, file)
                with open(path, encoding="utf-8") as opened:
                    text = opened.read()
                modules = os.path.relpath(path, source)[:-3].split(os.sep)
                modules = [] if modules == ["lib"] else modules
                for place, name, header in headers(text):
                    if re.search(r"\brequires\b", header):
                        functions.append((crate, modules, owner(text, place), name))
    return functions


def library():
    """Builds the crate, and returns its file."""
    command = ["cargo", "build", "--offline", "--quiet", "-p", "luffapricot", "--message-format=json"]
    built = subprocess.run(command, cwd=RUST, capture_output=True, text=True, check=True).stdout
    for line in built.splitlines():
        message = json.loads(line)
        if message.get("target", {}).get("name") == "luffapricot" and message.get("filenames"):
            return [file for file in message["filenames"] if file.endswith(".rlib")][0]
    sys.exit("no library was built")


def errors(rlib, folder, text):
    """Compiles a text, and returns the line and the code of each error."""
    path = os.path.join(folder, "tried.rs")
    with open(path, "w", encoding="utf-8") as written:
        written.write(text)
    command = ["rustc", "--edition", "2024", "--crate-type", "lib", "--emit", "metadata", "--error-format", "json"]
    command += ["--extern", f"luffapricot={rlib}", "-o", os.path.join(folder, "tried.rmeta"), path]
    told = subprocess.run(command, capture_output=True, text=True, check=False).stderr
    found = []
    for line in told.splitlines():
        message = json.loads(line)
        if message["level"] == "error" and message["spans"]:
            first = next(span for span in message["spans"] if span["is_primary"])
            found.append((first["line_start"], (message["code"] or {}).get("code"), message["message"]))
    return found


def try_functions(rlib, folder):
    functions = listed()
    if len(functions) < LEAST:
        sys.exit(f"only {len(functions)} functions with `requires` were found")
    with open(os.path.join(RUST, "luffapricot", "src", "lib.rs"), encoding="utf-8") as opened:
        text = opened.read()
    reexported = set(re.findall(r"\w+", " ".join(re.findall(r"pub use proved::[\w:]*::(\{[^}]*\}|\w+)", text))))
    lines = []
    for crate, modules, kind, name in functions:
        if kind in reexported:
            sys.exit(f"{crate}::{kind}::{name} asks something of its caller, and the crate's root has {kind}")
        path = "::".join(["luffapricot", "proved", crate, *modules, kind or name])
        lines.append(f"use {path} as _;")
        lines.append(f"use luffapricot::{kind or name} as _;")
    told = {}
    for line, code, message in errors(rlib, folder, "\n".join(lines)):
        told.setdefault(line, []).append((code, message))
    for number, line in enumerate(lines, 1):
        # An own type of the facade may have the name of one below it. Then it is not that one.
        own = re.fullmatch(r"use luffapricot::(\w+) as _;", line)
        if own and own.group(1) not in reexported and re.search(rf"^pub use (?!proved)[^;]*\b{own.group(1)}\b", text, re.M):
            continue
        codes = {code for code, _ in told.get(number, [])}
        if not codes & {"E0603", "E0432", "E0433"}:
            sys.exit(f"a user reaches what asks something of its caller: {line} {told.get(number)}")
    print(f"{len(functions)} functions that ask something of their caller can't be reached")


def try_snippets(rlib, folder):
    with open(os.path.join(HERE, "refused.rs"), encoding="utf-8") as opened:
        head, *snippets = re.split(r"^// (?=E\d{4}: )", opened.read(), flags=re.M)
    for snippet in snippets:
        wanted, body = snippet[:5], "// " + snippet
        # An error of rustc's that has no number counts as E0000.
        codes = [code or "E0000" for _, code, _ in errors(rlib, folder, head + body)]
        if wanted not in codes:
            sys.exit(f"rustc didn't refuse with {wanted} but {codes}:\n{body}")
    if errors(rlib, folder, head):
        sys.exit("what stands above the snippets doesn't compile")
    print(f"{len(snippets)} snippets are refused")


def main():
    rlib = library()
    with tempfile.TemporaryDirectory() as folder:
        try_functions(rlib, folder)
        try_snippets(rlib, folder)


main()

#!/usr/bin/env python3
"""erase.py [--check] [--to FOLDER]: writes the proved crates as modules of the Rust crate `luffapricot`, contracts and ghost
code left out, into rust/luffapricot/src/proved; with --check it writes nothing, and compares.

erase.py --crate NAME --to FOLDER: writes a crate of tests, or a program, as a Rust crate that uses `luffapricot`.

A form that no rule knows ends it with file and line. rustfmt lays the result out."""
import argparse
import glob
import os
import re
import subprocess
import sys
import tempfile

sys.dont_write_bytecode = True
from lex import Refused, lex, text_of
from rules import OF_KIT, RULES, Eraser, path

ROOT = os.path.dirname(os.path.dirname(os.path.dirname(os.path.realpath(__file__))))
SHIPPED = ["foyer_policy", "foyer_core", "foyer_raw", "foyer_memory"]
PROVED = f"{ROOT}/rust/luffapricot/src/proved"
NOTE = "// Written by rust/erase/erase.py from crates/{}: change that.\n"
ALLOWED = "#[allow(unused_imports)]\n"
RUSTFMT = ["rustfmt", "--edition", "2024", "--config-path", f"{ROOT}/rust/rustfmt.toml"]


def sources_of(crate):
    """The files of a crate, by their paths in it."""
    top = f"{ROOT}/crates/{crate}/src"
    found = sorted(glob.glob("**/*.rt", root_dir=top, recursive=True))
    return {it: open(f"{top}/{it}", encoding="utf-8").read() for it in found}


def copied_in(texts):
    return {it for text in texts for it in re.findall(r"impl(?:<[^{]*?>)? Copy for (\w+)", text)}


def start_of(text):
    """The index after a file's first lines: comments on the module and attributes of the whole."""
    return re.match(r"(?:\s*\n|//![^\n]*\n|#!\[[^\n]*\n)*", text).end()


class Target:
    """Where a crate's modules stand in Rust, and by which paths they name each other."""

    def __init__(self, crate, own):
        self.name, self.root = crate, "luffapricot::" if own else "crate::"
        self.own = "crate::" if own else f"crate::proved::{crate}::"
        self.kit = "rattle_std::" if own else "crate::rattle_std::"
        self.crates = {it: f"{self.root}proved::{it}::" for it in SHIPPED}

    def erased(self, path_, text, copied):
        """One file of Rattle in Rust."""
        tokens = Eraser(lex(text, path_), self.own, self.kit, self.crates, copied).run()
        out = text_of(tokens)
        start = start_of(out)
        prelude = f"{NOTE.format(f'{self.name}/src/{path_}')}{ALLOWED}use {self.kit}prelude::*;\n"
        return out[:start] + ("\n" if start else "") + prelude + out[start:]

    def files(self, texts=None):
        """All files of the crate in Rust, by their paths, or these."""
        texts, found = texts or sources_of(self.name), {}
        copied = copied_in(texts.values())
        for it, text in texts.items():
            try:
                found[it[:-3] + ".rs"] = self.erased(it, text, copied)
            except Refused as refused:
                raise Refused(f"crates/{self.name}/src/{it}:{refused}") from None
        return found


def write(folder, files):
    """Writes the files that have changed, and removes Rust's files that there are beside them, but for mod.rs."""
    was = read_all(folder)
    for it in was.keys() - files.keys():
        os.remove(f"{folder}/{it}")
    for it, text in files.items():
        if was.get(it) != text:
            os.makedirs(os.path.dirname(f"{folder}/{it}"), exist_ok=True)
            with open(f"{folder}/{it}", "w", encoding="utf-8") as file:
                file.write(text)


def read_all(folder):
    found = [it for it in glob.glob("**/*.rs", root_dir=folder, recursive=True) if it != "mod.rs"]
    return {it: open(f"{folder}/{it}", encoding="utf-8").read() for it in found}


def modules():
    """The files of `luffapricot`'s proved modules, laid out, by their paths below PROVED."""
    found = {"mod.rs": "".join(f"mod {it};\n" for it in SHIPPED)}
    for crate in SHIPPED:
        files = Target(crate, False).files()
        found |= {f"{crate}/{'mod.rs' if it == 'lib.rs' else it}": text for it, text in files.items()}
    with tempfile.TemporaryDirectory() as room:
        write(room, found)
        ran = subprocess.run([*RUSTFMT, f"{room}/mod.rs"], capture_output=True, text=True, check=False)
        if ran.returncode:
            raise Refused(f"rustfmt: {ran.stderr}")
        return read_all(room)


def main():
    parser = argparse.ArgumentParser(description=__doc__, formatter_class=argparse.RawDescriptionHelpFormatter)
    parser.add_argument("--check", action="store_true")
    parser.add_argument("--crate")
    parser.add_argument("--to", default=PROVED)
    given = parser.parse_args()
    if given.crate:
        write(given.to, Target(given.crate, True).files())
        return 0
    files = modules()
    if not given.check:
        write(given.to, files)
        return 0
    kept = read_all(given.to)
    wrong = [it for it in {*files, *kept} if files.get(it) != kept.get(it)]
    for it in sorted(wrong):
        print(f"rust/luffapricot/src/proved/{it} isn't what rust/erase/erase.py writes")
    return 1 if wrong else 0


for it in OF_KIT | {"crate", *SHIPPED}:
    RULES[it] = path

if __name__ == "__main__":
    try:
        sys.exit(main())
    except Refused as refused_:
        sys.exit(str(refused_))

#!/usr/bin/env python3
"""Runs this folder's tests, all 32 of upstream's own tests, which are read from ../shared/upstream, and those of the crate `lru`.

No text of theirs is kept here: it is read, adapted by the changes below and written to rust/target, which is ignored. What
isn't there (Debian's crates below REGISTRY, upstream's text below UPSTREAM) is skipped with a line. The last line is
'N passed, M failed'."""
import glob
import os
import re
import shutil
import subprocess
import sys

HERE = os.path.dirname(os.path.realpath(__file__))
RUST = os.path.abspath(f"{HERE}/../../..")
MADE = f"{RUST}/target/outside"
REGISTRY = os.environ.get("REGISTRY", "/usr/share/cargo/registry")
UPSTREAM = os.environ.get("UPSTREAM", f"{RUST}/../../shared/upstream")

# Each small change of upstream's tests, with its reason.
CHANGES = [
    # The macro only sets a logger up.
    ("#[test_log::test]", "#[test]"),
    # Names of rand 0.9 and 0.10 in rand 0.8, which Debian has.
    ("use rand::{Rng, SeedableRng, rngs::SmallRng, seq::IndexedRandom};", "use rand::{RngCore, SeedableRng, rngs::SmallRng, seq::SliceRandom};"),
    ("use rand::{RngExt, SeedableRng, rngs::StdRng, seq::SliceRandom};", "use rand::{Rng, SeedableRng, rngs::StdRng, seq::SliceRandom};"),
    ("rng.random_range(", "rng.gen_range("),
    # An Err would have a type that nothing names: the error of a fetch is any.
    ("#[expect(clippy::type_complexity)]", "#[allow(clippy::type_complexity)]"),
]
# Those of upstream's tests of a policy by itself, which run below the proved policy's module and need no other crate.
CHANGES_OF_POLICIES = [("use itertools::Itertools;", "use crate::upstream::Itertools;")]
POLICIES = ["fifo", "lru", "lfu", "s3fifo", "sieve"]
# Those of `lru`'s tests.
CHANGES_OF_LRU = [
    ("use scoped_threadpool::Pool;", ""),
    ("let mut pool = Pool::new(1);", ""),
    ("pool.scoped(", "std::thread::scope("),
    ("scoped.execute(", "scoped.spawn("),
    # No value is changed in place; iter's order is asked twice.
    ("cache.iter_mut()", "cache.iter()"),
    ("assert_opt_eq_mut_tuple(iter", "assert_opt_eq_tuple(iter"),
]
# `lru`'s tests of calls that aren't here: values are changed in place, keys aren't cloned, hashbrown has the hasher.
WITHOUT = ["put_and_get_mut", "get_mut_and_update", "peek_mut", "get_mut_with_borrow", "no_memory_leaks_with_pop", "with_hasher"]


class Skipped(Exception):
    """What a part needs isn't there."""


def read(path):
    with open(path, encoding="utf-8") as opened:
        return opened.read()


def write(path, text):
    os.makedirs(os.path.dirname(path), exist_ok=True)
    with open(path, "w", encoding="utf-8") as written:
        written.write(text)


def changed(text, changes):
    for before, after in changes:
        text = text.replace(before, after)
    return text


def upstreams(source):
    """The test module of one of upstream's files, adapted."""
    parts = [f"{UPSTREAM}/src--tests--tests--part{number}.rs.txt" for number in (1, 2)]
    if not all(map(os.path.exists, parts)):
        raise Skipped(f"upstream's tests: {UPSTREAM} isn't there")
    text = "\n".join(map(read, parts))
    found = re.search(rf"^// ===== {re.escape(source)} \(test module\) =====\n(.*?)(?=^// ===== |\Z)", text, re.M | re.S)
    return changed(found[1], CHANGES)


def lrus():
    """The test module of the crate `lru`, adapted."""
    found = glob.glob(f"{REGISTRY}/lru-0.*/src/lib.rs")
    if not found:
        raise Skipped("lru's tests: Debian's librust-lru-dev isn't there")
    text = changed(re.search(r"^mod tests \{\n.*^\}\n", read(found[0]), re.M | re.S)[0], CHANGES_OF_LRU)
    names = "|".join(WITHOUT)
    return re.sub(rf'    #\[test\]\n(    #\[cfg[^\n]*\n)?    fn test_({names})\(\) {{\n.*?\n    }}\n', "", text, flags=re.S)


def cargo(manifest, cfgs, *words):
    """Runs `cargo test` from `/`, where no configuration puts absent crates in the place of Debian's."""
    flags = " ".join([os.environ.get("RUSTFLAGS", ""), *(f"--cfg {it}" for it in cfgs)])
    command = ["cargo", "test", "--offline", "--manifest-path", manifest, *words, *sys.argv[1:]]
    ran = subprocess.run(command, cwd="/", env={**os.environ, "RUSTFLAGS": flags}, stdout=subprocess.PIPE, text=True, check=False)
    print(ran.stdout, flush=True)
    return [sum(map(int, re.findall(rf"^test result: .* (\d+) {it}", ran.stdout, re.M))) for it in ("passed", "failed")], ran.returncode


def policies():
    """Upstream's tests of a policy by itself, in a copy of the crate, below the modules of the proved policies."""
    texts, made = {it: upstreams(f"src/eviction/{it}.rs") for it in POLICIES}, f"{MADE}/policies"
    shutil.copytree(f"{RUST}/luffapricot/src", f"{made}/src")
    for name, text in texts.items():
        module = f"{made}/src/proved/foyer_policy/{name}"
        write(f"{module}.rs", read(f"{module}.rs") + "\n#[cfg(test)]\nmod upstream;\n")
        write(f"{module}/upstream.rs", read(f"{HERE}/policies/{name}.rs"))
        write(f"{module}/{name}_tests.rs", changed(text, CHANGES_OF_POLICIES))
    for it in ("policies/upstream.rs", "src/test_properties.rs"):
        shutil.copy(f"{HERE}/{it}", f"{made}/src")
    lib = re.sub(r"^#!.*\n", "", read(f"{made}/src/lib.rs"), flags=re.M)
    write(f"{made}/src/lib.rs", "#![allow(dead_code, unused_imports)]\n" + lib + "\n#[cfg(test)]\nmod upstream;\n#[cfg(test)]\nuse upstream::{eviction, record};\n")
    manifest = re.sub(r'"dep:\w+"', "", read(f"{RUST}/luffapricot/Cargo.toml")).replace("[dependencies]", "[workspace]")
    write(f"{made}/Cargo.toml", re.sub(r"^(readme|\w+ = \{ version).*\n", "", manifest, flags=re.M))
    return cargo(f"{made}/Cargo.toml", [], "--lib")


def crates():
    """The tests with Debian's crates, and with them upstream's other tests and those of `lru`."""
    if not glob.glob(f"{REGISTRY}/tokio-*"):
        raise Skipped("tests with other crates: Debian's librust-tokio-dev and librust-serde-json-dev aren't there")
    made, cfgs = f"{MADE}/crates", []
    shutil.copytree(HERE, made, ignore=shutil.ignore_patterns("run.py", "policies"))
    write(f"{made}/Cargo.toml", read(f"{HERE}/Cargo.toml").replace('path = "../.."', f'path = "{RUST}/luffapricot"'))
    for cfg, texts in (("upstream", {it: lambda it=it: upstreams(f"src/{it}.rs") for it in ("raw", "cache")}), ("lru", {"lru": lrus})):
        try:
            for name, text in texts.items():
                write(f"{made}/src/{name}_tests.rs", text())
            cfgs.append(cfg)
        except Skipped as why:
            print(f"skipped {why}")
    debian = ["--config", 'source.crates-io.replace-with="debian"', "--config", f'source.debian.directory="{REGISTRY}"']
    return cargo(f"{made}/Cargo.toml", cfgs, *debian)


def main():
    shutil.rmtree(MADE, ignore_errors=True)
    passed = failed = 0
    for part in (policies, crates):
        try:
            counts, code = part()
            passed, failed = passed + counts[0], failed + counts[1] + (code != 0 and not counts[1])
        except Skipped as why:
            print(f"skipped {why}")
    print(f"{passed} passed, {failed} failed")
    return 1 if failed else 0


if __name__ == "__main__":
    sys.exit(main())

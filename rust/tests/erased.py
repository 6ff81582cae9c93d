"""Writes the crates' tests and programs as Rust crates into out/, which `cargo` then builds and runs."""
import os
import re
import sys

HERE = os.path.dirname(os.path.realpath(__file__))
ROOT = os.path.dirname(os.path.dirname(HERE))
sys.path.insert(0, f"{HERE}/../erase")
import erase

TESTS = ["foyer_policy_tests", "foyer_core_tests", "foyer_session_tests", "foyer_raw_tests", "foyer_memory_tests"]
PROGRAMS = ["foyer_sim", "foyer_sim_cache", "foyer_bench", "foyer_sizes"]
LIBRARIES = ["foyer_session"]
# Modules of tests that are left out.
LEFT_OUT = {
    "foyer_policy_tests": ["json"],  # the types that users see have their own `serde`
    "foyer_memory_tests": ["build"],  # the kit's log and JSON
    "foyer_session_tests": ["clones"],  # a derived `Clone` can't fail, and asks for `Clone`
}

MANIFEST = """[package]
name = "{name}"
version = "0.1.0"
edition = "2024"
publish = false

[dependencies]
luffapricot = {{ path = "../../../luffapricot" }}
rattle_std = {{ path = "../../rattle_std" }}
"""


def uses(name):
    """The crates of out/ that a crate uses, by crates.txt."""
    with open(f"{ROOT}/crates.txt", encoding="utf-8") as file:
        words = re.search(rf"^{name}\b[^:]*:(.*)", file.read(), re.M)[1].split()
    return [it for it in words if it in TESTS + LIBRARIES]


def write(name):
    texts, left_out = erase.sources_of(name), LEFT_OUT.get(name, ["$^"])
    for it, text in texts.items():
        texts[it] = re.sub(rf"(#\[cfg\(test\)\]\n)?mod ({'|'.join(left_out)});\n", "", text)
    files = erase.Target(name, True).files({it: text for it, text in texts.items() if os.path.basename(it)[:-3] not in left_out})
    manifest = MANIFEST.format(name=name) + "".join(f'{it} = {{ path = "../{it}" }}\n' for it in uses(name))
    erase.write(f"{HERE}/out/{name}/src", files)
    with open(f"{HERE}/out/{name}/Cargo.toml", "w", encoding="utf-8") as file:
        file.write(manifest)


if __name__ == "__main__":
    for it in sys.argv[1:] or LIBRARIES + TESTS + PROGRAMS:
        write(it)

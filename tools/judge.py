"""Judges what `rt check` and a program said. What is kept of a proof is what it said, so a stricter judgement judges it too."""
import os
import re

import common
from common import PROOF, USES, folder_of, kept, read, sum_of

# How a crate is checked; it stands in the key of what is kept.
CHECK = ("check", "--empty-contracts")
# The words of a proof's last line that a proved crate may have.
PLAIN = "functions sum native logic-built libraries-built statements incremental target cpu main may-wait threads axioms".split()
# What `rt verdict` refuses beside a proof that is missing.
REFUSED = {
    r"^rt: warning: rt verdict refuses this": "its text has what rt verdict refuses",
    r"^warning: no call of `(?![^`]*::fn::)": "a contract that no call can meet",
    r"^note: the search for empty contracts did not end": "the search for contracts that no call can meet broke off",
    r"^warning: calls of a tactic that chose a term": "a tactic chose a term that a contract may read",
    r"^(\./)?(src|specs)/\S+ warning: this pattern binds a variable": "a pattern that matches every value",
    r"^((\./)?(src|specs)/\S+):\d+:\d+: (note|warning): `search` stands in": "a tactic in a clause or a definition",
    r"^hides ": "a function hands out a value whose contract may say nothing",
    r"^fn \S+: assumed": "a function is assumed",
}
# What a proof says that names what is gone.
NAMES = re.compile(r"has no field|is not in scope|has no `|was not admitted")
BEGAN_WITH = re.compile(r"^rt: .*: begins with what a check kept in ", re.M)


def key_of(name):
    return sum_of(name, PROOF, *CHECK)


def why_refused(status, said):
    """Why what a check said is no proof of the whole crate, or None."""
    last = next((it for it in reversed(said.split("\n")) if it.startswith("logic=")), "")
    if status or not last.startswith("logic=proved "):
        return "it is not proved"
    if common.ANEW and BEGAN_WITH.search(said):
        return "its check began with work that was kept"
    words = dict(it.partition("=")[::2] for it in last.split()[1:])
    if not {*words} <= {*PLAIN}:
        return f"its last line has the words {' '.join(sorted({*words} - {*PLAIN}))}"
    taken = {*words.get("main", "").split("+")} - {""} | ({"Wait"} if "may-wait" in words else set())
    if not taken <= {*re.findall(r"[A-Z][a-z]+", read(f"{common.ROOT}/HANDLES").partition(":")[2])}:
        return f"it takes the handles {' '.join(sorted(taken))}"
    assumed = [it for it in re.findall(r"^axioms (\w+): (?!none reached)", said, re.M) if it in USES]
    if assumed:
        return f"it rests on what {assumed[0]} declares and nothing proves"
    return next((why for text, why in REFUSED.items() if re.search(text, said, re.M)), None)


def why_run_refused(name, status, said):
    """Why a proved program's run on its stored streams is not as it should be, or None."""
    if said != read(f"{folder_of(name)}/stdout"):
        return "its program wrote something else than its file stdout"
    wanted = int(read(f"{folder_of(name)}/status", "0"))
    return None if status == wanted else f"its program ended with {status}, and not {wanted}"


def proved(name, key):
    """Of what was kept of a crate's proof, and of its program's run: how many functions were proved, 0 where it isn't whole,
    and why it is refused, or None."""
    checked, ran = kept("checked", key), kept("ran", key)
    if checked is None or common.is_program(name) and ran is None:
        return 0, None
    why = why_refused(*checked)
    if not why and ran:
        why = why_run_refused(name, *ran)
    return (0, why) if why else (int(re.findall(r"^logic=proved functions=(\d+)", checked[1], re.M)[-1]), None)


def program_of(name):
    """Where the proved program of these sources is, or is to be, and whether it is there and its proof is good."""
    key = key_of(name)
    program = common.program_of(name, f"proved-{key}")
    return program, os.path.isfile(program) and proved(name, key)[0] > 0


def is_refused(name, module, function, said):
    """Whether a check refused this function by itself, and not only since its proof names what an edit took away."""
    verdicts = re.findall(rf"^fn {name}::{module}::(?:\S+::)?{function}: (.*)", said, re.M)
    errors = re.findall(rf"^(?:\./)?proofs/{module}/(?:\S+/)?{function}/\S+: error: (.*)", said, re.M)
    is_met = "not proved" in verdicts and any(not NAMES.search(it) for it in errors)
    return is_met or any("did not prove" in it for it in verdicts)


def why_not_refused(status, said):
    """Why a check of a crate with an edit does not refuse it for its meaning, or None."""
    if status == 0 or not re.search(r"^logic=not-proved", said, re.M):
        return "NOT REFUSED: the crate is proved with it" if status == 0 else "the check broke off before it was judged"
    told = re.findall(r"^(?:note: )?(?:\./)?\S+?:\d+:\d+: .*", said, re.M)
    if not [it for it in told if not it.removeprefix("./").startswith("proofs/") or not NAMES.search(it)]:
        return "refused only since a proof names what it took away"
    return None

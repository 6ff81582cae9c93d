"""Whether each word in code font exists in the sources.

In code font stands what is between backquotes outside of blocks. Its words are those of letters, digits, `_` and `-`, of two
signs at least and no number. A word exists if it stands in a source file of crates/, without its comments, in help.txt, in
a script, a command or a test of the repository, or in the path of one; else it has to be one of at most MOST in words.txt,
as the names of other programs are. Of `Type::item`, one file has both words. A path with a slash is the end of that of a
file or a folder."""
import functools
import pathlib
import re

MOST = 40
WORD = re.compile(r"[^\W\d]\w*(?:-\w+)*")
SPAN = re.compile(r"(`+)(.+?)\1", re.S)
# Comments, and before them the texts and signs in which none begins.
RUST = re.compile(r"""r(#*)".*?"\1|"(?:[^"\\]|\\.)*"|'(?:[^'\\\n]|\\[^\n])'|//[^\n]*|/\*.*?\*/""", re.S)
ANTT = re.compile(r"--[^\n]*")
PATH = re.compile(r"[\w.*-]+(?:/[\w.*-]+)+/?|[\w-]+/")
LEFT_OUT = {"out", ".git", "target", "__pycache__"}


def sources(root):
    """The files in which a word may stand."""
    for path in sorted(root.rglob("*")):
        inside = path.relative_to(root)
        is_stored = inside.parts[:2] == ("tests", "replay") and path.suffix in (".in", ".out")
        if path.is_file() and path.suffix != ".md" and not LEFT_OUT & {*inside.parts} and not is_stored:
            if inside.parts[:2] != ("tests", "documents") and inside.name != "LICENSE":
                yield path


@functools.cache
def without_comments(path):
    """A file's text; of a source file without its comments."""
    found = path.read_text(errors="replace")
    if path.suffix == ".rt":
        return RUST.sub(lambda it: " " if it[0].startswith("/") else it[0], found)
    return ANTT.sub(" ", found) if path.suffix == ".antt" else found


def words_of(text):
    """The words of a text, those with a hyphen also by their parts."""
    found = {*WORD.findall(text)}
    return found | {part for it in found for part in it.split("-")}


class Sources:
    def __init__(self, root):
        files = [*sources(root)]
        self.by_file = {it: words_of(without_comments(it)) for it in files}
        self.paths = {f"/{it.relative_to(root)}" for it in root.rglob("*") if not LEFT_OUT & {*it.relative_to(root).parts}}
        self.all = set().union(*self.by_file.values(), *(words_of(it) for it in self.paths))

    def has_path(self, path):
        form = re.escape(path.strip("/").removeprefix("./").removeprefix("../")).replace(r"\*", r"[^/]*")
        return any(re.search(f"/{form}$", it) for it in self.paths)

    def has_both(self, owner, item):
        return any({owner, item} <= it for it in self.by_file.values())

    def lost(self, span, known):
        """What of a span of code stands nowhere."""
        found = [it for it in WORD.findall(span) if len(it) > 1 and it not in self.all and it not in known]
        for owner, item in re.findall(r"\b([A-Z]\w+)(?:<[^<>]*>)?::(\w+)", span):
            if not {owner, item} & {*found, *known} and not self.has_both(owner, item):
                found.append(f"{owner}::{item}")
        paths = [it for it in PATH.findall(span) if "." in it.rpartition("/")[2] or it.endswith("/")]
        return found + [it for it in paths if it.partition("/")[0] not in LEFT_OUT and not self.has_path(it) and it not in known]


def checks(root, documents):
    """What is asked, with the answers."""
    given = (pathlib.Path(__file__).parent / "words.txt").read_text()
    known = {line for line in given.splitlines() if line and line[0] != "#"}
    yield f"words.txt has at most {MOST} words: {len(known)}", len(known) <= MOST
    there, used = Sources(root), set()
    for document in documents:
        prose = re.sub(r"^```.*?^```$", "", (root / document).read_text(), flags=re.S | re.M)
        lost = {}
        for line in prose.split("\n"):
            for _, span in SPAN.findall(line):
                used |= {it for it in known if it in span}
                lost.update(dict.fromkeys(there.lost(span, known), span))
        yield f"{document}'s words in code font exist: not {', '.join(sorted(lost))}", not lost
    idle = sorted(it for it in known if it not in used or it in there.all)
    yield f"each word of words.txt stands in a document, and in no source: not {', '.join(idle)}", not idle

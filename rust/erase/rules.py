"""What Rattle writes otherwise than Rust, one rule a form. A form that none of them knows ends the eraser."""
import re

from lex import PAIRS, Refused, Token, closing, find, put, text_of, without_item

ATTRIBUTES = {"inline", "cold", "default", "cfg", "test", "must_use", "error", "allow", "non_exhaustive", "derive"}
GHOST_ATTRIBUTES = {"tactic", "cycle"}
DERIVES = {"Clone", "Copy", "Debug", "Default", "Eq", "Hash", "Ord", "PartialEq", "PartialOrd"}
GHOST_DERIVES = {"Drop", "Serialize", "Deserialize"}
MACROS = {"unreachable", "matches", "write", "writeln", "warn", "vec", "format", "println", "eprintln", "print"}
MACROS |= {"assert", "assert_eq", "assert_ne", "panic", "prove", "prove_eq", "prove_ne", "macro_rules", "stringify"}
MACROS |= {"eprint"}
# Attributes of a function that `#[inline]` isn't written beside.
MARKS = {"inline", "cold", "test"}
OF_SHIM = {"unreachable", "vec", "format", "println", "eprintln", "print", "eprint"}
WITH_HANDLE = {"println", "eprintln", "print", "eprint", "assert", "assert_eq", "assert_ne", "panic"}
OF_KIT = {"std", "std_alloc", "futures", "log", "serde", "thiserror", "serde_json"}
# What stands after a bound.
ENDS_OF_BOUND = ("+", ",", ">", "{", "=", "where", ")", ";")
COLLECTS = {"collect", "to_vec", "to_string", "to_owned", "try_collect"}

# Types with a derived `Clone` whose parts are `TryClone` alone.
UNCLONED = {"Answer", "Reply"}
# What a `fn drop(self)` that takes its value apart does with a field, but for what it only lends: Rust lends it the
# value. A field that it moves out is a `ManuallyDrop` in the struct; one that it takes is an `Option`.
DROPS = {
    "Lists": {"nodes": "moves"},
    "RawCacheEntry": {"core": "moves"},
    "Shared": {"shards": "moves"},
    "RawFetch": {"state": "copies", "key": "takes"},
    "RawWait": {"open": "takes"},
    "Ticket": {"core": "takes"},
    "Handle": {"entry": "takes"},
    "Kept": {"handle": "takes"},
    "Counted": {"digit": "copies", "number": "copies"},
    "Slow": {"flags": "takes"},
}
HOW = {"copies": "*{0}", "takes": "{0}.take()", "moves": "unsafe {{ ::std::mem::ManuallyDrop::take({0}) }}"}
MOVED = {(name, field) for name, fields in DROPS.items() for field, how in fields.items() if how == "moves"}


class Eraser:
    """Goes through the tokens of one file once, and writes those of Rust."""

    def __init__(self, tokens, crate, kit, crates, copied):
        self.tokens, self.out, self.at, self.is_marked = tokens, [], 0, False
        self.crate, self.kit, self.crates, self.copied = crate, kit, crates, copied

    def run(self):
        while self.at < len(self.tokens):
            token = self.tokens[self.at]
            rule = RULES.get(token.text) if token.kind in ("id", "p") else None
            if not (rule and rule(self, token)):
                self.check(token)
                self.out.append(token)
                self.at += 1
        return self.out

    def check(self, token):
        """Ends with a macro that no rule knows. All else is Rust's compiler's to refuse."""
        after = text_of(self.tokens[self.at + 1:self.at + 3])
        if token.kind == "id" and after in ("!(", "![", "!{") and token.text not in MACROS:
            raise Refused(f"{token.line}: the macro {token.text}!")

    def next(self, steps=1):
        """The text of a token to come."""
        at = self.at + steps
        return self.tokens[at].text if at < len(self.tokens) else ""

    def before(self):
        """The text of the last token that was written."""
        return self.out[-1].text if self.out else ""

    def write(self, text, end):
        """Writes a text for the tokens before `end`."""
        count = put(self.tokens, self.at, end, text)
        self.out += self.tokens[self.at:self.at + count]
        self.at += count
        return True

    def skip(self, end, lead=None):
        """Skips the tokens before `end`, but what stands before them, or `lead`."""
        after = self.tokens[end]
        lead = self.tokens[self.at].lead + after.lead.lstrip() if lead is None else lead + after.lead
        self.tokens[end] = after._replace(lead=lead)
        self.at = end
        return True

    def skip_item(self, end):
        return self.skip(end, without_item(self.out, self.tokens[self.at].lead))

    def drop_use(self):
        """Drops the `use` that this token is in."""
        while (first := self.out.pop()).text != "use":
            pass
        return self.skip(find(self.tokens, self.at, ";") + 1, first.lead)


def attribute(self, token):
    """`#[..]`: ghost ones go, and a derive loses what Rust doesn't derive."""
    opens = self.at + 1 + (self.next() == "!")
    end = closing(self.tokens, opens) + 1
    words = [it.text for it in self.tokens[opens:end] if it.kind == "id"]
    if words[0] in GHOST_ATTRIBUTES or words[0] == "error":
        return self.skip(end)
    if words[0] not in ATTRIBUTES:
        raise Refused(f"{token.line}: the attribute {words[0]}")
    if words[0] == "derive":
        return derive(self, token, words, end)
    self.is_marked |= words[0] in MARKS
    if words == ["test"]:
        runtime_of_test(self, end)
    self.out += self.tokens[self.at:end]
    self.at = end
    return True


def derive(self, token, words, end):
    """A derive loses what Rust doesn't derive; the messages of an error become its `Display`."""
    unknown = {*words[1:]} - DERIVES - GHOST_DERIVES - {"ThisError"}
    if unknown:
        raise Refused(f"{token.line}: the derive {unknown.pop()}")
    kind = find(self.tokens, end, "struct", "enum")
    name = self.tokens[kind + 1].text
    lost = {"Clone"} if name in UNCLONED else set()
    kept = [it for it in words[1:] if it in DERIVES - lost]
    if "ThisError" in words:
        display(self, end, name, find(self.tokens, kind, "{", ";"))
    return self.write(f"#[derive({', '.join(kept)})]", end) if kept else self.skip(end)


def display(self, at, name, opens):
    """Writes after an error type what its messages say."""
    end = closing(self.tokens, opens) if self.tokens[opens].text == "{" else opens
    text = text_of(self.tokens[at:end + 1])
    arms = "".join(arm(name, *it) for it in re.findall(r'#\[error\((".*?")\)\]\s*(?:pub struct |)(\w+)(\()?', text))
    fmt_of = "fn fmt(&self, f: &mut ::std::fmt::Formatter<'_>) -> ::std::fmt::Result"
    display_of = f"impl ::std::fmt::Display for {name} {{ {fmt_of} {{ match self {{ {arms} }} }} }}"
    put(self.tokens, end + 1, end + 1, f"\n\n{display_of}\n\nimpl ::std::error::Error for {name} {{}}")


def arm(name, message, of, fields):
    """One arm: of a variant, or of the struct itself."""
    named = ", ".join(re.findall(r"\{([a-z]+)", message))
    pattern = name if of == name else f"{name}::{of}"
    pattern += "(at_0)" if fields else f" {{ {named}, .. }}" if named else " { .. }" if of == name else ""
    return f"{pattern} => write!(f, {message.replace('{0', '{at_0')}),"


def runtime_of_test(self, at):
    """`#[test] fn name(rt: HostRuntime)`: the runtime becomes a variable."""
    opens = find(self.tokens, at, "(")
    end = closing(self.tokens, opens)
    given = text_of(self.tokens[opens + 1:end]).strip().rstrip(",")
    if given:
        body = find(self.tokens, end, "{") + 1
        put(self.tokens, body, body, f"\nlet {given} = HostRuntime;")
        del self.tokens[opens + 1:end]


def head(tokens, at):
    """Of an `impl`: where its `{` stands, and the last names of its trait and of its type."""
    names, depth = [], 0
    while tokens[at].text != "{":
        depth += {"<": 1, ">": -1}.get(tokens[at].text, 0)
        if depth == 0 and tokens[at].kind == "id":
            names.append(tokens[at].text)
        at += 1
    if "for" in names:
        where = names.index("for")
        return at, names[where - 1], names[where + 1] if where + 1 < len(names) else ""
    return at, None, names[1] if len(names) > 1 else ""


def implementation(self, token):
    """`impl Model` goes; `Clone` and `Drop` have other forms in Rust. A type that is copied is `Clone` too."""
    if self.before() not in ("", "}", ";", "]", "unsafe", "{"):
        return False
    body, trait, name = head(self.tokens, self.at)
    if trait == "Model":
        return self.skip_item(closing(self.tokens, body) + 1)
    if trait == "Clone" and name in self.copied:
        self.out += self.tokens[self.at:body]
        self.at = body
        return self.write("{ #[inline(always)] fn clone(&self) -> Self { *self } }", closing(self.tokens, body) + 1)
    return trait == "Drop" and drop_impl(self, body, name)


def clone(self, token):
    """`Clone` as a bound or a trait, which may fail and is `TryClone` here."""
    before, after = self.before(), self.next()
    is_bound = before in (":", "+") and after in ENDS_OF_BOUND
    if is_bound or before == "impl" or after == "for":
        return self.write("TryClone", self.at + 1)
    if before == "::" or after in ("(", "=>"):  # a variant's name
        return False
    raise Refused(f"{token.line}: a Clone after {before}")


def drop_impl(self, body, name):
    """`fn drop(self)` takes its value apart, and Rust's is lent it. If that is all it does, Rust does it by itself."""
    end, tokens = closing(self.tokens, body), self.tokens
    inner = "".join(it.text for it in tokens[body:end + 1])
    if re.fullmatch(r"\{fndrop\(self\)\{let\w+([({](\w+:_,?|_,?)+[)}])?=self;\}\}", inner):
        return self.skip_item(end + 1)
    let = re.search(rf"let{name}[({{]([^;]*)[)}}]=self;", inner)
    if not let:
        raise Refused(f"{tokens[body].line}: a drop of {name} that doesn't take it apart")
    fields = [it for it in let[1].split(",") if it and not it.endswith(":_")]
    hows = DROPS.get(name, {})
    if hows.keys().isdisjoint(fields):
        raise Refused(f"{tokens[body].line}: a drop of {name}, which no rule knows")
    last = next(i for i in range(body, end) if tokens[i].text == ";" and tokens[i - 1].text == "self") + 1
    for i in range(end, last, -1):
        if tokens[i].text == "&" and tokens[i + 1].text in {*fields} - {*hows}:
            put(tokens, i, i + 2, tokens[i + 1].text)  # what is lent is a reference already
    put(tokens, last, last, "".join(f"\nlet {it} = {HOW[hows[it]].format(it)};" for it in fields if it in hows))
    at = find(tokens, body, "self")
    put(tokens, at - (tokens[at - 1].text == "mut"), at + 1, "&mut self")
    return False


def moved_fields(self, token):
    """A struct's field that its drop moves out, where it is declared and where the struct is made."""
    is_declared = self.before() == "struct"
    opens = find(self.tokens, self.at, "{", ";") if is_declared else self.at + 1
    if self.tokens[opens].text != "{" or self.before() in ("let", "for", "impl", "->", "::", "<"):
        return False
    for field in (field for name, field in MOVED if name == token.text):
        end = closing(self.tokens, opens)
        places = [i for i in range(opens, end) if self.tokens[i].text == field and self.tokens[i - 1].text != "."]
        if not places:
            raise Refused(f"{token.line}: a {token.text} without {field}")
        wrap_field(self.tokens, places[0], is_declared)
    return False


def wrap_field(tokens, at, is_declared):
    """`field: Type` becomes `field: ManuallyDrop<Type>`; `field: value` and `field`, `field: ManuallyDrop::new(value)`."""
    opens, closes = ("::std::mem::ManuallyDrop<", ">") if is_declared else ("::std::mem::ManuallyDrop::new(", ")")
    if tokens[at + 1].text != ":":
        put(tokens, at, at + 1, f"{tokens[at].text}: {opens}{tokens[at].text}{closes}")
        return
    end, depth = at + 2, 0
    while depth or tokens[end].text not in (",", "}"):
        depth += {**dict.fromkeys(PAIRS, 1), **dict.fromkeys(PAIRS.values(), -1)}.get(tokens[end].text, 0)
        end += 1
    put(tokens, end, end, closes)
    put(tokens, at + 2, at + 2, " " + opens)


def trait_(self, token):
    """A trait of Rattle's has a `Self` with a size."""
    if self.before() not in ("pub", ")", "}", ";", "]", "unsafe", ""):
        return False
    body, at = find(self.tokens, self.at, "{"), self.at + 2
    methods = text_of(self.tokens[body:closing(self.tokens, body)])
    if re.search(r"->[^;{]*\bSelf>|-> Self\b|\((mut )?self[,)]", methods):
        if self.tokens[at].text == "<":
            at = closing(self.tokens, at) + 1
        has_bound = self.tokens[at].text == ":"
        put(self.tokens, at + has_bound, at + has_bound, " Sized +" if has_bound else ": Sized")
    return False


def drop_bound(self, token):
    """The bound `Drop`, which in Rattle says that a value may go unused, is every type's in Rust."""
    before, after = self.before(), self.next()
    if before not in (":", "+") or after not in ENDS_OF_BOUND:
        return False
    if after == "+":
        return self.skip(self.at + 2)
    around = next((it.text for it in reversed(self.out) if it.text in ("where", "{", "}", ";", "fn", "impl")), "")
    if before == "+" or around != "where":
        self.out.pop()
        return self.skip(self.at + 1)
    while self.before() not in (",", "where"):
        self.out.pop()
    self.skip(self.at + 1 + (after == ","))
    if self.before() == "where" and self.next(0) == "{":
        self.out.pop()
    return True


def method(self, token):
    """`.clone()` may fail in Rattle, and what makes a collection is given its allocator."""
    if token.text == "clone" and (self.before() == "fn" or self.before() == "." and self.next() == "("):
        return self.write("try_clone", self.at + 1)
    if self.before() != ".":
        return False
    if token.text in ("expect", "expect_err"):
        at = handle(self.tokens, self.at + 2)
        return self.tokens[at].text == "," and self.write(f"{token.text}_at(", at + 1)
    at = closing(self.tokens, self.at + 2) + 1 if self.next() == "::" else self.at + 1
    if self.tokens[at].text != "(" or token.text not in COLLECTS:
        return False
    given = {it.text for it in self.tokens[at:closing(self.tokens, at)]}
    return bool(given & {"alloc", "allocator"}) and self.write(token.text + "_with", self.at + 1)


def handle(tokens, at):
    """The index after a handle, if there is one: `rt`, `&rt`, `self.rt`."""
    at += tokens[at].text == "&"
    while tokens[at + 1].text == "." and tokens[at + 2].kind == "id":
        at += 2
    return at + (tokens[at].kind == "id")


def path(self, token):
    """Paths from a crate of this repository or of the kit."""
    if self.next() != "::" or self.before() in ("::", "."):
        return False
    if token.text == "thiserror":
        return self.drop_use()
    roots = {"crate": self.crate, "std": self.kit, **self.crates}
    return self.write(roots.get(token.text, f"{self.kit}{token.text}::"), self.at + 2)


def main(self, token):
    """`fn main(rt: HostRuntime)`."""
    if self.before() != "fn" or self.next(2) != "rt":
        return False
    self.tokens[self.at] = self.out.pop()
    of_rust = f"fn main() -> {self.kit}process::ExitCode {{ rattle_main(HostRuntime) }}"
    return self.write(f"{of_rust}\n\nfn rattle_main", self.at + 1)


def model(self, token):
    """`Model` in a `use`, alone or of several names."""
    if self.before() == "::" and self.next() == ";":
        return self.drop_use()
    return self.skip(self.at + 1 + (self.next() == ","))


def fmt(self, token):
    """`fn fmt<W: fmt::Write>(&self, f: &mut fmt::Formatter<W>)`."""
    if self.before() != "fn" or self.next() != "<":
        return False
    opens = closing(self.tokens, self.at + 1) + 1
    for i in range(opens, closing(self.tokens, opens)):
        if self.tokens[i].text == "Formatter":
            self.tokens[i + 2] = Token("life", "'_", "", token.line)
    return self.write("fmt", opens)


def macro(self, token):
    """Macros that are passed a handle or an allocator, and those of the shim."""
    if self.next() != "!":
        return False
    name, at = token.text, self.at + 3
    if name.startswith("prove"):
        return self.write(f"{name.replace('prove', 'debug_assert')}!", self.at + 2)
    if name in WITH_HANDLE:
        at = handle(self.tokens, at) + 1
        if self.tokens[at - 1].text != ";":
            return False
    elif name in ("format", "vec") and self.tokens[at].text == "in":
        at = find(self.tokens, at, ";") + 1
    elif name != "unreachable":
        return False
    return self.write(f"{self.kit}macros::{name}!{self.next(2)}", at)


def function(self, token):
    """Rust inlines a function of another crate if it is generic, small or marked."""
    is_marked, self.is_marked = self.is_marked, False
    if self.before() not in ("pub", ")", "}", ";", "]", "{", "unsafe", "const") or is_marked:
        return False
    if self.tokens[find(self.tokens, self.at, "{", ";")].text == ";":
        return False
    start = len(self.out)
    while self.out[start - 1].text in ("pub", ")", "crate", "super", "(", "unsafe", "const", "in", "::"):
        start -= 1
    self.out.append(token)
    self.at += 1
    put(self.out, start, start + 1, f"#[inline]\n{self.out[start].text}")
    return True


def visibility(self, token):
    """What a module shows to its parent, the facade uses too."""
    is_visibility = self.before() == "(" and self.out[-2].text == "pub"
    return is_visibility and self.write("crate", self.at + 1)


RULES = {"#": attribute, "impl": implementation, "trait": trait_, "Drop": drop_bound, "Model": model, "fmt": fmt}
RULES |= {"main": main, "fn": function, "Clone": clone, "super": visibility}
RULES |= {it: method for it in COLLECTS | {"clone", "expect", "expect_err"}}
RULES |= {it: macro for it in WITH_HANDLE | OF_SHIM | {"prove", "prove_eq", "prove_ne"}}
RULES |= {name: moved_fields for name, _ in MOVED}

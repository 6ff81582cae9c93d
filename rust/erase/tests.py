#!/usr/bin/env python3
"""tests.py: what each rule of the eraser does, over a text of its own, and what ends it. The last line is
'N passed, M failed'."""
import sys

sys.dont_write_bytecode = True
import erase
from lex import Refused

# A rule, a text of Rattle, and what is written for it, but for blanks and the comments that the tests add.
WRITES = [
    ("clauses", "fn f(x: u64) -> u64 requires r { x < 2 } ensures* a { result ≡ { x } } by { omega } { x }", "fn f(x: u64) -> u64 { x }"),
    ("a clause's text", 'fn f() ensures { say "}" } { g() }', "fn f() { g() }"),
    ("ghost items", "ghost use A.{b}; const N: u64 = 1;\n/// Doc.\npub ghost m : { N }; struct S { a: u64, ghost b : { x }, }",
     "const N: u64 = 1; struct S { a: u64, }"),
    ("a ghost item's end", "trait T { fn f(); ghost at }", "trait T { fn f(); }"),
    ("quoted names", "let «in» = 1;", "let in = 1;"),
    ("ghost attributes", "#![tactic(auto)] #[cycle] #[cold] fn f() {}", "#[cold] fn f() {}"),
    ("inline", "impl S { pub(crate) unsafe fn f() {} #[test] fn g() {} fn h(); }",
     "impl S { #[inline] pub(crate) unsafe fn f() {} #[test] fn g() {} fn h(); }"),
    ("inline, once", "impl S { #[inline(always)] fn f() {} fn g() {} }", "impl S { #[inline(always)] fn f() {} #[inline] fn g() {} }"),
    ("derives", "#[derive(Clone, Debug, Drop, Serialize)] struct S; #[derive(Drop)] struct T;", "#[derive(Clone, Debug)] struct S; struct T;"),
    ("all derives", "#[derive(Clone, Copy, Debug, Default, Eq, Hash, Ord, PartialEq, PartialOrd, Deserialize)] struct S;",
     "#[derive(Clone, Copy, Debug, Default, Eq, Hash, Ord, PartialEq, PartialOrd)] struct S;"),
    ("derived clones", "#[derive(Clone, Drop)] struct Reply<K>(Left<K>);", "struct Reply<K>(Left<K>);"),
    ("errors", '#[derive(Debug, ThisError)] pub enum E { #[error("a {0}")] A(u8), #[error("b {n}")] B { n: u8 }, #[error("c")] C }',
     '#[derive(Debug)] pub enum E { A(u8), B { n: u8 }, C } impl ::std::fmt::Display for E { #[inline] fn fmt(&self, f: &mut ::std::fmt::Formatter<\'_>) ->'
     ' ::std::fmt::Result { match self { E::A(at_0) => write!(f, "a {at_0}"), E::B { n, .. } => write!(f, "b {n}"), E::C => write!(f, "c"), } } }'
     " impl ::std::error::Error for E {}"),
    ("a test's runtime", "#[test] fn f(rt: HostRuntime) { g() }", "#[test] fn f() { let rt: HostRuntime = HostRuntime; g() }"),
    ("models", "use std::marker::Model; impl Model for S { type M = u64; } fn f() {}", "fn f() {}"),
    ("models among others", "use std::marker::{Model, PhantomData};", "use K::marker::{PhantomData};"),
    ("copied clones", "impl Copy for S {} impl Clone for S { fn clone(&self) -> Result<S, AllocError> { Ok(*self) } }",
     "impl Copy for S {} impl Clone for S { #[inline(always)] fn clone(&self) -> Self { *self } }"),
    ("clones", "impl<T: Clone> Clone for S<T> { fn clone(&self) -> R { self.0.clone() } }",
     "impl<T: TryClone> TryClone for S<T> { #[inline] fn try_clone(&self) -> R { self.0.try_clone() } }"),
    ("a variant", "match c { Plain::Clone(n) => n }", "match c { Plain::Clone(n) => n }"),
    ("drops as Rust's", "impl Drop for S { fn drop(self) { let S { a: _, b: _, } = self; } } fn f();", "fn f();"),
    ("drops that take", "impl Drop for Ticket { fn drop(self) { let Ticket { core } = self; end(core); } }",
     "impl Drop for Ticket { #[inline] fn drop(&mut self) { let Ticket { core } = self; let core = core.take(); end(core); } }"),
    ("drops that move", "struct Lists { nodes: Vec<T>, n: u8 } fn f() { Lists { nodes, n } } impl Drop for Lists { fn drop(mut self) { self.go();"
     " let Lists { nodes, n: _ } = self; nodes.end(); } }",
     "struct Lists { nodes: ::std::mem::ManuallyDrop<Vec<T>>, n: u8 } #[inline] fn f() { Lists { nodes: ::std::mem::ManuallyDrop::new(nodes), n } }"
     " impl Drop for Lists { #[inline] fn drop(&mut self) { self.go(); let Lists { nodes, n: _ } = self; let nodes = unsafe {"
     " ::std::mem::ManuallyDrop::take(nodes) }; nodes.end(); } }"),
    ("drops that lend and copy", "impl Drop for Counted { fn drop(self) { let Counted(digit, all) = self; add(&all, digit); } }",
     "impl Drop for Counted { #[inline] fn drop(&mut self) { let Counted(digit, all) = self; let digit = *digit; add(all, digit); } }"),
    ("bounds", "fn f<K: Drop, V: Eq + Drop, W: Drop + Eq>(); fn g() where K: Drop, V: Eq {} fn h() where K: Drop, {} fn i() where V: Eq, K: Drop {}",
     "fn f<K, V: Eq, W: Eq>(); #[inline] fn g() where V: Eq {} #[inline] fn h() {} #[inline] fn i() where V: Eq, {}"),
    ("sizes", "pub trait A { fn f(self); } trait B<T>: Eq { fn g() -> Self; } trait C { fn h(&self); }",
     "pub trait A: Sized { fn f(self); } trait B<T>: Sized + Eq { fn g() -> Self; } trait C { fn h(&self); }"),
    ("what allocates", "x.collect::<Vec<_>>(alloc)?; y.to_vec(*s.allocator())?; z.collect();",
     "x.collect_with::<Vec<_>>(alloc)?; y.to_vec_with(*s.allocator())?; z.collect();"),
    ("expect", 'x.expect(&rt, "why"); y.expect_err(rt, "why"); z.expect("why");', 'x.expect_at("why"); y.expect_err_at("why"); z.expect("why");'),
    ("paths", "use crate::a; use std::alloc::Global; use foyer_core::Left; use futures::Future; use thiserror::Error as ThisError;",
     "use OWN::a; use K::alloc::Global; use luffapricot::proved::foyer_core::Left; use K::futures::Future;"),
    ("visibility", "pub(super) struct A; pub(in super::a) struct B;", "pub(crate) struct A; pub(in super::a) struct B;"),
    ("main", "fn main(rt: HostRuntime) -> ExitCode { f(rt) }",
     "fn main() -> K::process::ExitCode { rattle_main(HostRuntime) } fn rattle_main(rt: HostRuntime) -> ExitCode { f(rt) }"),
    ("fmt", "impl Debug for S { fn fmt<W: fmt::Write>(&self, f: &mut fmt::Formatter<W>) -> fmt::Result { g(f) } }",
     "impl Debug for S { #[inline] fn fmt(&self, f: &mut fmt::Formatter<'_>) -> fmt::Result { g(f) } }"),
    ("macros", 'println!(rt; "a"); assert!(&self.rt; b); format!(in s.alloc; "c"); vec![in alloc; 0; 9]; prove!(d); unreachable!(); assert!(e);',
     'K::macros::println!("a"); K::macros::assert!(b); K::macros::format!("c"); K::macros::vec![0; 9]; debug_assert!(d);'
     " K::macros::unreachable!(); assert!(e);"),
    ("what both write", "let a: Result<u8, E> = f(|x| -x.0 << 1)?; match a { Ok(1..=2) => (), Err(_) => return }",
     "let a: Result<u8, E> = f(|x| -x.0 << 1)?; match a { Ok(1..=2) => (), Err(_) => return }"),
    ("a ghost item's comments", "// Of the file.\n\n// Of the item.\nghost use A.b;\nlet a = 1; // of a\nghost use C.d;\nf();",
     "// Of the file.\n let a = 1; // of a\n f();"),
    ("comments stay", "// why\nlet a = 'b'; /* c */ let d = \"ensures { }\";", "// why\nlet a = 'b'; /* c */ let d = \"ensures { }\";"),
]
ENDS = [
    ("an attribute", "fn f() {}\n#[no_mangle] fn g() {}", "2: the attribute no_mangle"),
    ("an attribute without an end", "fn f() {}\n#[cold fn g() {}", "2: [ isn't closed"),
    ("a trait without a body", "\ntrait A: B", "2: no { follows"),
    ("a macro", "fn f() {\nasm!() }", "2: the macro asm!"),
    ("a derive", "\n\n#[derive(Clone, Zeroize)] struct S;", "3: the derive Zeroize"),
    ("a drop of an unknown type", "\nimpl Drop for New { fn drop(self) { let New { a } = self; a.end(); } }",
     "2: a drop of New, which no rule knows"),
    ("a drop of an unknown field", "impl Drop for Ticket { fn drop(self) { let Ticket { a } = self; a.end(); } }",
     "1: a drop of Ticket, which no rule knows"),
    ("a drop that keeps its value whole", "impl Drop for Ticket { fn drop(self) { end(self); } }", "1: a drop of Ticket that doesn't take it apart"),
    ("a moved field that isn't there", "struct Lists { cells: u8 }", "1: a Lists without nodes"),
    ("a clone where none is known", "fn f() { let a = Clone; }", "1: a Clone after ="),
    ("a foreign character", "fn f() {\n  a ∷ b }", "a.rt:2: the character '∷'"),
    ("a clause without braces", "fn f()\nensures result", "a.rt:2: a clause without braces: ' result'"),
    ("ghost code without an end", "ghost a = { x", "a.rt:1: a brace of ghost code isn't closed"),
]


def erased(text):
    target = erase.Target("a", True)
    target.own, target.kit = "OWN::", "K::"
    out = target.erased("a.rt", text, erase.copied_in([text]))
    note = erase.NOTE.format("a/src/a.rt") + erase.ALLOWED + "use K::prelude::*;\n"
    assert note in out, "the first lines"
    return " ".join(out.replace(note, "").split())


def why_wrong(text, wanted):
    try:
        got = erased(text)
    except Refused as refused:
        got = str(refused)
    close = "".join(wanted.split()) == "".join(got.split())
    return None if close else f"\n    wanted {wanted}\n    got    {got}"


def main():
    failed = 0
    for name, text, wanted in WRITES + ENDS:
        why = why_wrong(text, wanted)
        failed += why is not None
        if why:
            print(f"{name}: {why}")
    print(f"{len(WRITES + ENDS) - failed} passed, {failed} failed")
    return 1 if failed else 0


if __name__ == "__main__":
    sys.exit(main())

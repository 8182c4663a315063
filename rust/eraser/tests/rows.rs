//! Each row of the table on a source of its own.

mod given;

use given::erased;
use sidorghu_eraser::{ROWS, Row};

#[test]
fn proof_goes() {
    let (text, counts) = erased(
        "//! A file.\n#![tactic(auto)]\n\nghost use Rattle.a.{b, ◌≤◌};\nghost use Rattle.c.{d};\n\n/// A sum.\n#[tactic(auto, unfolding(x))]\npub fn sum(a: u8) -> u8\n    requires small { a ≤ 3 }\n    ensures { result ≡ a + 1 }\n    ensures* x { \"}\" }\n{\n    a + 1\n}\n",
    );
    assert_eq!(text, "//! A file.\n\n/// A sum.\npub fn sum(a: u8) -> u8 {\n    a + 1\n}\n");
    assert_eq!(counts.of(Row::GhostUse), 2);
    assert_eq!(counts.of(Row::Clause), 3);
    assert_eq!(counts.of(Row::Tactic), 2);
}

#[test]
fn ghost_members_and_models_go() {
    let (text, _) = erased(
        "use std::marker::{Model, PhantomData};\n\n/// A pair.\n#[derive(Clone, Copy, Drop)]\npub struct Pair {\n    a: u8,\n    /// What it means.\n    pub(crate) ghost meaning: { ℕ },\n    ghost small: { a ≤ 3 }\n}\n\n// What a clause sees.\nimpl Model for Pair {\n    ghost Value = { ℕ };\n    ghost view = { λ p. p.a };\n}\n\ntrait Law {\n    ghost known: { Self → Type 0 } = { λ _. Unit {0} };\n    fn get(&self) -> u8\n        ensures { known self };\n}\n",
    );
    assert_eq!(
        text,
        "use crate::rattle_std::marker::PhantomData;\n\n/// A pair.\n#[derive(Clone, Copy)]\npub struct Pair {\n    a: u8,\n}\n\ntrait Law {\n    fn get(&self) -> u8;\n}\n"
    );
}

#[test]
fn laws_and_their_calls_go() {
    let (text, counts) = erased(
        "use crate::laws::{one_law, other, two_laws};\nuse crate::laws::one_law;\n\n// law\n/// It holds.\npub fn one_law()\n    ensures { a ≡ a }\n{}\n\nfn two_laws()\n    ensures { b ≡ b }\n{\n    one_law();\n}\n\npub fn act(x: &Thing) -> u8 {\n    // law: why\n    // and more\n    crate::laws::one_law();\n    two_laws();\n    x.inner.sound();\n    x.act()\n}\n\nimpl Thing {\n    fn sound(&self)\n        ensures { c }\n    {}\n}\n",
    );
    assert_eq!(text, "use crate::mine::laws::other;\n\npub fn act(x: &Thing) -> u8 {\n    x.act()\n}\n");
    assert_eq!(counts.of(Row::Law), 2);
    assert_eq!(counts.of(Row::LawCall), 3);
    assert_eq!(counts.of(Row::LawUse), 3);
    assert_eq!(counts.of(Row::EmptyImpl), 1);
}

#[test]
fn what_may_do_something_is_no_law() {
    for text in [
        "fn none() {}\n",
        "fn told() -> u8\n    ensures { a }\n{\n    1\n}\n",
        "fn writes(&mut self)\n    ensures { a }\n{}\n",
        "fn takes(a: u8)\n    ensures { a }\n{}\n",
        "impl Flush for Thing {\n    fn flush(&self)\n        ensures { a }\n    {}\n}\n",
    ] {
        assert!(erased(text).0.contains("fn "), "{text}");
    }
}

#[test]
fn paths_have_new_roots() {
    let (text, _) = erased(
        "use byteorder::{BigEndian, ByteOrder};\nuse sctp_other::Thing;\nuse std::{env, io};\nuse words::Words;\n\nfn f(x: crate::A, y: sctp_other::B) -> std::fmt::Result {\n    x.std::<u8>();\n    y.crate_name + a::std::b\n}\n",
    );
    assert_eq!(
        text,
        "use crate::byteorder::{BigEndian, ByteOrder};\nuse crate::sctp_other::Thing;\nuse crate::rattle_std::{env, io};\nuse words::Words;\n\nfn f(x: crate::mine::A, y: crate::sctp_other::B) -> crate::rattle_std::fmt::Result {\n    x.std::<u8>();\n    y.crate_name + a::std::b\n}\n"
    );
}

#[test]
fn the_prelude_is_named_where_it_is_used() {
    let (text, _) = erased("//! Lists.\n\nmod a;\n\npub use a::B;\n\nfn f() -> Vec<u8> {\n    words.collect(alloc)\n}\n");
    assert_eq!(
        text,
        "//! Lists.\n\nmod a;\n\nuse crate::rattle_std::prelude::*;\npub use a::B;\n\nfn f() -> Vec<u8> {\n    words.collect_in(alloc)\n}\n"
    );
    assert_eq!(erased("fn f(a: u8) -> u8 {\n    a.iter().collect()\n}\n").0, "fn f(a: u8) -> u8 {\n    a.iter().collect()\n}\n");
}

#[test]
fn errors_are_written_out() {
    let (text, _) = erased(
        "use thiserror::Error;\n\n#[derive(Debug, Drop, Error)]\npub enum Fault {\n    #[error(\"at {0}: {1}\")]\n    At(u8, u8),\n    #[error(\"no {name}\")]\n    Named { name: u8, more: u8 },\n    #[error(\"plain\")]\n    Plain,\n    #[error(transparent)]\n    Inner(#[from] Other),\n}\n",
    );
    for line in [
        "            Fault::At(_0, _1) => write!(f, \"at {_0}: {_1}\"),\n",
        "            Fault::Named { name, .. } => write!(f, \"no {name}\"),\n",
        "            Fault::Plain => write!(f, \"plain\"),\n",
        "            Fault::Inner(_0) => core::fmt::Display::fmt(_0, f),\n",
        "impl core::error::Error for Fault {}\n",
        "impl From<Other> for Fault {\n    fn from(inner: Other) -> Fault {\n        Fault::Inner(inner)\n",
    ] {
        assert!(text.contains(line), "{line}\n{text}");
    }
    assert!(text.starts_with("#[derive(Debug)]\npub enum Fault {\n    At(u8, u8),\n"), "{text}");
}

#[test]
fn bounds_lose_drop() {
    let (text, _) = erased("impl<T: Drop, U: Copy + Drop> A<T> {\n    fn f<V: Drop + Eq>(v: V)\n    where\n        T: Drop,\n    {\n    }\n}\n");
    assert_eq!(text, "impl<T, U: Copy> A<T> {\n    fn f<V: Eq>(v: V) {\n    }\n}\n");
}

#[test]
fn heads_of_c_pass_slices_and_no_allocator() {
    let (text, _) = erased(
        "#[unsafe(no_mangle)]\npub extern \"C\" fn sctp_send(\n    alloc: Global,\n    bytes: &[u8],\n    room: &mut [u8],\n    now: u64,\n) -> u32\n    ensures { a }\n{\n    act(alloc, bytes, room)\n}\n",
    );
    assert_eq!(
        text,
        "#[unsafe(no_mangle)]\npub extern \"C\" fn sctp_send(\n    bytes: *const u8,\n    bytes_length: usize,\n    room: *mut u8,\n    room_length: usize,\n    now: u64,\n) -> u32 {\n    let alloc = Global;\n    let bytes = unsafe { crate::rattle_std::ffi::slice(bytes, bytes_length) };\n    let room = unsafe { crate::rattle_std::ffi::slice_mut(room, room_length) };\n    act(alloc, bytes, room)\n}\n"
    );
}

#[test]
fn programs_and_tests_get_their_handle() {
    let (text, _) =
        erased("fn main(rt: HostRuntime) -> u8 {\n    println!(rt; \"a\")\n}\n\n#[test]\nfn it(rt: HostRuntime) {\n    assert!(rt; true);\n}\n");
    assert_eq!(
        text,
        "use crate::rattle_std::prelude::*;\n\npub(crate) fn main(rt: HostRuntime) -> u8 {\n    crate::rattle_std::println!(rt; \"a\")\n}\n\n#[test]\nfn it() {\n    let rt = HostRuntime;\n    crate::rattle_std::assert!(rt; true);\n}\n"
    );
}

#[test]
fn comments_are_for_a_reader_of_rust() {
    let (text, _) = erased(
        "//! A list.\n//!\n//! | promise | contract |\n//! |---|---|\n//! | a | b |\n//!\n//! | at | size |\n//! |---|---|\n//! | 0 | 4 |\n\n/// See [`one_law`] and [`act`].\n///\n/// ```rust\n/// x(rt);\n/// ```\nfn act(a: u8) {}\n\nfn one_law()\n    ensures { a }\n{}\n",
    );
    assert_eq!(
        text,
        "//! A list.\n//!\n//! | at | size |\n//! |---|---|\n//! | 0 | 4 |\n\n/// See `one_law` and [`act`].\n///\n/// ```text\n/// x(rt);\n/// ```\nfn act(a: u8) {}\n"
    );
}

#[test]
fn strings_and_characters_stay_as_they_are() {
    let given = "const A: &str = \"requires {\n\n\n  } // no \\\" std::x\";\nconst B: char = '\\'';\nconst C: [u8; 2] = [b'\"', b'\\\\'];\nfn f<'a>(x: &'a str) -> char {\n    '{'\n}\n";
    assert_eq!(erased(given).0, given);
}

#[test]
fn the_table_has_each_row_once_and_in_order() {
    for (at, entry) in ROWS.iter().enumerate() {
        assert_eq!(entry.row as usize, at, "{}", entry.name);
        assert!(!entry.what.is_empty() && !entry.why.is_empty());
        assert_eq!(ROWS.iter().filter(|other| other.name == entry.name).count(), 1, "{}", entry.name);
    }
}

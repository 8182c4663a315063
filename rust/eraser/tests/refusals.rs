//! Each kind of form without a row is refused with its file and line.

mod given;

use given::tried;

/// A source that is refused, the line, and a word of what is said.
const REFUSED: [(&str, usize, &str); 40] = [
    ("fn f() {}\n#[cfg(unix)]\nfn g() {}\n", 2, "cfg(unix)"),
    ("#[allow(dead_code)]\nfn g() {}\n", 1, "allow"),
    ("#![no_std]\n", 1, "no_std"),
    ("#[cycle(a)]\nfn g() {}\n", 1, "cycle"),
    ("#[derive(Clone, Serialize)]\nstruct A;\n", 1, "Serialize"),
    ("#[repr(packed)]\nstruct A;\n", 1, "repr(packed)"),
    ("#[inline(sometimes)]\nfn a(x: u8) {}\n", 1, "sometimes"),
    ("fn f() {\n    prove!(a);\n}\n", 2, "prove"),
    ("fn f() {\n    panic!();\n}\n", 2, "panic"),
    ("fn f() {\n    cfg!(test);\n}\n", 2, "cfg"),
    ("macro_rules! a {}\n", 1, "macro_rules"),
    ("fn f() {}\n\nunsafe fn g(a: u8) {}\n", 3, "unsafe"),
    ("unsafe trait A {}\n", 1, "unsafe"),
    ("extern \"system\" fn g(a: u8) {}\n", 1, "extern"),
    ("unsafe extern \"C\" {\n    fn g(a: u8);\n}\n", 1, "unsafe"),
    ("static mut A: u8 = 1;\n", 1, "static mut"),
    ("async fn f(a: u8) {}\n", 1, "async"),
    ("union A {\n}\n", 1, "union"),
    ("mod a {\n    fn f() {}\n}\n", 1, "module in braces"),
    ("/* a */\n", 1, "/*"),
    ("const A: &str = r\"a\";\n", 1, "raw"),
    ("fn f(«data»: u8) {}\n", 1, "isn't of Rust"),
    ("fn f() {\n    ghost let a = 1;\n}\n", 2, "ghost"),
    ("ghost fn f() {}\n", 1, "ghost"),
    ("fn f()\n    requires = 2\n{}\n", 2, "clause"),
    ("fn f()\n    requires {\n{}\n", 2, "no end"),
    ("const A: &str = \"a;\n", 1, "no end"),
    ("impl Model for A {\n    fn f(a: u8) {}\n}\n", 2, "Model"),
    ("fn l()\n    ensures { a }\n{}\nfn f(a: u8) {\n    let x = l();\n}\n", 5, "law"),
    ("fn l()\n    ensures { a }\n{}\nfn f(a: u8) {\n    g(l());\n}\n", 5, "law"),
    ("fn l<T>()\n    ensures { a }\n{}\nfn f(a: u8) {\n    l::<u8>();\n}\n", 5, "law"),
    ("use crate::laws::l as m;\nfn l()\n    ensures { a }\n{}\n", 1, "another name"),
    ("fn l()\n    ensures { a }\n{\n    unsafe { b }\n}\n", 1, "unsafe"),
    ("use std::cell::Cell;\nimpl A {\n    fn l(&self)\n        ensures { a }\n    {}\n}\n", 3, "Cell"),
    ("fn main() {}\n", 1, "main"),
    ("#[test]\nfn a(x: u8) {}\n", 2, "test"),
    ("impl A {\n    fn fmt<W>(&self, w: W) {}\n}\n", 2, "fmt"),
    ("pub extern \"C\" fn g(a: Vec<u8>) {}\n", 1, "Vec"),
    ("fn f(a: Box<Drop>) {}\n", 1, "Drop"),
    ("use thiserror::Error;\n#[derive(Error)]\nenum A {\n    B,\n}\n", 4, "message"),
];

#[test]
fn each_kind_is_refused_with_its_line() {
    for (text, line, word) in REFUSED {
        match tried(text) {
            Ok((made, _)) => panic!("it isn't refused:\n{text}\n{made}"),
            Err(refusal) => {
                assert_eq!((refusal.file.as_str(), refusal.line), ("a.rt", line), "{refusal}\n{text}");
                assert!(refusal.what.contains(word), "{refusal}\n{text}");
                assert_eq!(refusal.to_string(), format!("a.rt:{line}: {}", refusal.what));
            }
        }
    }
}

#[test]
fn a_name_of_a_law_and_of_another_function_is_told() {
    let mut laws = sidorghu_eraser::Laws::default();
    laws.note("a.rt", "fn l()\n    ensures { a }\n{}\n").unwrap();
    assert_eq!(laws.doubtful(), None);
    laws.note("b.rt", "fn l() {\n    act();\n}\n").unwrap();
    assert_eq!(laws.doubtful(), Some("l"));
}

//! The page docs/RUST.md shows the table as the program has it.

use std::fs;

#[test]
fn the_page_shows_the_table() {
    let path = concat!(env!("CARGO_MANIFEST_DIR"), "/../../docs/RUST.md");
    let page = fs::read_to_string(path).unwrap();
    let (_, behind) = page.split_once("<!-- rows -->\n").expect("the page has a mark before the table");
    let (table, _) = behind.split_once("<!-- end of rows -->").expect("the page has a mark behind the table");
    assert_eq!(table, sidorghu_eraser::rows_table(), "write what `cargo run -p sidorghu-eraser -- --rows` prints between the marks");
}

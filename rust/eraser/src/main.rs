//! `sidorghu-erase CHECKOUT OUT` writes all crates' erased sources into OUT. With `--counts` it prints how often each row was used; with
//! `--fast-checksum` the checksum asks for the processor's where a feature of that name is on. `sidorghu-erase --rows` prints the table.

use sidorghu_eraser::{Counts, ROWS, Refusal, Row, Tree, choose_checksum, rows_table, write};
use std::path::Path;
use std::process::ExitCode;

const USAGE: &str = "usage: sidorghu-erase CHECKOUT OUT [--counts | --fast-checksum] | --rows";

fn main() -> ExitCode {
    let words: Vec<String> = std::env::args().skip(1).collect();
    let words: Vec<&str> = words.iter().map(String::as_str).collect();
    let done = match words.as_slice() {
        ["--rows"] => {
            print!("{}", rows_table());
            return ExitCode::SUCCESS;
        }
        [checkout, out] => run(checkout, out, false, false),
        [checkout, out, "--counts"] => run(checkout, out, true, false),
        [checkout, out, "--fast-checksum"] => run(checkout, out, false, true),
        _ => {
            eprintln!("{USAGE}");
            return ExitCode::from(2);
        }
    };
    match done {
        Ok(()) => ExitCode::SUCCESS,
        Err(refusal) => {
            eprintln!("{refusal}");
            ExitCode::FAILURE
        }
    }
}

fn run(checkout: &str, out: &str, counts: bool, fast: bool) -> Result<(), Refusal> {
    let tree = Tree::of(Path::new(checkout))?;
    let (mut made, used) = tree.erase(&tree.crates())?;
    if fast {
        choose_checksum(&mut made)?;
    }
    write(&made, Path::new(out))?;
    if counts {
        print!("{}", table(&used));
    }
    Ok(())
}

/// How often each row was used, but that of white space.
fn table(used: &Counts) -> String {
    let counted = ROWS.iter().filter(|it| it.row != Row::Space);
    counted.map(|it| format!("{:6} {}\n", used.of(it.row), it.name)).collect()
}

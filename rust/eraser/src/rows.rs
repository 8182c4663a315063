//! The table: each row is one kind of change, with the reason why what runs means the same. What no row names stands word for word in the output.

/// A row of the table.
#[derive(Clone, Copy, Debug, PartialEq, Eq, PartialOrd, Ord)]
#[repr(u8)]
pub enum Row {
    GhostUse,
    Clause,
    GhostMember,
    Model,
    UseModel,
    Tactic,
    DeriveDrop,
    BoundDrop,
    Law,
    LawCall,
    LawUse,
    LawComment,
    EmptyImpl,
    StdPath,
    CratePath,
    LibraryPath,
    Prelude,
    Derived,
    Collect,
    Formatter,
    CSlice,
    CAllocator,
    Macro,
    Main,
    Test,
    Example,
    Link,
    Table,
    Space,
}

/// A row's name, what it does, and why meaning stays.
pub struct Entry {
    pub row: Row,
    /// Its name in counts and in the page.
    pub name: &'static str,
    /// What it does.
    pub what: &'static str,
    /// Why what runs means the same.
    pub why: &'static str,
}

const fn entry(row: Row, name: &'static str, what: &'static str, why: &'static str) -> Entry {
    Entry { row, name, what, why }
}

/// All rows, in the order of `Row`.
pub const ROWS: [Entry; 29] = [
    entry(Row::GhostUse, "ghost use", "an import of the proof's language goes", "it names terms for clauses alone; no code is made of it"),
    entry(
        Row::Clause,
        "clause",
        "`requires`, `ensures`, `ensures*` with name and term go",
        "a clause is proved before the build; no code is made of it",
    ),
    entry(
        Row::GhostMember,
        "ghost member",
        "a ghost field or a ghost member of a trait or impl goes, with its comments",
        "it has no size and no value when the program runs",
    ),
    entry(Row::Model, "impl Model", "an `impl Model` goes", "it has ghost members alone: what a clause sees of a type"),
    entry(Row::UseModel, "use Model", "the import of `Model` goes", "only an `impl Model` needs it"),
    entry(Row::Tactic, "tactic", "`#[tactic(..)]` goes", "it says how goals are searched for; no code is made of it"),
    entry(Row::DeriveDrop, "derive Drop", "the word `Drop` goes from a derive", "in Rust every value is dropped field by field without it"),
    entry(
        Row::BoundDrop,
        "bound Drop",
        "the bound `Drop` goes",
        "in Rust every type can be dropped; as a bound it would ask for a destructor by hand",
    ),
    entry(
        Row::Law,
        "law",
        "a function that takes nothing or `&self`, returns nothing and has a clause goes, with its comments",
        "it has nothing to write to and is proved to end: it is there for its clause",
    ),
    entry(
        Row::LawCall,
        "call of a law",
        "a statement that calls a law on names goes",
        "such a function does nothing, and a name that is read changes nothing",
    ),
    entry(Row::LawUse, "import of a law", "a law's name goes from an import", "the law isn't there any more, and nothing calls it"),
    entry(Row::LawComment, "comment of a law", "a comment that begins `// law` goes", "it says why a law is called"),
    entry(Row::EmptyImpl, "impl of laws", "an `impl` of a type that had laws alone goes", "nothing is left in it"),
    entry(
        Row::StdPath,
        "std",
        "the path root `std` is `crate::rattle_std`",
        "its functions keep what the contracts of Rattle's std promise, allocation failure too; each is tested for it",
    ),
    entry(
        Row::CratePath,
        "crate",
        "`crate::` is `crate::NAME::`, and another crate's name is `crate::` and that name",
        "each crate is a module; the path names the same item",
    ),
    entry(Row::LibraryPath, "library", "byteorder, arrayvec, sha2 and the like are modules: `crate::NAME`", "by hand, and tested as rattle_std is"),
    entry(
        Row::Prelude,
        "prelude",
        "`use crate::rattle_std::prelude::*;` in a file that names one of its items",
        "Rattle has these names without an import",
    ),
    entry(
        Row::Derived,
        "derive Error",
        "what thiserror's derive makes is written out",
        "the messages and conversions of the attributes, as the crate documents them",
    ),
    entry(
        Row::Collect,
        "collect",
        "`.collect(a)` is `.collect_in(a)`",
        "Rust's `collect` takes no allocator; the shim's pushes item by item, as Rattle's",
    ),
    entry(
        Row::Formatter,
        "formatter",
        "a `fmt` that is generic over its writer has std's head",
        "Rust's formatter hides its writer; the body is the same",
    ),
    entry(
        Row::CSlice,
        "slice of C",
        "in `extern \"C\"` a slice is a pointer and a length, and the body begins with the slice of them",
        "that is how Rattle passes a slice; length 0 may have a null pointer",
    ),
    entry(
        Row::CAllocator,
        "allocator of C",
        "in `extern \"C\"` a parameter `alloc: Global` is a value in the body",
        "it has no size: Rattle passes nothing for it",
    ),
    entry(
        Row::Macro,
        "macro",
        "a macro that takes an allocator or the process's handle is the shim's",
        "the same text is formatted; an allocation failure is returned",
    ),
    entry(Row::Main, "main", "a program's `main` can be named by the crate", "the binary calls it with the process's handle, as Rattle's start does"),
    entry(Row::Test, "test", "a test makes the process's handle, which it takes in Rattle", "the handle has no size"),
    entry(Row::Example, "example", "an example of a comment is marked `text`", "it is written for Rattle; comments don't run"),
    entry(Row::Link, "link", "a comment's link to a law is its name alone", "the law isn't there any more"),
    entry(
        Row::Table,
        "table of clauses",
        "a table of a comment whose first line names laws, clauses, contracts, promises or definitions goes",
        "it says which clause promises what, and clauses went; comments don't run",
    ),
    entry(Row::Space, "space", "white space that is left where something went is closed up", "white space outside of strings means nothing"),
];

/// The rows as a table of a page.
pub fn rows_table() -> String {
    let lines: String = ROWS.iter().map(|it| format!("| {} | {} | {} |\n", it.name, it.what, it.why)).collect();
    format!("| row | what it does | why meaning stays |\n|---|---|---|\n{lines}")
}

/// How often each row was used.
#[derive(Clone, Copy, Debug, PartialEq, Eq)]
pub struct Counts([usize; ROWS.len()]);

impl Default for Counts {
    fn default() -> Counts {
        Counts([0; ROWS.len()])
    }
}

impl Counts {
    pub(crate) fn add(&mut self, row: Row) {
        self.0[row as usize] += 1;
    }

    /// How often this row was used.
    pub fn of(&self, row: Row) -> usize {
        self.0[row as usize]
    }

    /// Adds those of another source.
    pub fn join(&mut self, other: &Counts) {
        for (to, more) in self.0.iter_mut().zip(other.0) {
            *to += more;
        }
    }
}

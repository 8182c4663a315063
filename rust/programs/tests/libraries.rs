//! What the programs use of hex, itoa and clap, by hand in the shim: digits, faults of digits, and words of a command line.
#![no_std]

extern crate alloc;
extern crate std;

#[path = "../../shim/clap.rs"]
mod clap;
#[path = "../../shim/hex.rs"]
mod hex;
#[path = "../../shim/itoa.rs"]
mod itoa;
#[allow(dead_code, unused_imports, unused_macros)]
#[path = "../../shim/mod.rs"]
mod rattle_std;

use clap::error::ErrorKind;
use clap::{Arg, Command};
use hex::FromHexError;
use rattle_std::alloc::Global;
use rattle_std::string::String;
use std::format;
use std::string::ToString;
use std::vec::Vec;

#[test]
fn bytes_are_digits_and_back() {
    let bytes: Vec<u8> = (0..=255).collect();
    let text = hex::encode(Global, &bytes).unwrap();
    let wanted: std::string::String = bytes.iter().map(|byte| format!("{byte:02x}")).collect();
    assert_eq!(text.as_str(), wanted);
    assert_eq!(hex::decode(Global, text.as_str()).unwrap().as_slice(), bytes);
    assert_eq!(hex::decode(Global, wanted.to_uppercase()).unwrap().as_slice(), bytes);
    let mut room = [0; 4];
    hex::encode_to_slice([0x0f, 0xa0], &mut room).unwrap();
    assert_eq!(&room, b"0fa0");
    hex::decode_to_slice("0fa0AbcD", &mut room).unwrap();
    assert_eq!(room, [0x0f, 0xa0, 0xab, 0xcd]);
}

#[test]
fn faults_of_digits_are_named() {
    let mut room = [0; 2];
    for (text, fault) in [
        ("abc", FromHexError::OddLength),
        ("ag", FromHexError::InvalidHexCharacter { c: 'g', index: 1 }),
        ("ab /", FromHexError::InvalidHexCharacter { c: ' ', index: 2 }),
        ("00:0", FromHexError::InvalidHexCharacter { c: ':', index: 2 }),
    ] {
        assert_eq!(hex::decode(Global, text), Err(fault));
    }
    assert_eq!(hex::decode_to_slice("ab", &mut room), Err(FromHexError::InvalidStringLength));
    assert_eq!(hex::decode_to_slice("abc", &mut room), Err(FromHexError::OddLength));
    assert_eq!(hex::encode_to_slice([1], &mut [0; 3]), Err(FromHexError::InvalidStringLength));
    assert_eq!(hex::decode(Global, "").unwrap().len(), 0);
}

#[test]
fn numbers_are_decimal_digits() {
    let mut buffer = itoa::Buffer::new();
    for number in [0, 7, 10, 99, 100, 1_234_567_890, u64::MAX - 1, u64::MAX, 3] {
        assert_eq!(buffer.format(number), number.to_string());
    }
}

/// What a command line of a program with `run` and `show FILE [MORE]` is: the subcommand and its words, or the fault.
fn read(line: &[&str]) -> Result<Vec<std::string::String>, ErrorKind> {
    let words: Vec<String> = line.iter().map(|word| String::from_str(Global, word).unwrap()).collect();
    let show = Command::new(Global, "show").arg(Arg::new(Global, "file").required(true)).unwrap().arg(Arg::new(Global, "more")).unwrap();
    let command = Command::new(Global, "program").subcommand_required(true);
    let command = command.subcommand(Command::new(Global, "run")).unwrap().subcommand(show).unwrap();
    let found = command.try_get_matches_from(&words).map_err(|fault| fault.kind())?;
    let name = ["run", "show"].into_iter().find(|name| found.subcommand_matches(name).is_some()).unwrap();
    let values = ["file", "more"].into_iter().filter_map(|name| found.get_str(name));
    Ok(core::iter::once(name).chain(values).map(ToString::to_string).collect())
}

#[test]
fn words_are_a_subcommand_and_its_arguments() {
    for (line, found) in [
        (&["x", "run"][..], &["run"][..]),
        (&["x", "show", "a"], &["show", "a"]),
        (&["x", "show", "a", "-"], &["show", "a", "-"]),
        (&["x", "show", "--", "-a", "--help"], &["show", "-a", "--help"]),
    ] {
        assert_eq!(read(line).unwrap(), found, "{line:?}");
    }
}

#[test]
fn faults_of_words_are_named() {
    for (line, fault) in [
        (&["x"][..], ErrorKind::MissingSubcommand),
        (&["x", "go"], ErrorKind::InvalidSubcommand),
        (&["x", "-v"], ErrorKind::UnknownArgument),
        (&["x", "run", "a"], ErrorKind::UnknownArgument),
        (&["x", "show"], ErrorKind::MissingRequiredArgument),
        (&["x", "show", "a", "b", "c"], ErrorKind::UnknownArgument),
        (&["x", "show", "-a"], ErrorKind::UnknownArgument),
        (&["x", "help"], ErrorKind::DisplayHelp),
        (&["x", "show", "a", "-h"], ErrorKind::DisplayHelp),
    ] {
        assert_eq!(read(line), Err(fault), "{line:?}");
        assert_eq!(fault.as_str().is_none(), fault == ErrorKind::DisplayHelp);
    }
}

//! SHA-256 on the standard's examples.

use crate::sha2::{Digest, Sha256};
use std::format;
use std::string::String;
use std::vec::Vec;

fn hex(bytes: &[u8]) -> String {
    bytes.iter().map(|byte| format!("{byte:02x}")).collect()
}

#[test]
fn the_standards_examples() {
    for (text, hash) in [
        ("", "e3b0c44298fc1c149afbf4c8996fb92427ae41e4649b934ca495991b7852b855"),
        ("abc", "ba7816bf8f01cfea414140de5dae2223b00361a396177a9cb410ff61f20015ad"),
        ("abcdbcdecdefdefgefghfghighijhijkijkljklmklmnlmnomnopnopq", "248d6a61d20638b8e5c026930c3e6039a33ce45964ff2167f6ecedd419db06c1"),
        (
            "abcdefghbcdefghicdefghijdefghijkefghijklfghijklmghijklmnhijklmnoijklmnopjklmnopqklmnopqrlmnopqrsmnopqrstnopqrstu",
            "cf5b16a778af8380036ce59e7b0492370b249b11e8f07a51afac45037afee9d1",
        ),
    ] {
        assert_eq!(hex(&Sha256::digest(text)), hash);
    }
    assert_eq!(hex(&Sha256::digest(std::vec![b'a'; 1_000_000])), "cdc76e5c9914fb9281a1c7e284d73e67f1809a48a497200e046d39ccc7112cd0");
}

#[test]
fn pieces_are_hashed_as_the_whole() {
    let bytes: Vec<u8> = (0..260u16).map(|at| (at * 31) as u8).collect();
    for end in 0..bytes.len() {
        let whole = Sha256::digest(&bytes[..end]);
        for cut in [0, 1, end / 3, end / 2, end.saturating_sub(1)] {
            let mut hash = Sha256::new();
            let (first, second) = bytes[..end].split_at(cut.min(end));
            hash.update(first);
            hash.update(second);
            assert_eq!(hash.finalize(), whole);
        }
    }
}

#[test]
fn lengths_around_a_block_have_their_padding() {
    let hashes: String =
        (54..=66).chain(118..=130).map(|many| hex(&Sha256::digest(&[0x5a; 130][..many]))[..4].into()).collect::<Vec<String>>().concat();
    assert_eq!(hashes, "bbc95f25301c30abef77298f05057c8796a19397cc73b8de7c6e9b73a96860ec7186443c0cab28b5932416dbf465349d65157d92");
}

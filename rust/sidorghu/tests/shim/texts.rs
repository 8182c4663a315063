//! `String`.

use crate::rattle_std;
use crate::rattle_std::alloc::{AllocError, Global};
use crate::rattle_std::string::String;
use crate::refusing::after;
use std::string::String as Plain;

#[test]
fn text_grows_or_stays() {
    let (mut text, mut plain, mut failed) = (String::new(Global), Plain::with_capacity(4096), 0);
    for (at, c) in ['a', 'é', '€', '😀'].into_iter().cycle().take(200).enumerate() {
        let many = at % 3;
        match after(many, || if at % 2 == 0 { text.push(c) } else { text.push_str("été") }) {
            Ok(()) if at % 2 == 0 => plain.push(c),
            Ok(()) => plain.push_str("été"),
            Err(AllocError) => failed += 1,
        }
        assert_eq!(text.as_str(), plain);
    }
    assert!(failed > 0);
    text.clear();
    assert_eq!(text.as_str(), "");
}

#[test]
fn copies_are_equal_or_refused() {
    let text = String::from_str(Global, "words").unwrap();
    assert_eq!(text.clone().unwrap(), text);
    assert!(after(0, || text.clone()).is_err());
    assert!(after(0, || String::from_str(Global, "w")).is_err());
    assert_eq!(after(0, || String::from_str(Global, "")).unwrap().as_str(), "");
    assert_eq!(String::from(Plain::from("x")).as_str(), "x");
}

#[test]
fn formatted_text_is_the_same_or_refused() {
    let made = rattle_std::format!(in Global; "{}-{:02x}", 7, 10).unwrap();
    assert_eq!(made.as_str(), "7-0a");
    assert_eq!(after(0, || rattle_std::format!(in Global; "{}", 7)), Err(AllocError));
    let mut text = made;
    write!(text, "+{}", 1).unwrap();
    assert_eq!(text.as_str(), "7-0a+1");
}

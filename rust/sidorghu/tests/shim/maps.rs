//! `BTreeMap`: each call beside Rust's, with and without memory.

use crate::rattle_std::alloc::Global;
use crate::rattle_std::collections::BTreeMap;
use crate::refusing::{Numbers, after};
use std::collections::BTreeMap as Plain;

#[test]
fn a_map_is_as_rusts() {
    let (mut map, mut plain, mut numbers) = (BTreeMap::new(Global), Plain::new(), Numbers(7));
    for _ in 0..20_000 {
        let (key, value) = (numbers.below(60), numbers.below(1_000));
        match numbers.below(3) {
            0 => assert_eq!(map.remove(&key), plain.remove(&key)),
            1 => assert_eq!(map.insert(key, value).expect("memory"), plain.insert(key, value)),
            _ => assert_eq!(map.get_mut(&key).map(|it| core::mem::replace(it, value)), plain.get_mut(&key).map(|it| core::mem::replace(it, value))),
        }
        assert_eq!((map.len(), map.is_empty(), map.get(&key)), (plain.len(), plain.is_empty(), plain.get(&key)));
        assert_eq!(map.contains_key(&key), plain.contains_key(&key));
    }
}

#[test]
fn a_map_without_memory_stays() {
    let mut map = BTreeMap::new(Global);
    let Err(failed) = after(0, || map.insert(5, 6)) else { panic!("memory was refused") };
    assert_eq!((failed.value, map.len(), map.get(&5)), ((5, 6), 0, None));
    assert!(map.insert(5, 6).is_ok());
    assert_eq!(after(0, || map.insert(5, 7)).ok().flatten(), Some(6));
}

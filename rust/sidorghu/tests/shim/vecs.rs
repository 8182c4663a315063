//! `Vec`: each call beside a plain list, with and without memory.

use crate::rattle_std::alloc::{AllocError, CollectIn, Global};
use crate::rattle_std::vec::Vec;
use crate::refusing::{Numbers, after, blocks_more};
use std::vec::Vec as Plain;

/// One call, made on both lists; whether it failed.
fn step(list: &mut Vec<u32>, plain: &mut Plain<u32>, numbers: &mut Numbers) -> bool {
    let (value, len) = (numbers.below(1 << 20) as u32, plain.len());
    let at = numbers.below(len + 1);
    match numbers.below(10) {
        0..=2 => match list.push(value) {
            Ok(()) => plain.push(value),
            Err(failed) => return told(failed.value == value && list.capacity() == len),
        },
        3 => match list.insert(at, value) {
            Ok(()) => plain.insert(at, value),
            Err(failed) => return told(failed.value == value && list.capacity() == len),
        },
        4 => match list.extend_from_slice(&[value; 5]) {
            Ok(()) => plain.extend([value; 5]),
            Err(AllocError) => return told(list.capacity() < len + 5),
        },
        5 => match list.resize(at + 3, value) {
            Ok(()) => plain.resize(at + 3, value),
            Err(AllocError) => return told(list.capacity() < at + 3),
        },
        6 => assert_eq!(list.pop(), plain.pop()),
        7 if at < len => assert_eq!(list.remove(at), plain.remove(at)),
        8 => {
            list.truncate(at);
            plain.truncate(at);
        }
        _ => list.shrink_to(at),
    }
    false
}

fn told(is_right: bool) -> bool {
    assert!(is_right);
    true
}

#[test]
fn calls_do_what_a_plain_list_does_and_lose_nothing_if_memory_is_refused() {
    let mut failed = 0;
    for seed in 0..400 {
        let (mut list, mut plain, mut numbers) = (Vec::new(Global), Plain::with_capacity(4096), Numbers(seed));
        for _ in 0..200 {
            let many = if numbers.below(3) == 0 { 0 } else { 9 };
            let before = list.capacity();
            failed += usize::from(after(many, || step(&mut list, &mut plain, &mut numbers)));
            assert_eq!(list.as_slice(), plain.as_slice());
            assert!(list.len() <= list.capacity() && (many > 0 || list.capacity() <= before));
        }
    }
    assert!(failed > 400, "{failed}");
}

#[test]
fn space_is_exact_where_it_is_promised() {
    let mut list = Vec::<u64>::with_capacity(Global, 7).unwrap();
    assert_eq!((list.capacity(), list.len()), (7, 0));
    list.reserve_exact(9).unwrap();
    assert_eq!(list.capacity(), 9);
    list.reserve_exact(3).unwrap();
    assert_eq!(list.capacity(), 9);
    list.reserve(9).unwrap();
    assert_eq!(list.capacity(), 9);
    list.reserve(10).unwrap();
    assert_eq!(list.capacity(), 18);
    list.push_reserved(4);
    list.shrink_to(5);
    assert_eq!((list.capacity(), list.as_slice()), (5, [4].as_slice()));
    list.shrink_to(6);
    assert_eq!(list.capacity(), 5);
    after(0, || list.shrink_to_fit());
    assert_eq!((list.capacity(), list.as_slice()), (5, [4].as_slice()));
    list.clear();
    assert_eq!(list.capacity(), 5);
    list.shrink_to_fit();
    assert_eq!(list.capacity(), 0);
    assert_eq!(after(0, || list.reserve(1)), Err(AllocError));
    assert_eq!(after(0, || list.reserve(0)), Ok(()));
    assert_eq!(list.reserve(usize::MAX), Err(AllocError));
}

#[test]
fn growth_is_by_twice_from_8_4_or_1() {
    let mut bytes = Vec::<u8>::new(Global);
    bytes.push(1).unwrap();
    assert_eq!(bytes.capacity(), 8);
    let mut words = Vec::<u64>::new(Global);
    for (many, capacity) in [(1, 4), (5, 8), (9, 16)] {
        while words.len() < many {
            words.push(0).unwrap();
        }
        assert_eq!(words.capacity(), capacity);
    }
    let mut large = Vec::<[u8; 2000]>::new(Global);
    large.push([0; 2000]).unwrap();
    assert_eq!(large.capacity(), 1);
}

#[test]
fn lists_that_are_made_are_as_large_as_they_need() {
    let list = Vec::from_slice(Global, &[1, 2, 3]).unwrap();
    assert_eq!((list.as_slice(), list.capacity()), ([1, 2, 3].as_slice(), 3));
    let copy = list.clone().unwrap();
    assert_eq!((&copy, copy.capacity()), (&list, 3));
    let same = Vec::of_value(Global, 7u8, 4).unwrap();
    assert_eq!((same.as_slice(), same.capacity()), ([7; 4].as_slice(), 4));
    assert_eq!((0..40).collect_in(Global).unwrap().as_slice(), (0..40).collect::<Plain<u32>>());
    assert!(after(0, || Vec::from_slice(Global, &[1])).is_err());
    assert!(after(0, || list.clone()).is_err());
    assert!(after(0, || Vec::of_value(Global, 7u8, 4)).is_err());
    assert!(after(1, || (0..40).collect_in(Global)).is_err());
    assert!(after(0, || Vec::from_slice(Global, &[0u8; 0])).is_ok());
}

#[test]
fn extend_keeps_what_came_before_a_failure() {
    let mut list = Vec::<u64>::with_capacity(Global, 2).unwrap();
    assert!(after(0, || list.extend([1, 2, 3])).is_err());
    assert_eq!(list.as_slice(), [1, 2]);
    list.extend([3]).unwrap();
    list.retain(|item| item % 2 == 1);
    assert_eq!(list.as_slice(), [1, 3]);
}

#[test]
fn rusts_vec_is_the_same_block_both_ways() {
    let plain = Plain::from([1u8, 2]);
    let at = plain.as_ptr();
    let list = Vec::from(plain);
    assert_eq!((list.as_ptr(), list.as_slice()), (at, [1, 2].as_slice()));
    let plain = Plain::from(list);
    assert_eq!(plain.as_ptr(), at);
}

#[test]
fn no_block_is_left() {
    let more = blocks_more(|| {
        let mut list = Vec::new(Global);
        for at in 0..9u8 {
            list.push(Vec::from_slice(Global, &[at]).unwrap()).unwrap();
        }
        list.truncate(7);
        drop(list.remove(2));
        list.shrink_to_fit();
        let kept: Plain<Vec<u8>> = list.into_iter().take(3).collect();
        drop(kept);
    });
    assert_eq!(more, 0);
}

//! `VecDeque`: each call beside a plain list, with and without memory.

use crate::rattle_std::alloc::{AllocError, Global};
use crate::rattle_std::collections::VecDeque;
use crate::refusing::{Numbers, after, blocks_more};
use std::collections::VecDeque as Plain;

/// One call that may grow the list, made on both; whether it failed.
fn growing(list: &mut VecDeque<u32>, plain: &mut Plain<u32>, numbers: &mut Numbers) -> bool {
    let (value, len) = (numbers.below(1 << 20) as u32, plain.len());
    let at = numbers.below(len + 1);
    let (answer, more) = match numbers.below(4) {
        0 => (list.push_back(value), 1),
        1 => (list.push_front(value), 1),
        2 => (list.insert(at, value), 1),
        _ => match list.resize(at + 4, value) {
            Ok(()) => {
                plain.resize(at + 4, value);
                return false;
            }
            Err(AllocError) => {
                assert!(list.capacity() < at + 4);
                return true;
            }
        },
    };
    if let Err(failed) = answer {
        assert!(failed.value == value && list.capacity() < len + more && list.len() == len);
        return true;
    }
    let place = list.iter().zip(plain.iter()).position(|(a, b)| a != b).unwrap_or(len);
    plain.insert(place, value);
    false
}

/// One call that can't fail, made on both.
fn shrinking(list: &mut VecDeque<u32>, plain: &mut Plain<u32>, numbers: &mut Numbers) {
    let len = plain.len();
    let at = numbers.below(len + 1);
    match numbers.below(8) {
        0 => assert_eq!(list.pop_back(), plain.pop_back()),
        1 => assert_eq!(list.pop_front(), plain.pop_front()),
        2 => assert_eq!(list.remove(at), plain.remove(at)),
        3 => {
            list.truncate(at);
            plain.truncate(at);
        }
        4 => {
            list.rotate_left(at);
            plain.rotate_left(at);
        }
        5 => {
            list.retain(|item| item % 5 != 0);
            plain.retain(|item| item % 5 != 0);
        }
        6 if at < len => {
            list.swap(at, 0);
            plain.swap(at, 0);
        }
        _ => list.shrink_to(at),
    }
}

#[test]
fn calls_do_what_a_plain_list_does_and_lose_nothing_if_memory_is_refused() {
    let mut failed = 0;
    for seed in 0..400 {
        let (mut list, mut plain, mut numbers) = (VecDeque::new(Global), Plain::with_capacity(4096), Numbers(seed));
        for _ in 0..300 {
            let many = if numbers.below(3) == 0 { 0 } else { 9 };
            if numbers.below(5) < 3 {
                failed += usize::from(after(many, || growing(&mut list, &mut plain, &mut numbers)));
            } else {
                after(many, || shrinking(&mut list, &mut plain, &mut numbers));
            }
            assert!(list.iter().eq(plain.iter()) && list.len() == plain.len() && list.is_empty() == plain.is_empty());
            assert_eq!((list.front(), list.back()), (plain.front(), plain.back()));
        }
    }
    assert!(failed > 400, "{failed}");
}

#[test]
fn a_list_is_appended_or_both_stay() {
    let mut one = VecDeque::with_capacity(Global, 3).unwrap();
    let mut other = VecDeque::with_capacity(Global, 5).unwrap();
    for at in 0..3u16 {
        one.push_back(at).unwrap();
        other.push_front(at).unwrap();
    }
    assert_eq!(after(0, || one.append(&mut other)), Err(AllocError));
    assert!(one.iter().eq(&[0, 1, 2]) && other.iter().eq(&[2, 1, 0]));
    assert_eq!(one.append(&mut other), Ok(()));
    assert!(one.iter().eq(&[0, 1, 2, 2, 1, 0]) && other.is_empty() && other.capacity() == 5);
}

#[test]
fn space_is_exact_where_it_is_promised() {
    let mut list = VecDeque::<u64>::with_capacity(Global, 7).unwrap();
    assert_eq!(list.capacity(), 7);
    list.reserve_exact(9).unwrap();
    assert_eq!(list.capacity(), 9);
    list.push_back_reserved(1);
    list.push_front_reserved(0);
    after(0, || list.shrink_to_fit());
    assert_eq!(list.capacity(), 9);
    list.shrink_to(3);
    assert_eq!(list.capacity(), 3);
    list.clear();
    list.shrink_to_fit();
    assert_eq!(list.capacity(), 0);
    assert_eq!(list.reserve(usize::MAX), Err(AllocError));
}

#[test]
fn a_ring_becomes_one_slice_and_a_vec_in_its_block() {
    let mut list = VecDeque::with_capacity(Global, 4).unwrap();
    for at in 0..4u8 {
        list.push_back(at).unwrap();
    }
    list.pop_front();
    list.pop_front();
    list.push_back(4).unwrap();
    let (one, two) = list.as_slices();
    assert_eq!((one, two), ([2, 3].as_slice(), [4].as_slice()));
    assert_eq!(list.partition_point(|item| *item < 4), 2);
    assert_eq!(after(0, || list.make_contiguous().len()), 3);
    list[1] += 10;
    assert_eq!((list[1], list.get(3)), (13, None));
    assert_eq!(list.get_mut(0), Some(&mut 2));
    let flat = after(0, || list.into_vec());
    assert_eq!((flat.as_slice(), flat.capacity()), ([2, 13, 4].as_slice(), 4));
}

#[test]
fn no_block_is_left() {
    let more = blocks_more(|| {
        let mut list = VecDeque::new(Global);
        for at in 0..9u8 {
            list.push_back(std::boxed::Box::new(at)).unwrap();
        }
        list.truncate(7);
        list.retain(|item| **item != 3);
        drop(list.remove(2));
        list.shrink_to_fit();
        list
    });
    assert_eq!(more, 0);
}

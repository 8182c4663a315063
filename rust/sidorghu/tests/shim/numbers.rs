//! Numbers as bytes, sixteen bytes at once, and lists that allocate nothing.

use crate::arrayvec::ArrayVec;
use crate::byteorder::{BigEndian, ByteOrder, LittleEndian};
use crate::rattle_std::simd::u8x16;

#[test]
fn numbers_have_their_bytes_in_order() {
    let bytes = [1, 2, 3, 4, 5, 6, 7, 8, 9];
    assert_eq!((BigEndian::read_u16(&bytes), LittleEndian::read_u16(&bytes)), (0x0102, 0x0201));
    assert_eq!((BigEndian::read_u32(&bytes), LittleEndian::read_u32(&bytes)), (0x0102_0304, 0x0403_0201));
    assert_eq!((BigEndian::read_u64(&bytes), LittleEndian::read_u64(&bytes)), (0x0102_0304_0506_0708, 0x0807_0605_0403_0201));
    let mut room = [0; 9];
    BigEndian::write_u64(&mut room, 0x0102_0304_0506_0708);
    assert_eq!(room, [1, 2, 3, 4, 5, 6, 7, 8, 0]);
    BigEndian::write_u32(&mut room, 0x0a0b_0c0d);
    BigEndian::write_u16(&mut room[4..], 0x0e0f);
    assert_eq!(room, [10, 11, 12, 13, 14, 15, 7, 8, 0]);
    LittleEndian::write_u64(&mut room, 0x0102_0304_0506_0708);
    assert_eq!(room, [8, 7, 6, 5, 4, 3, 2, 1, 0]);
    LittleEndian::write_u32(&mut room, 0x0a0b_0c0d);
    LittleEndian::write_u16(&mut room[4..], 0x0e0f);
    assert_eq!(room, [13, 12, 11, 10, 15, 14, 2, 1, 0]);
}

#[test]
fn sixteen_bytes_are_xored_in_place() {
    let one: [u8; 17] = core::array::from_fn(|at| at as u8 * 13);
    let other: [u8; 16] = core::array::from_fn(|at| 255 - at as u8 * 7);
    let mut room = [77; 17];
    (u8x16::from_slice(&one) ^ u8x16::from_slice(&other)).copy_to_slice(&mut room);
    for at in 0..16 {
        assert_eq!(room[at], one[at] ^ other[at]);
    }
    assert_eq!(room[16], 77);
    assert_eq!(u8x16::splat(9), u8x16::from_slice(&[9; 16]));
}

#[test]
fn an_array_list_inserts_in_order() {
    let mut list = ArrayVec::<u16, 4>::new();
    for (at, item) in [(0, 5), (0, 3), (1, 4), (3, 6)] {
        list.insert(at, item);
    }
    list.as_mut_slice()[0] = 1;
    assert_eq!((list.as_slice(), list.len()), ([1, 4, 5, 6].as_slice(), 4));
}

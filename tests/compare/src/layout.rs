//! The bytes in which the crate `test_exports` takes a value, 365 of them, and a packing, 70. Numbers have the low byte first.
//!
//! | place | bytes | what |
//! |---|---|---|
//! | 0 | 6 | the container: width, depth, shifts, 2 bytes each |
//! | 6 | 8 | the count of items, any number |
//! | 14 | 60 | ten items, 6 bytes each: width, depth, shifts |
//! | 74 | 8 | the count of orders, any number |
//! | 82 | 270 | ninety orders, 3 bytes each: u, v and the lag; order i at 82 + 3 i |
//! | 352 | 2 | the yard number |
//! | 354 | 1 | the walkway |
//! | 355 | 10 | for each of ten items 1 where it may turn, else 0 |
//!
//! A packing is ten positions, 6 bytes each: x, y, t; then, from place 60 on, ten marks.

use crate::reference::packing::Position;
use crate::reference::sheet::{MOST_ITEMS, MOST_PRECEDENCES};
use crate::reference::value::Value;

pub const VALUE_BYTES: usize = 365;

fn words(numbers: &[u32]) -> impl Iterator<Item = u8> + '_ {
    numbers.iter().flat_map(|&number| (number as u16).to_le_bytes())
}

/// The bytes of a value.
pub fn value_bytes(value: &Value) -> Vec<u8> {
    let mut bytes: Vec<u8> = words(&value.container).collect();
    bytes.extend(value.item_count.to_le_bytes());
    bytes.extend(value.items.iter().flat_map(|size| words(size)));
    bytes.extend(value.precedence_count.to_le_bytes());
    bytes.extend(value.precedences.iter().zip(&value.lags).flat_map(|(&(u, v), &lag)| [u as u8, v as u8, lag as u8]));
    bytes.extend(words(&[value.yard_number]));
    bytes.push(value.walkway as u8);
    bytes.extend(value.may_turn.map(|may_turn| may_turn as u8));
    assert_eq!(bytes.len(), VALUE_BYTES);
    bytes
}

fn number(bytes: &[u8]) -> u64 {
    bytes.iter().rev().fold(0, |high, &byte| high * 256 + byte as u64)
}

fn size(bytes: &[u8]) -> [u32; 3] {
    [0, 2, 4].map(|at| number(&bytes[at..at + 2]) as u32)
}

/// The value that such bytes hold.
pub fn value_of(bytes: &[u8]) -> Value {
    let (items, precedences) = (14, 82);
    let order = |i: usize| &bytes[precedences + 3 * i..];
    Value {
        container: size(&bytes[..6]),
        item_count: number(&bytes[6..14]),
        items: std::array::from_fn::<_, MOST_ITEMS, _>(|i| size(&bytes[items + 6 * i..])),
        may_turn: std::array::from_fn::<_, MOST_ITEMS, _>(|i| bytes[355 + i] != 0),
        precedence_count: number(&bytes[74..82]),
        precedences: std::array::from_fn::<_, MOST_PRECEDENCES, _>(|i| (order(i)[0] as usize, order(i)[1] as usize)),
        lags: std::array::from_fn::<_, MOST_PRECEDENCES, _>(|i| order(i)[2] as u32),
        yard_number: number(&bytes[352..354]) as u32,
        walkway: bytes[354] as u32,
    }
}

/// The bytes of a packing.
pub fn packing_bytes(positions: &[Position], marks: &[u8]) -> Vec<u8> {
    assert_eq!((positions.len(), marks.len()), (MOST_ITEMS, MOST_ITEMS));
    positions.iter().flat_map(|position| words(position)).chain(marks.iter().copied()).collect()
}

/// The positions and marks that such bytes hold.
pub fn packing_of(bytes: &[u8]) -> (Vec<Position>, Vec<u8>) {
    ((0..MOST_ITEMS).map(|i| size(&bytes[6 * i..])).collect(), bytes[60..70].to_vec())
}

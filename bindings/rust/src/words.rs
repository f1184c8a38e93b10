//! Words of a record: floats as their bits, marks, and optional values behind a mark. Records are arrays of the size that `layout`
//! gives, and places inside them are constants of `layout`.

use std::array;

pub(crate) fn float(words: &[u32], at: usize) -> f32 {
    f32::from_bits(words[at])
}

pub(crate) fn floats<const N: usize>(words: &[u32], at: usize) -> [f32; N] {
    array::from_fn(|k| float(words, at + k))
}

/// A mark other than 0 and 1 is refused by every call; here it counts as 0.
pub(crate) fn mark(words: &[u32], at: usize) -> bool {
    words[at] == 1
}

/// The number behind a mark.
pub(crate) fn optional(words: &[u32], at: usize) -> Option<u32> {
    mark(words, at).then(|| words[at + 1])
}

pub(crate) fn put(words: &mut [u32], at: usize, values: &[u32]) {
    words[at..][..values.len()].copy_from_slice(values);
}

pub(crate) fn put_float(words: &mut [u32], at: usize, value: f32) {
    words[at] = value.to_bits();
}

pub(crate) fn put_floats<const N: usize>(words: &mut [u32], at: usize, values: [f32; N]) {
    put(words, at, &values.map(f32::to_bits));
}

pub(crate) fn put_mark(words: &mut [u32], at: usize, value: bool) {
    words[at] = value.into();
}

/// A mark of 1 and the value's words, or a mark of 0.
pub(crate) fn put_optional<const N: usize>(words: &mut [u32], at: usize, value: Option<[u32; N]>) {
    put_mark(words, at, value.is_some());
    if let Some(value) = value {
        put(words, at + 1, &value);
    }
}

/// A count as a word. One that no row can hold stays over every limit.
pub(crate) fn count(n: usize) -> u32 {
    u32::try_from(n).unwrap_or(u32::MAX)
}

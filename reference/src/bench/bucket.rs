//! Names against the library's own search for duplicates, which puts each entry into one of 2,048 buckets.

use crate::model::image::NAME_MAX;

/// The library's weights: of the parent, then of the four-byte numbers in the name's room. Where the library gets
/// others, these follow; with wrong ones the image is only less hard.
const PARENT_WEIGHT: u64 = 169_887_418_117;
const NAME_WEIGHTS: [u64; NAME_MAX / 4] =
    [485_705_883, 455_026_109, 297_635_077, 338_131_279, 276_088_621, 306_404_477];
const SCALE: u64 = 134_217_728;
pub const BUCKETS: u64 = 2_048;

/// Any bucket will do.
const CHOSEN: u64 = 77;

pub fn bucket(parent: u16, name: &[u8]) -> u64 {
    let mut room = [0; NAME_MAX];
    room[..name.len()].copy_from_slice(name);
    let numbers = room.as_chunks().0.iter().map(|&bytes| u64::from(u32::from_le_bytes(bytes)));
    let weighted = numbers.zip(NAME_WEIGHTS).map(|(number, weight)| number * weight);
    (PARENT_WEIGHT * u64::from(parent) + weighted.sum::<u64>()) / SCALE % BUCKETS
}

/// Different portable names that all fall into one bucket under the same parent.
pub fn names_in_one_bucket(parent: u16) -> impl Iterator<Item = Vec<u8>> {
    in_one_bucket(parent, (0u64..).map(|number| format!("c{number:011x}").into_bytes()))
}

/// Those of the names that fall into the chosen bucket.
pub fn in_one_bucket(parent: u16, names: impl Iterator<Item = Vec<u8>>) -> impl Iterator<Item = Vec<u8>> {
    names.filter(move |name| bucket(parent, name) == CHOSEN)
}

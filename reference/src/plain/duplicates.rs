//! Duplicate names, found by sorting (rule 27).

/// Whether no two entries in use have the same parent and the same name, which has zeros behind its end. Sorted, such
/// two are neighbours. The order of the others does not matter, so the keys are numbers made of the bytes as they lie.
pub fn no_name_is_taken_twice(entries: &[[u8; 32]]) -> bool {
    let used = entries.iter().filter(|record| record[4] != 0);
    let mut keys: Vec<(u64, &[u8; 32])> = used.map(|record| (beginning(record), record)).collect();
    keys.sort_unstable_by_key(|key| key.0);
    keys.chunk_by_mut(|one, other| one.0 == other.0).all(|alike| {
        alike.sort_unstable_by_key(|key| name(key.1));
        alike.windows(2).all(|pair| name(pair[0].1) != name(pair[1].1))
    })
}

/// The parent and six bytes of the name, in which most entries differ: the first sort goes by them alone, and those
/// that are alike are then sorted by the whole name.
fn beginning(record: &[u8; 32]) -> u64 {
    let [p0, p1, _, _, _, _, _, _, n0, n1, n2, n3, n4, n5, ..] = *record;
    u64::from_be_bytes([p0, p1, n0, n1, n2, n3, n4, n5])
}

/// Its end first, since it is beginnings that are alike.
#[inline]
fn name(record: &[u8; 32]) -> (u64, u64, u64) {
    let word = |at: usize| u64::from_le_bytes(std::array::from_fn(|i| record[at + i]));
    (word(24), word(16), word(8))
}

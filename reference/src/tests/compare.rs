//! The compare of names by pieces: the words of the request, on both sides of each limit and for every stored pair.

use super::made::COMPARES;
use crate::model::compare::{compare, Compared};
use crate::vectors::Comparing;

fn differ_in_piece(pieces: usize) -> Compared {
    Compared { same: false, pieces }
}

/// Every stored pair with what is said of it.
fn all() -> impl Iterator<Item = (&'static Comparing, Compared)> {
    COMPARES.cases.iter().map(|names| (names, compare(&names.first, &names.second)))
}

#[test]
fn equal_names_are_read_whole() {
    let lines = [(0, 0), (1, 1), (7, 1), (8, 1), (9, 2), (15, 2), (16, 2), (17, 3), (24, 3), (25, 4), (32, 4), (33, 5)];
    for (len, pieces) in lines.into_iter().chain([(255, 32), (256, 32), (257, 33)]) {
        let name = vec![b'k'; len];
        assert_eq!(compare(&name, &name), Compared { same: true, pieces }, "{len} bytes");
    }
}

/// Bytes 1 to 8 are the first piece, whether the name ends with it or goes on.
#[test]
fn the_first_difference_ends_the_reading() {
    for len in [8, 9, 16, 17, 24, 25, 32] {
        let places = [(1, 1), (8, 1), (9, 2), (16, 2), (17, 3), (24, 3), (25, 4), (32, 4)];
        for (place, piece) in places.into_iter().filter(|&(place, _)| place <= len) {
            let name = vec![b'k'; len];
            let mut other = name.clone();
            other[place - 1] = b'l';
            assert_eq!(compare(&name, &other), differ_in_piece(piece), "byte {place} of {len}");
            other[place - 1..].fill(0);
            assert_eq!(compare(&name, &other), differ_in_piece(piece), "from byte {place} of {len} on");
        }
    }
}

/// Not even where both end in one piece, or where the one is empty.
#[test]
fn nothing_is_read_where_lengths_differ() {
    for (len, other) in [(0, 1), (1, 2), (7, 8), (8, 9), (9, 16), (8, 16), (16, 17), (17, 24), (24, 25), (1, 257)] {
        let (name, longer) = (vec![b'k'; len], vec![b'k'; other]);
        assert_eq!(compare(&name, &longer), differ_in_piece(0));
        assert_eq!(compare(&longer, &name), differ_in_piece(0));
    }
}

#[test]
fn the_order_of_the_names_does_not_matter() {
    for (names, compared) in all() {
        assert_eq!(compare(&names.second, &names.first), compared, "{names:?}");
    }
}

/// So that a lookup and the search for duplicates, which compare whole names, may go by it.
#[test]
fn the_same_are_those_that_are_equal() {
    for (names, compared) in all() {
        assert_eq!(compared.same, names.first == names.second, "{names:?}");
    }
}

/// What lies behind the pieces read does not matter, and each piece read does: all before the last are the same.
#[test]
fn just_the_pieces_read_are_needed() {
    for (Comparing { first, second }, compared) in all().filter(|(_, compared)| compared.pieces > 0) {
        let end = first.len().min(8 * compared.pieces);
        let before = 8 * (compared.pieces - 1);
        assert!(before < end && first[..before] == second[..before], "{first:?} and {second:?}");
        let other: Vec<u8> = first.iter().map(|byte| !byte).collect();
        assert_eq!(compare(&[&first[..end], &other[end..]].concat(), second), compared, "{first:?} and {second:?}");
    }
}

/// The table of docs/VECTORS.md counts by the pieces; its classes tell how many pairs are the same.
#[test]
fn two_classes_have_as_many_as_are_the_same() {
    let alike = COMPARES.collection.classes.iter().filter(|class| class.name.ends_with("nothing differs"));
    let counted: usize = alike.map(|class| class.numbers.len()).sum();
    assert_eq!(all().filter(|(_, compared)| compared.same).count(), counted);
}

//! The crowded images are what their classes say, and are answered as told here by hand.

use super::made::CROWDED;
use crate::bench::bucket::bucket;
use crate::cases::crowded::bases::HOLES_AT_AN_END;
use crate::cases::crowded::part::tables;
use crate::cases::crowded::{CrowdedCase, Table};
use crate::model::check::{broken_rules, faults};
use crate::model::fault::Fault;
use crate::model::image::{Entry, Image, DIRECTORY, FILE, SYMLINK};
use std::collections::BTreeSet;
use std::sync::LazyLock;

static TABLES: LazyLock<Vec<Table>> = LazyLock::new(tables);

/// Each class with its answer, which is that of all its cases.
const TOLD: [(&str, u8); 30] = [
    ("one bucket", 0),
    ("one bucket, a name twice", 201),
    ("one bucket, three alike", 201),
    ("one bucket, two names twice", 201),
    ("one bucket, nearly alike", 0),
    ("one bucket, another directory", 0),
    ("one bucket, twice in another", 201),
    ("pending journal record", 203),
    ("free slots", 0),
    ("free slots, a name twice", 201),
    ("link counts", 201),
    ("shared texts", 201),
    ("texts without symlink", 201),
    ("names apart", 0),
    ("names apart, a name twice", 201),
    ("names apart, nearly alike", 0),
    ("names apart, another directory", 0),
    ("names apart, twice in another", 201),
    ("990 pairs", 0),
    ("1,035 pairs", 0),
    ("990 pairs, a name twice", 201),
    ("1,035 pairs, a name twice", 201),
    ("1,024 pairs", 0),
    ("1,025 pairs", 0),
    ("1,023 pairs", 0),
    ("1,025th pair alike", 201),
    ("1,024th pair alike", 201),
    ("ways to root", 0),
    ("rings", 201),
    ("fields that name no directory", 201),
];

fn images_of(class: &str) -> Vec<&'static [u8]> {
    let cases = TABLES.iter().flat_map(|table| &table.cases).filter(|case| case.class == class);
    cases.map(|case| &case.image[..]).collect()
}

fn read(image: &[u8]) -> Image<'_> {
    Image::read(image).expect("the layout is right")
}

/// What decides a bucket, slot by slot; nothing where one is free.
fn keys(image: &'static [u8]) -> Vec<Option<(u16, &'static [u8])>> {
    let key = |entry: Entry<'static>| (entry.name_len() != 0).then(|| (entry.parent(), entry.name()));
    read(image).entries().map(key).collect()
}

/// The pairs of entries in one bucket by their later slots, as the library comes to them: whether each is alike.
fn pairs(image: &'static [u8]) -> Vec<bool> {
    let used: Vec<_> = keys(image).into_iter().flatten().map(|key| (bucket(key.0, key.1), key)).collect();
    let mut pairs = vec![];
    for (at, later) in used.iter().enumerate() {
        let earlier = used[..at].iter().rev().filter(|earlier| earlier.0 == later.0);
        pairs.extend(earlier.map(|earlier| earlier.1 == later.1));
    }
    pairs
}

#[test]
fn every_class_is_answered_as_told() {
    let classes = &CROWDED.collection.classes;
    assert!(classes.iter().map(|class| class.name).eq(TOLD.map(|(name, _)| name)));
    for (class, (name, told)) in classes.iter().zip(TOLD) {
        assert!(class.numbers.iter().all(|&number| number == told), "{name}");
    }
}

#[test]
fn the_stored_images_are_these_and_have_full_size() {
    let images = TABLES.iter().flat_map(|table| &table.cases).map(|case| &case.image);
    assert!(CROWDED.cases.iter().eq(images));
    assert!(CROWDED.cases.iter().all(|image| image.len() == 53_448));
}

/// Counted without the order that the model puts names in.
#[test]
fn names_are_taken_where_some_are_alike() {
    for CrowdedCase { class, image, .. } in TABLES.iter().flat_map(|table| &table.cases) {
        let used: Vec<_> = keys(image).into_iter().flatten().collect();
        let different = used.iter().collect::<BTreeSet<_>>().len();
        assert_eq!(different < used.len(), broken_rules(image).contains(&27), "{class}");
        let alike = match *class {
            "one bucket, three alike" | "one bucket, two names twice" => 2,
            _ => 1,
        };
        assert!(used.len() - different == alike || used.len() == different, "{class}");
    }
}

#[test]
fn crowds_have_as_many_pairs_as_told() {
    let all = 1024 * 1023 / 2;
    let lines = [("one bucket", all), ("990 pairs", 990), ("1,035 pairs", 1035), ("1,023 pairs", 1023)];
    for (class, told) in lines.into_iter().chain([("1,024 pairs", 1024), ("1,025 pairs", 1025)]) {
        for image in images_of(class) {
            assert_eq!(pairs(image).len(), told, "{class}");
        }
    }
    assert!(pairs(images_of("names apart")[0]).len() < 1024);
}

#[test]
fn the_last_pair_is_the_one_that_is_alike() {
    for (class, place) in [("1,024th pair alike", 1024), ("1,025th pair alike", 1025)] {
        for image in images_of(class) {
            let pairs = pairs(image);
            assert_eq!((pairs.len(), pairs.iter().position(|&alike| alike)), (place, Some(place - 1)), "{class}");
        }
    }
}

#[test]
fn free_slots_are_at_both_ends_and_between() {
    let free = |image| {
        let keys: Vec<_> = keys(image);
        (0..keys.len()).filter(|&slot| keys[slot].is_none()).collect::<Vec<_>>()
    };
    let [single @ .., many] = &images_of("free slots")[..] else { panic!("a case with many") };
    assert!(single.iter().map(|image| free(image)).eq([0, 1, 511, 1022, 1023].map(|slot| vec![slot])));
    let many = free(many);
    assert!(many.len() > 100);
    assert!(many.iter().take(HOLES_AT_AN_END).copied().eq(0..10));
    assert!(many.iter().rev().take(HOLES_AT_AN_END).rev().copied().eq(1014..1024));
}

/// The inodes that a climb from a directory comes by until it comes to root, or to where it was.
fn way(image: &Image, start: u16) -> Vec<u16> {
    let mut way = vec![start];
    loop {
        let next = image.inode(way[way.len() - 1]).expect("an inode").field();
        if next == 0 || way.contains(&next) {
            way.push(next);
            return way;
        }
        way.push(next);
    }
}

fn ways(image: &Image) -> Vec<Vec<u16>> {
    let inodes = (0..).zip(image.inodes());
    inodes
        .filter(|(number, inode)| *number != 0 && inode.kind() == DIRECTORY)
        .map(|(start, _)| way(image, start))
        .collect()
}

#[test]
fn the_longest_ways_have_four_hundred_steps() {
    let longest = |image: &&'static [u8]| ways(&read(image)).iter().map(Vec::len).max();
    let lengths: Vec<_> = images_of("ways to root").iter().map(longest).collect();
    assert_eq!(lengths, [Some(401), Some(202), Some(400), Some(401), Some(202), Some(400)]);
}

#[test]
fn rings_are_as_long_as_told_and_break_one_rule() {
    let lengths = images_of("rings").into_iter().map(|image| {
        assert_eq!(broken_rules(image), [30]);
        let mut rings = BTreeSet::new();
        for way in ways(&read(image)).iter().filter(|way| way[way.len() - 1] != 0) {
            let again = way.iter().position(|at| *at == way[way.len() - 1]).expect("it was here");
            rings.insert(way.len() - 1 - again);
        }
        rings.into_iter().collect::<Vec<_>>()
    });
    let told = [1, 2, 3, 255, 256, 257, 400, 2, 256].map(|len| vec![len]);
    assert!(lengths.eq([told.clone(), told].concat()));
}

/// The links that the entries give an inode.
fn counted(image: &Image, number: u16) -> i32 {
    let used = || image.entries().filter(|entry| entry.name_len() != 0);
    if image.is_directory(number) {
        let children = used().filter(|entry| entry.parent() == number && image.is_directory(entry.target()));
        return 2 + children.count() as i32;
    }
    used().filter(|entry| entry.target() == number).count() as i32
}

/// Each kind behind root and at the end, each once too high and once too low; root in each of three bases.
#[test]
fn counts_are_wrong_at_both_ends() {
    let wrong = images_of("link counts").into_iter().map(|bytes| {
        let [Fault { record, .. }] = faults(bytes)[..] else { panic!("one fault") };
        let (image, number) = (read(bytes), record as u16);
        let inode = image.inode(number).expect("an inode");
        (inode.kind(), number, i32::from(inode.links()) - counted(&image, number))
    });
    let root = (DIRECTORY, 0);
    let told =
        [root, (SYMLINK, 1), (SYMLINK, 511), root, (DIRECTORY, 1), (FILE, 511), root, (FILE, 1), (DIRECTORY, 511)];
    assert!(wrong.eq(told.into_iter().flat_map(|(kind, number)| [(kind, number, 1), (kind, number, -1)])));
}

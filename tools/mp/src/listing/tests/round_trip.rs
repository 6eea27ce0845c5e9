//! Every consistent image comes back from its listing byte for byte, and whatever is read is consistent.

use super::{parse, print};
use crate::image::Image;
use crate::random::Random;
use crate::random_image::{image, Size};
use mirepillar::{check, Number};

fn comes_back(image: &Image, seed: u64) {
    let listing = print(image);
    assert!(
        listing.bytes().all(|byte| matches!(byte, b'\n' | b' '..=b'~')),
        "seed {seed}: bytes that are not for terminals"
    );
    assert!(listing.lines().all(|line| line.trim() == line && !line.is_empty()), "seed {seed}: blanks at an end");
    let again = parse(listing.as_bytes()).unwrap_or_else(|fault| panic!("seed {seed}: {fault}\n{listing}"));
    assert_eq!(again.write(), image.write(), "seed {seed}\n{listing}");
    assert_eq!(print(&again), listing, "seed {seed}");
}

#[test]
fn small_images_come_back() {
    for seed in 0..5_000 {
        comes_back(&image(&mut Random::new(seed), Size::Small), seed);
    }
}

#[test]
fn full_images_come_back() {
    for seed in 0..20 {
        comes_back(&image(&mut Random::new(seed), Size::Full), seed);
    }
}

#[test]
fn the_deepest_tree_comes_back() {
    let mut path = String::new();
    let mut listing = String::new();
    for _ in 1..512 {
        path += &format!("/{}", "n".repeat(24));
        listing += &format!("dir {path}\n");
    }
    let image = parse(listing.as_bytes()).expect("it is right");
    assert_eq!((image.inodes.len(), check(&image.write())), (512, Number::DONE));
    comes_back(&image, 0);
}

/// A part of a listing changed: a byte, a word or a line, taken out, doubled or replaced by another.
fn mutate(random: &mut Random, listing: &mut Vec<u8>) {
    let separator = *random.pick(b"\n\n  =");
    let mut parts: Vec<Vec<u8>> = listing.split(|&byte| byte == separator).map(<[u8]>::to_vec).collect();
    let (at, other) = (random.below(parts.len()), random.below(parts.len()));
    match random.below(6) {
        0 => drop(parts.remove(at)),
        1 => parts.insert(at, parts[other].clone()),
        2 => parts.swap(at, other),
        3 => {
            parts[at] =
                random.pick(&["/", "/a", "0", "7", "64", "dir", "slot=0", "->", "\"", "\\x00"]).as_bytes().to_vec()
        }
        _ => {
            let at = random.below(listing.len());
            listing[at] = random.draw() as u8;
            return;
        }
    }
    *listing = parts.join(&separator);
}

/// Whether an attribute stays that most lines can go without.
fn stays(random: &mut Random, word: &str) -> bool {
    !word.contains('=') || word.len() < 2 || random.once_in(2)
}

#[test]
fn changed_listings_are_refused_or_consistent() {
    let (mut taken, mut refused) = (0, 0);
    for seed in 0..10_000 {
        let mut random = Random::new(seed);
        let mut listing = print(&image(&mut random, Size::Small)).into_bytes();
        for _ in 0..1 + random.below(3) {
            if !listing.is_empty() {
                mutate(&mut random, &mut listing);
            }
        }
        match parse(&listing) {
            Ok(image) => {
                assert_eq!(check(&image.write()), Number::DONE, "seed {seed}\n{}", String::from_utf8_lossy(&listing));
                taken += 1;
            }
            Err(_) => refused += 1,
        }
    }
    assert!(taken > 1_000 && refused > 1_000, "{taken} taken, {refused} refused");
}

#[test]
fn attributes_and_counts_can_be_left_out() {
    let mut taken = 0;
    for seed in 0..5_000 {
        let mut random = Random::new(seed);
        let printed = print(&image(&mut random, Size::Small));
        let mut listing = String::new();
        for line in printed.lines().filter(|line| !line.contains('"')) {
            line.split(' ').filter(|word| stays(&mut random, word)).for_each(|word| listing += &format!("{word} "));
            listing += "\n";
        }
        if let Ok(image) = parse(listing.as_bytes()) {
            assert_eq!(check(&image.write()), Number::DONE, "seed {seed}\n{listing}");
            taken += 1;
        }
    }
    assert!(taken > 1_000, "{taken} taken");
}

/// A path of a few names, so that paths of one listing meet, and now and then of another form.
fn path(random: &mut Random) -> String {
    match random.below(8) {
        0 => (0..1 + random.below(3)).map(|_| *random.pick(&["/a", "/", "a", "/b", "."])).collect(),
        1 => random.pick(&["\"/a\"", "\"/\\x61\"", "\"/a/\\x62\"", "\"a\"", "/a//a", "/"]).to_string(),
        _ => random.pick(&["/a", "/b", "/c", "/a/a", "/a/b", "/b/a"]).to_string(),
    }
}

/// A line such as a listing has, right or wrong, with small numbers.
fn line(random: &mut Random) -> String {
    let (one, other, number) = (path(random), path(random), random.below(4));
    let attribute = *random.pick(&["", "", "", "inode=", "slot=", "text=", "fs=", "links="]);
    let attribute = if attribute.is_empty() { String::new() } else { format!("{attribute}{number}") };
    match random.below(10) {
        0..=3 => format!("dir {attribute} {one}"),
        4 | 5 => format!("file {attribute} {one}"),
        6 => format!("link {attribute} {one} -> {other}"),
        7 => format!("name {attribute} {one} = {other}"),
        8 => format!("handle {number} {} {one}", random.pick(&["open", "search", "closed"])),
        _ => format!("{} {number}", random.pick(&["inodes", "entries", "texts", "handles"])),
    }
}

/// Listings that grow by the lines that are taken, so that they get long enough for lines to come in each other's way.
#[test]
fn grown_listings_are_refused_or_consistent() {
    let (mut taken, mut refused) = (0, 0);
    for seed in 0..3_000 {
        let mut random = Random::new(seed);
        let mut listing = String::new();
        for _ in 0..20 {
            let longer = format!("{listing}{}\n", line(&mut random));
            let Ok(image) = parse(longer.as_bytes()) else {
                refused += 1;
                continue;
            };
            assert_eq!(check(&image.write()), Number::DONE, "seed {seed}\n{longer}");
            taken += 1;
            listing = longer;
        }
    }
    assert!(taken > 10_000 && refused > 10_000, "{taken} taken, {refused} refused");
}

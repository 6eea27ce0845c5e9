//! Tests of random images: all consistent, and of every kind that they promise.

use super::{image, Size};
use crate::image::{kind, Image};
use crate::random::Random;
use mirepillar::{check, Number};

const IMAGES: u64 = 5_000;

fn small_images() -> impl Iterator<Item = Image> {
    (0..IMAGES).map(|seed| image(&mut Random::new(seed), Size::Small))
}

#[test]
fn small_images_are_consistent() {
    for (seed, image) in small_images().enumerate() {
        assert_eq!(check(&image.write()), Number::DONE, "seed {seed}");
    }
}

#[test]
fn full_images_are_consistent_and_full() {
    for seed in 0..100 {
        let image = image(&mut Random::new(seed), Size::Full);
        assert_eq!(check(&image.write()), Number::DONE, "seed {seed}");
        let lengths = [image.inodes.len(), image.entries.len(), image.texts.len(), image.handles.len()];
        assert_eq!(lengths, [512, 1024, 64, 16]);
        assert!(image.used_entries().count() >= 1022, "seed {seed}");
        assert!(image.inodes.iter().filter(|inode| inode.is_used()).count() >= 510, "seed {seed}");
        assert!(image.texts.iter().filter(|text| !text.is_empty()).count() >= 60, "seed {seed}");
    }
}

#[test]
fn the_same_seed_gives_the_same_image() {
    let draw = || image(&mut Random::new(7), Size::Small);
    assert_eq!(draw(), draw());
}

/// How many of the images have something.
fn with(has: impl Fn(&Image) -> bool) -> usize {
    small_images().filter(has).count()
}

fn has_inode(image: &Image, is: impl Fn(&crate::image::Inode) -> bool) -> bool {
    image.inodes.iter().any(is)
}

#[test]
fn small_images_are_of_every_kind() {
    let some = IMAGES as usize / 20;
    assert!(with(|image| image.inodes.len() == 1) > 50, "a root alone");
    assert!(with(|image| image.inodes.len() > 20) > some, "many inodes");
    assert!(with(|image| has_inode(image, |inode| inode.kind == kind::FILE && inode.links > 1)) > some, "hard links");
    assert!(
        with(|image| has_inode(image, |inode| inode.is_directory() && inode.links > 3)) > some,
        "child directories"
    );
    assert!(with(|image| has_inode(image, |inode| inode.is_directory() && inode.field != 0)) > some, "nested ones");
    assert!(with(|image| has_inode(image, |inode| inode.system >= 128)) > some, "read-only file systems");
    assert!(with(|image| has_inode(image, |inode| inode.system != image.inodes[0].system)) > some, "several of them");
    assert!(with(|image| has_inode(image, |inode| inode.mode & 0o1000 != 0)) > some, "sticky bits");
    assert!(with(|image| image.used_entries().any(|(_, entry)| entry.name.len() == 24)) > some, "longest names");
    assert!(with(|image| image.used_entries().any(|(_, entry)| entry.name.iter().any(|byte| !byte.is_ascii()))) > some);
}

#[test]
fn small_images_have_free_records_and_handles_of_every_state() {
    let some = IMAGES as usize / 20;
    let free_between = |image: &Image| image.entries.windows(2).any(|pair| !pair[0].is_used() && pair[1].is_used());
    assert!(with(free_between) > some, "a free entry in front of a used one");
    assert!(with(|image| image.entries.iter().all(|entry| entry.is_used())) > some, "no free entry");
    assert!(with(|image| image.texts.iter().any(Vec::is_empty)) > some, "a free text");
    for state in 0..3 {
        assert!(with(|image| image.handles.iter().any(|handle| handle.state == state)) > some, "state {state}");
    }
}

#[test]
fn symlinks_lead_to_each_other_and_nowhere() {
    let some = IMAGES as usize / 50;
    let texts = |image: &Image, is: &dyn Fn(&[u8]) -> bool| image.texts.iter().any(|text| is(text));
    assert!(with(|image| texts(image, &|text| text.starts_with(b"/"))) > some, "absolute texts");
    assert!(with(|image| texts(image, &|text| text.starts_with(b"../"))) > some, "texts that lead up");
    assert!(with(|image| texts(image, &|text| text == b"missing")) > some / 4, "texts that lead nowhere");
    let is_symlink = |image: &Image, name: &[u8]| {
        image
            .used_entries()
            .any(|(_, entry)| entry.name == name && image.inodes[usize::from(entry.target)].kind == kind::SYMLINK)
    };
    assert!(with(|image| texts(image, &|text| is_symlink(image, text))) > some, "texts that name a symlink");
}

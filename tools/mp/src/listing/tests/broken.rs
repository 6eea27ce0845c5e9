//! Images at fault: all of them can be printed, and nothing of them is left out.

use super::{has_line, parse, parsed, print, BENCH};
use crate::image::{kind, Entry, Handle, Image, Inode};
use crate::random::Random;
use crate::random_image::{image, Size};
use mirepillar::{check, Number};

/// An image with some bytes changed behind its table of contents.
fn damaged(seed: u64) -> Image {
    let mut random = Random::new(seed);
    let mut bytes = image(&mut random, Size::Small).write();
    for _ in 0..1 + random.below(40) {
        let at = 40 + random.below(bytes.len() - 40);
        bytes[at] = if random.once_in(3) { random.draw() as u8 } else { random.below(8) as u8 };
    }
    Image::read(&bytes).expect("the layout is right")
}

/// How often an attribute of a number stands in the lines of a listing that begin so.
fn times(listing: &str, attribute: &str, first: impl Fn(&str) -> bool) -> usize {
    let lines = listing.lines().filter(|line| first(line.split(' ').next().unwrap_or_default()));
    lines.filter(|line| line.split_whitespace().any(|word| word == attribute)).count()
}

#[test]
fn damaged_images_are_printed_whole() {
    for seed in 0..5_000 {
        let image = damaged(seed);
        let listing = print(&image);
        for (number, _) in image.inodes.iter().enumerate().filter(|(_, inode)| inode.is_used()) {
            let found = times(&listing, &format!("inode={number}"), |first| first != "handle");
            assert_eq!(found, 1, "seed {seed}, inode {number}\n{listing}");
        }
        for (slot, _) in image.used_entries() {
            assert_eq!(times(&listing, &format!("slot={slot}"), |_| true), 1, "seed {seed}, slot {slot}\n{listing}");
        }
        for (text, _) in image.texts.iter().enumerate().filter(|(_, text)| !text.is_empty()) {
            assert!(times(&listing, &format!("text={text}"), |_| true) > 0, "seed {seed}, text {text}\n{listing}");
        }
        let handles = listing.lines().filter(|line| line.starts_with("handle ")).count();
        assert!(handles >= image.handles.iter().filter(|handle| handle.is_open()).count(), "seed {seed}\n{listing}");
        assert!(listing.lines().last().is_some_and(|line| line.starts_with("journal ")));
    }
}

#[test]
fn damaged_images_are_not_taken_for_others() {
    let mut refused = 0;
    for seed in 0..5_000 {
        let image = damaged(seed);
        match parse(print(&image).as_bytes()) {
            // What a listing shows is all of the image that is read, so only one that is consistent comes back.
            Ok(again) => assert_eq!(again, image, "seed {seed}"),
            Err(_) => refused += 1,
        }
        if check(&image.write()) == Number::DONE {
            assert!(parse(print(&image).as_bytes()).is_ok(), "seed {seed}");
        }
    }
    assert!(refused > 4_000, "{refused}");
}

fn entry(parent: u16, target: u16, name: &str) -> Entry {
    Entry { parent, target, name: name.into() }
}

#[test]
fn a_loop_of_directories_ends() {
    let mut image = parsed(BENCH);
    image.entries[7] = entry(5, 1, "again");
    has_line(&print(&image), "name slot=7 /a/d/again = /a");
    image.entries[7] = entry(5, 0, "top");
    has_line(&print(&image), "name slot=7 /a/d/top = /");
    // A loop that the root does not lead to.
    image.entries[0] = Entry::default();
    image.entries[7] = entry(5, 1, "again");
    has_line(&print(&image), "stray slot=7 parent=5 target=1 name=again");
    has_line(&print(&image), "lost dir mode=0755 owner=100:100 fs=0 links=2 modified=100 changed=100 inode=5 parent=1");
}

#[test]
fn entries_that_lead_nowhere_are_strays() {
    let mut image = parsed(BENCH);
    image.entries[7] = entry(9, 77, "x y");
    has_line(&print(&image), "stray slot=7 parent=9 target=77 name=\"x y\"");
    image.entries[7] = entry(3, 4, "in-a-file");
    has_line(&print(&image), "stray slot=7 parent=3 target=4 name=in-a-file");
    image.entries[7] = entry(1, 0, "");
    has_line(&print(&image), "stray slot=7 parent=1 target=0 name=\"\"");
    image.entries[7] = entry(1, 4, "a/b\0");
    has_line(
        &print(&image),
        "file mode=0755 owner=100:100 fs=0 links=1 modified=100 changed=100 inode=4 slot=7 \"/a/a\\x2fb\\x00\"",
    );
}

#[test]
fn inodes_of_no_known_form_are_shown_as_they_are() {
    let mut image = parsed(BENCH);
    image.inodes[4] = Inode { kind: 9, field: 3, ..Inode::default() };
    has_line(&print(&image), "type9 mode=0000 owner=0:0 fs=0 links=0 modified=0 changed=0 inode=4 slot=5 field=3 /b/g");
    image.inodes[4] = Inode { kind: kind::FREE, mode: 0o177777, ..Inode::default() };
    has_line(&print(&image), "lost free mode=177777 owner=0:0 fs=0 links=0 modified=0 changed=0 inode=4");
    has_line(&print(&image), "stray slot=5 parent=2 target=4 name=g");
    image.inodes[6].field = 8;
    let symlink = "link mode=0755 owner=100:100 fs=0 links=1 modified=100 changed=100 inode=6 slot=2 text=8 /s -> \"\"";
    has_line(&print(&image), symlink);
    has_line(&print(&image), "lost text text=0 -> a");
    image.inodes[0].kind = kind::FILE;
    has_line(&print(&image), "file mode=0755 owner=100:100 fs=0 links=4 modified=100 changed=100 inode=0 /");
    has_line(&print(&image), "stray slot=0 parent=0 target=1 name=a");
}

#[test]
fn handles_without_a_path_show_their_inode() {
    let mut image = parsed(BENCH);
    image.handles = vec![Handle { state: 2, inode: 500 }, Handle { state: 7, inode: 1 }, Handle { state: 0, inode: 5 }];
    has_line(&print(&image), "handle 0 search inode=500");
    has_line(&print(&image), "handle 1 state=7 /a");
    has_line(&print(&image), "handle 2 closed inode=5");
}

#[test]
fn an_image_of_no_records_can_be_printed() {
    assert!(print(&Image::default()).starts_with("# 72 bytes: 0 of 0 inodes"));
}

//! The bench tree: read from its listing, printed, and printed again at a crash.

use super::{has_line, parsed, print, BENCH};
use crate::image::{Image, Journal, ABSENT};
use mirepillar::{land, rename, Plan, Request, EXCHANGE};

/// The bench tree's bytes as the stored cases have them, behind a tag and a length.
fn stored() -> &'static [u8] {
    &include_bytes!("../../../../../crates/vectors/data/rename")[5..629]
}

const PRINTED: &str = "\
# 624 bytes: 7 of 7 inodes, 7 of 8 entries, 1 of 1 texts and 1 of 1 handles are in use
dir  mode=0755 owner=100:100 fs=0 links=4 modified=100 changed=100 inode=0                /
dir  mode=0755 owner=100:100 fs=0 links=3 modified=100 changed=100 inode=1 slot=0         /a
dir  mode=0755 owner=100:100 fs=0 links=2 modified=100 changed=100 inode=5 slot=4         /a/d
file mode=0755 owner=100:100 fs=0 links=2 modified=100 changed=100 inode=3 slot=3         /a/f
dir  mode=0755 owner=100:100 fs=0 links=2 modified=100 changed=100 inode=2 slot=1         /b
file mode=0755 owner=100:100 fs=0 links=1 modified=100 changed=100 inode=4 slot=5         /b/g
name                                                                       slot=6         /b/h = /a/f
link mode=0755 owner=100:100 fs=0 links=1 modified=100 changed=100 inode=6 slot=2 text=0  /s -> a
handle 0 open /b
inodes 7
entries 8
texts 1
handles 1
journal clear
";

#[test]
fn its_listing_gives_the_stored_bytes() {
    assert_eq!(stored().len(), 624);
    assert_eq!(parsed(BENCH).write(), stored());
}

#[test]
fn it_prints_every_attribute() {
    assert_eq!(print(&parsed(BENCH)), PRINTED);
    assert_eq!(parsed(PRINTED).write(), stored());
}

/// The bench tree after the first rows of a rename have landed and power has failed.
fn crashed(old: &str, new: &str, flags: u32, rows: &[u64]) -> String {
    let mut image = stored().to_vec();
    let mut plan = Plan::EMPTY;
    let request = Request { now: 500, flags, ..Request::new(old.as_bytes(), new.as_bytes()) };
    assert!(rename(&image, &request, &mut plan.0).number.is_done(), "{old} {new}");
    for &row in rows {
        assert!(land(&mut image, &plan.0, row).is_done(), "row {row}");
    }
    print(&Image::read(&image).expect("the layout is right"))
}

#[test]
fn a_directory_with_two_names_prints_its_contents_once() {
    let listing = crashed("/b", "/a/k", 0, &[0, 1]);
    has_line(
        &listing,
        "dir mode=0755 owner=100:100 fs=0 links=2 modified=100 changed=100 inode=2 slot=7 parent=0 /a/k",
    );
    has_line(&listing, "name slot=1 /b = /a/k");
    assert_eq!(listing.matches("slot=5").count(), 1);
    has_line(&listing, "name slot=6 /a/k/h = /a/f");
    has_line(&listing, "handle 0 open /a/k");
    has_line(&listing, "journal pending: rename of inode 2 from slot 1 in inode 0 to slot 7, at time 500");
}

#[test]
fn a_replaced_symlink_leaves_its_text_behind() {
    let listing = crashed("/a/f", "/s", 0, &[0, 1, 2]);
    has_line(&listing, "lost link mode=0755 owner=100:100 fs=0 links=1 modified=100 changed=100 inode=6 text=0 -> a");
    has_line(
        &listing,
        "journal pending: rename of inode 3 from slot 3 in inode 1 to slot 2, replacing inode 6, freeing text 0, at time 500",
    );
    // Row 6 is the replaced inode's, and row 7 the text's.
    has_line(&crashed("/a/f", "/s", 0, &[0, 1, 2, 6]), "lost text text=0 -> a");
    assert!(!crashed("/a/f", "/s", 0, &[0, 1, 2, 6, 7]).contains("lost"));
}

#[test]
fn an_exchange_is_told_in_words() {
    let listing = crashed("/a/f", "/b/g", EXCHANGE, &[0]);
    has_line(&listing, "journal pending: exchange of inode 3 in slot 3 of inode 1 and inode 4 in slot 5, at time 500");
}

#[test]
fn any_other_journal_record_is_told_by_its_numbers() {
    let mut image = parsed(BENCH);
    image.journal = Journal { mark: 9, kind: 4, moved: 3, replaced: ABSENT, time: 5, ..Journal::default() };
    has_line(
        &print(&image),
        "journal unreadable: mark 9, kind 4, old slot 0, new slot 0, moved 3, replaced 65535, old parent 0, text 0, time 5, and 0 other bytes that are not 0",
    );
    image.journal = Journal { rest: [0, 0, 7, 0, 0, 0, 0, 0, 0, 1], ..Journal::default() };
    has_line(
        &print(&image),
        "journal unreadable: mark 0, kind 0, old slot 0, new slot 0, moved 0, replaced 0, old parent 0, text 0, time 0, and 2 other bytes that are not 0",
    );
    assert_eq!(Image::read(&image.write()).map(|again| again.journal), Ok(image.journal));
}

//! Listings as people write them: with defaults, quotes and comments.

use super::{lines, parse, parsed, print};
use crate::image::{kind, Handle, Inode};
use mirepillar::{check, Number};

#[test]
fn the_example_of_the_documents_is_an_image() {
    let document = include_str!("../../../../../docs/LISTING.md");
    let mut blocks = document.split("```").skip(1).step_by(2);
    let example = blocks.next().and_then(|block| block.strip_prefix("text\n")).expect("it begins with an example");
    assert_eq!(example.lines().count(), 5);
    let image = parsed(example);
    assert_eq!(check(&image.write()), Number::DONE);
    let printed = blocks.next().and_then(|block| block.strip_prefix("text\n")).expect("and shows how it is printed");
    assert_eq!(print(&image), printed);
}

#[test]
fn nothing_is_a_root_and_a_free_entry() {
    for listing in ["", "\n\n", "# only a comment", "dir /", "journal clear\r\n"] {
        let image = parsed(listing);
        let root = Inode { kind: kind::DIRECTORY, mode: 0o755, links: 2, ..Inode::default() };
        assert_eq!(image.inodes, [root], "{listing}");
        assert_eq!((image.entries.len(), image.texts.len(), image.handles.len()), (1, 0, 0));
        assert_eq!(check(&image.write()), Number::DONE);
    }
}

#[test]
fn what_is_left_out_has_a_default() {
    let image = parsed("dir fs=3 /\ndir /d\nfile /d/f\nlink /d/s -> f\n");
    let modes: Vec<u16> = image.inodes.iter().map(|inode| inode.mode).collect();
    assert_eq!(modes, [0o755, 0o755, 0o644, 0o777]);
    assert!(image.inodes.iter().all(|inode| inode.system == 3 && inode.owner == 0 && inode.group == 0));
    assert!(image.inodes.iter().all(|inode| inode.modified == 0 && inode.changed == 0));
    let links: Vec<u16> = image.inodes.iter().map(|inode| inode.links).collect();
    assert_eq!(links, [3, 2, 1, 1]);
    assert_eq!(image.entries.len(), 4);
}

#[test]
fn words_stand_in_any_order() {
    let one = "dir /a mode=1777 owner=1:2 fs=9 modified=3 changed=4 inode=7 slot=5";
    let other = "\tdir slot=5 inode=7 /a changed=4   modified=3 fs=9 owner=1:2 mode=01777 # a comment";
    assert_eq!(parsed(one), parsed(other));
    assert_eq!((parsed(one).inodes.len(), parsed(one).entries.len()), (8, 7));
    assert_eq!(parsed("link -> x text=2 /s"), parsed("link /s text=2 -> x"));
    assert_eq!(parsed("file /f\nname = /f /g"), parsed("file /f\nname /g = /f"));
}

#[test]
fn given_numbers_are_taken_first() {
    let image = parsed("file /a\nfile /b inode=1 slot=0\nfile /c\nlink /d -> x\nlink /e text=0 -> y\n");
    let targets: Vec<u16> = image.entries.iter().map(|entry| entry.target).collect();
    assert_eq!(targets, [1, 2, 3, 4, 5, 0]);
    assert_eq!(image.entries[0].name, b"b");
    assert_eq!(image.texts, [b"y", b"x"]);
}

#[test]
fn counts_give_room() {
    let image = parsed("inodes 4\nfile /f\nentries 1\ntexts 2\nhandles 3\nhandle 1 search /f\nhandle 2 closed");
    assert_eq!((image.inodes.len(), image.entries.len(), image.texts.len()), (4, 1, 2));
    assert_eq!(image.handles, [Handle::default(), Handle { state: 2, inode: 1 }, Handle::default()]);
    assert_eq!(parsed("handle 2 open /\nhandle 4 closed").handles.len(), 5);
}

#[test]
fn quotes_hold_any_bytes() {
    let image = parse(b"file \"/a b\\x07\\\"\\\\\\xFF\xfe\"\nlink \"/#\" -> \"-> \\x41\"\nlink /\xc3\xa9 -> ->")
        .expect("it is right");
    assert_eq!(image.entries[0].name, b"a b\x07\"\\\xff\xfe");
    assert_eq!(image.entries[1].name, b"#");
    assert_eq!(image.entries[2].name, "é".as_bytes());
    assert_eq!(image.texts, [&b"-> A"[..], b"->"]);
    assert!(print(&image).contains(r#" "/a b\x07\"\\\xff\xfe""#), "{}", print(&image));
    assert!(print(&image).contains(r#" "/\xc3\xa9" -> "->""#), "{}", print(&image));
}

#[test]
fn a_directory_can_be_on_another_file_system() {
    let image = parsed("dir /m fs=128\nfile /m/f\nname /m/g = /m/f");
    assert_eq!(image.inodes[2].system, 128);
    assert_eq!(check(&image.write()), Number::DONE);
}

#[test]
fn an_image_can_be_as_large_as_there_is_room() {
    let directories = lines(62, |number| format!("dir /d{number}"));
    let files = lines(449, |number| format!("file /d{}/f{number}", number % 62));
    let names = lines(513, |number| format!("name /d{0}/n{number} = /d{0}/f{0}", number % 62));
    let image = parsed(&format!("{directories}{files}{names}"));
    assert_eq!((image.inodes.len(), image.entries.len()), (512, 1024));
    assert_eq!(check(&image.write()), Number::DONE);
    let full = parsed(&lines(64, |number| format!("link /s{number} -> a")));
    assert_eq!((full.texts.len(), full.entries.len()), (64, 65));
    assert_eq!(parsed(&lines(16, |number| format!("handle {number} open /"))).handles.len(), 16);
}

//! Every way in which a listing can be wrong: the place and the sentence.

use super::{fault, lines, parse};

/// Each listing with its fault.
fn all(cases: &[(&str, &str)]) {
    for (listing, expected) in cases {
        assert_eq!(fault(listing.as_bytes()), *expected, "{listing}");
    }
}

#[test]
fn a_fault_has_its_place_and_its_sentence() {
    let fault = parse(b"dir /a\n\n  file  /b/x").expect_err("there is no /b");
    assert_eq!((fault.line, fault.column), (3, 9));
    assert_eq!(fault.sentence, "there is no directory /b; list it before what is in it");
    assert_eq!(fault.to_string(), "line 3, column 9: there is no directory /b; list it before what is in it");
}

#[test]
fn words() {
    let form = "a line begins with dir, file, link, name, handle, inodes, entries, texts, handles or journal";
    all(&[
        ("fil /a", &format!("line 1, column 1: unknown word fil; {form}")),
        (" \"dir\" /a", &format!("line 1, column 2: unknown word dir; {form}")),
        ("type9 /a", &format!("line 1, column 1: unknown word type9; {form}")),
        ("dir a", "line 1, column 5: unknown word a; a path begins with /"),
        ("dir /a b", "line 1, column 8: unknown word b; a path begins with /"),
        ("dir /a /b", "line 1, column 8: there is a second path on this line"),
        ("dir", "line 1, column 1: a dir line needs a path"),
        ("dir mode=0755", "line 1, column 1: a dir line needs a path"),
        ("dir \"a\"", "line 1, column 5: the path a does not begin with /"),
        ("dir \"\"", "line 1, column 5: the path \"\" does not begin with /"),
        ("dir \"a/b\"", "line 1, column 5: the path a/b does not begin with /"),
    ]);
}

#[test]
fn quotes_and_bytes() {
    all(&[
        ("dir \"/a", "line 1, column 5: the quote that begins here has no end on this line"),
        ("dir \"/a\\\"", "line 1, column 5: the quote that begins here has no end on this line"),
        ("dir \"/a\"b", "line 1, column 9: a space has to follow the quote"),
        ("dir /a\"b\"", "line 1, column 7: a quote inside a word; put all of the path in quotes"),
        ("dir /a\\x20", "line 1, column 7: a backslash outside of quotes; put all of the path in quotes"),
        ("dir /a\x07", "line 1, column 7: the byte \\x07 outside of quotes; write it so, in quotes"),
        ("dir \"/a\\n\"", "line 1, column 8: unknown escape; there are \\\", \\\\ and \\x with two hexadecimal digits"),
        ("dir \"/a\\x4\"", "line 1, column 8: two hexadecimal digits have to follow \\x"),
        ("dir \"/a\\x", "line 1, column 8: two hexadecimal digits have to follow \\x"),
        ("dir \"/a\\x+4\"", "line 1, column 8: two hexadecimal digits have to follow \\x"),
        ("dir \"/a\\x00\"", "line 1, column 8: no name and no text can hold a byte 0"),
        ("dir \"/a\0\"", "line 1, column 8: no name and no text can hold a byte 0"),
        ("link /s -> \"a\\x00\"", "line 1, column 14: no name and no text can hold a byte 0"),
        ("dir \"/a\\x2fb\"", "line 1, column 8: a slash is written / and not \\x2f; no name can hold one"),
    ]);
    assert_eq!(fault(b"dir /\xc3\xa9\xe9"), "line 1, column 8: \\xe9 is no UTF-8; write it so, in quotes");
}

#[test]
fn attributes() {
    all(&[
        ("dir size=3 /a", "line 1, column 5: unknown attribute size="),
        ("dir =3 /a", "line 1, column 5: unknown attribute ="),
        ("dir mode=0755 /a mode=0755", "line 1, column 18: there is a second mode on this line"),
        ("dir /a slot=1 slot=2", "line 1, column 15: there is a second slot on this line"),
        ("dir mode=0758 /a", "line 1, column 10: an octal number has to stand here, and not \"0758\""),
        ("dir mode= /a", "line 1, column 10: an octal number has to stand here, and not \"\""),
        ("dir mode=10000 /a", "line 1, column 10: mode 10000 is over 7777"),
        ("dir mode=7777777777777777777777777 /a", "line 1, column 10: mode 7777777777777777777777777 is over 7777"),
        ("dir owner=100 /a", "line 1, column 11: an owner is a user and a group, as in owner=100:100"),
        ("dir owner=1:x /a", "line 1, column 13: a number has to stand here, and not \"x\""),
        ("dir owner=4294967296:1 /a", "line 1, column 11: 4294967296 is too large; 4294967295 is the most"),
        ("dir fs=256 /a", "line 1, column 8: 256 is too large; 255 is the most"),
        ("dir fs=+1 /a", "line 1, column 8: a number has to stand here, and not \"+1\""),
        ("dir links=65 /a", "line 1, column 11: 65 is too large; 64 is the most"),
        (
            "dir changed=18446744073709551616 /a",
            "line 1, column 13: 18446744073709551616 is too large; 18446744073709551615 is the most",
        ),
        ("dir inode=512 /a", "line 1, column 11: 512 is too large; 511 is the most"),
        ("dir slot=1024 /a", "line 1, column 10: 1024 is too large; 1023 is the most"),
        ("link text=64 /a -> b", "line 1, column 11: 64 is too large; 63 is the most"),
        ("file text=0 /a", "line 1, column 6: a file line has no text="),
        ("file /a\nname mode=0755 /b = /a", "line 2, column 6: a name line has no mode="),
    ]);
}

#[test]
fn paths() {
    all(&[
        ("dir /a\ndir /a", "line 2, column 5: /a is listed already, in line 1"),
        ("dir /a\nfile /a", "line 2, column 6: /a is listed already, in line 1"),
        ("file /a/b", "line 1, column 6: there is no directory /a; list it before what is in it"),
        ("file \"/a b/c\"", "line 1, column 6: there is no directory \"/a b\"; list it before what is in it"),
        ("file /a\nfile /a/b", "line 2, column 6: /a is no directory"),
        ("link /a -> b\nfile /a/b", "line 2, column 6: /a is no directory"),
        ("dir /a/", "line 1, column 5: the path /a/ has an empty name; one slash stands in front of each name and none at the end"),
        ("dir //", "line 1, column 5: the path // has an empty name; one slash stands in front of each name and none at the end"),
        ("dir //a", "line 1, column 5: the path //a has an empty name; one slash stands in front of each name and none at the end"),
        ("dir /a\ndir /a//b", "line 2, column 5: the path /a//b has an empty name; one slash stands in front of each name and none at the end"),
        ("dir /.", "line 1, column 5: the path /. ends in . or .., which is no name"),
        ("dir /a\ndir /a/..", "line 2, column 5: the path /a/.. ends in . or .., which is no name"),
        (
            "dir /abcdefghijklmnopqrstuvwxy",
            "line 1, column 5: the path /abcdefghijklmnopqrstuvwxy has a last name of 25 bytes; 24 are the most",
        ),
    ]);
}

#[test]
fn the_root() {
    all(&[
        ("file /", "line 1, column 6: the root / is a directory"),
        ("link / -> a", "line 1, column 6: the root / is a directory"),
        ("dir / slot=0", "line 1, column 7: the root is in no directory, and has no slot"),
        ("dir / inode=1", "line 1, column 7: the root is inode 0, and nothing else is"),
        ("dir /a inode=0", "line 1, column 8: the root is inode 0, and nothing else is"),
        ("dir /a\ndir /", "line 2, column 5: the root / is listed once, and before all else"),
        ("dir /\ndir /", "line 2, column 5: the root / is listed once, and before all else"),
        ("file /a\nname / = /a", "line 2, column 6: the path / is the root, which is a directory and in none"),
        ("dir links=3 /", "line 1, column 5: by this listing / has a link count of 2"),
    ]);
}

#[test]
fn names_texts_and_file_systems() {
    let long = "x".repeat(64);
    all(&[
        ("file /a\nname /b", "line 2, column 1: a name line needs = and a listed path behind its own"),
        ("file /a\nname /b =", "line 2, column 9: nothing stands behind ="),
        ("name /b = /a\nfile /a", "line 1, column 11: there is no /a; list it before its further names"),
        ("dir /a\nname /b = /a", "line 2, column 11: /a is a directory, which has one name"),
        ("name /b = /", "line 1, column 11: / is a directory, which has one name"),
        ("file /a\nname /b -> /a = /a", "line 2, column 12: only a link line has -> and a text"),
        ("file /a = /b", "line 1, column 11: only a name line has = and a path, not a file line"),
        ("file /a -> b", "line 1, column 12: only a link line has -> and a text"),
        ("link /s", "line 1, column 1: a link line needs -> and a text behind its path"),
        ("link /s ->", "line 1, column 9: nothing stands behind ->"),
        ("link /s -> # a", "line 1, column 9: nothing stands behind ->"),
        ("link /s -> a -> b", "line 1, column 14: there is a second -> on this line"),
        ("link /s -> \"\"", "line 1, column 12: the text of a symlink cannot be empty"),
        (&format!("link /s -> {long}"), "line 1, column 12: a text of 64 bytes is too long; 63 are the most"),
        ("file fs=1 /a", "line 1, column 6: only a directory can be on another file system than its parent"),
        (
            "dir fs=1 /d\nlink fs=0 /d/s -> a",
            "line 2, column 6: only a directory can be on another file system than its parent",
        ),
        (
            "dir fs=1 /d\nfile /f\nname /d/f = /f",
            "line 3, column 6: all names of a file or symlink are on one file system",
        ),
        ("file links=2 /a", "line 1, column 6: by this listing /a has a link count of 1"),
        ("file links=1 /a\nname /b = /a", "line 1, column 6: by this listing /a has a link count of 2"),
    ]);
}

#[test]
fn numbers_and_counts() {
    all(&[
        ("file inode=3 /a\nfile inode=3 /b", "line 2, column 6: inode 3 is taken already, by line 1"),
        ("file slot=3 /a\nname slot=3 /b = /a", "line 2, column 6: slot 3 is taken already, by line 1"),
        ("link text=3 /a -> x\nlink text=3 /b -> x", "line 2, column 6: text 3 is taken already, by line 1"),
        ("handle 1 open /\nhandle 1 closed", "line 2, column 8: handle 1 is taken already, by line 1"),
        ("file inode=3 /a\ninodes 3", "line 1, column 6: there is no inode 3 by the line inodes 3"),
        ("file slot=0 /a\nentries 0", "line 1, column 6: there is no slot 0 by the line entries 0"),
        ("handles 1\nhandle 1 open /", "line 2, column 8: there is no handle 1 by the line handles 1"),
        ("inodes 2\nfile /a\nfile /b", "line 3, column 1: this is one too many for the line inodes 2"),
        ("entries 1\nfile /a\nname /b = /a", "line 3, column 6: this is one too many for the line entries 1"),
        ("texts 0\nlink /a -> b", "line 2, column 1: this is one too many for the line texts 0"),
        ("inodes 0", "line 1, column 8: there is no image without an inode; the root is one"),
        ("inodes 513", "line 1, column 8: 513 is too large; 512 is the most"),
        ("entries 1025", "line 1, column 9: 1025 is too large; 1024 is the most"),
        ("texts 65", "line 1, column 7: 65 is too large; 64 is the most"),
        ("handles 17", "line 1, column 9: 17 is too large; 16 is the most"),
        ("texts", "line 1, column 1: a line texts has one number, as in texts 8"),
        ("texts 1 2", "line 1, column 1: a line texts has one number, as in texts 8"),
        ("texts many", "line 1, column 7: a number has to stand here, and not \"many\""),
        ("texts 1\ntexts 1", "line 2, column 1: there is a second line texts"),
    ]);
}

#[test]
fn handles() {
    let form = "a handle line is `handle NUMBER open PATH`, the same with search, or `handle NUMBER closed`";
    all(&[
        ("handle", &format!("line 1, column 1: {form}")),
        ("handle 0", &format!("line 1, column 1: {form}")),
        ("handle 0 open", &format!("line 1, column 1: {form}")),
        ("handle 0 open / /", &format!("line 1, column 1: {form}")),
        ("handle 0 closed /", "line 1, column 17: a closed handle has no path"),
        ("handle 0 shut /", "line 1, column 10: unknown state shut; a handle is open, search or closed"),
        ("handle x open /", "line 1, column 8: a number has to stand here, and not \"x\""),
        ("handle 16 open /", "line 1, column 8: 16 is too large; 15 is the most"),
        ("handle 0 open /a", "line 1, column 15: there is no /a; list it before its handle"),
        ("handle 0 open inode=3", "line 1, column 15: there is no \"inode=3\"; list it before its handle"),
    ]);
}

#[test]
fn what_only_a_printed_listing_has() {
    let sound = "an image made from a listing is sound";
    let journal = format!("line 1, column 1: {sound}, so its journal record can only be clear");
    all(&[
        ("lost file inode=3", &format!("line 1, column 1: {sound}, and a lost line tells of one that is not")),
        ("stray slot=3", &format!("line 1, column 1: {sound}, and a stray line tells of one that is not")),
        ("free inode=0 /", &format!("line 1, column 1: {sound}, and a free line tells of one that is not")),
        ("journal", &journal),
        ("journal clear now", &journal),
        ("journal pending: rename of inode 3", &journal),
        ("dir parent=3 /a", "line 1, column 5: unknown attribute parent="),
    ]);
}

#[test]
fn limits_of_an_image() {
    let files = lines(512, |number| format!("file /f{number}"));
    let names = lines(63, |number| format!("name /n{number} = /f"));
    let many_names = lines(1010, |number| format!("name /n{number} = /f{}", number % 20));
    let directories = lines(63, |number| format!("dir /d{number}"));
    let symlinks = lines(65, |number| format!("link /s{number} -> a"));
    all(&[
        (&files, "line 512, column 1: this is one too many; an image has at most 512 inodes"),
        (&symlinks, "line 65, column 1: this is one too many; an image has at most 64 texts"),
        (
            &format!("file /f\n{names}name /last = /f"),
            "line 65, column 6: this is one name too many; an inode has at most 64 links",
        ),
        (&directories, "line 63, column 5: this is one child directory too many; an inode has at most 64 links"),
        (
            &format!("{}{many_names}", lines(20, |number| format!("file /f{number}"))),
            "line 1025, column 6: this is one too many; an image has at most 1024 entries",
        ),
    ]);
}

//! The images that are measured: full ones of several shapes, smaller ones, and the bench tree.

use super::bucket::names_in_one_bucket;
use crate::cases::random::Random;
use crate::cases::trees::bench::bench_tree;
use crate::cases::trees::builder::{Entry, Handle, Inode, Tree};
use crate::cases::trees::generated::{generate, Aim, FULL};
use crate::model::image::{DIRECTORY, FILE, SYMLINK};

/// Directories in the one that has every name, whose links end at 64.
const WIDE_DIRECTORIES: usize = 40;

/// One inside the other. Paths of 255 bytes reach the first 127 of them.
const CHAIN: usize = 400;

/// The depths at which the chain has its other names, and how many in each directory.
const FIRST_DEEP: usize = 63;
const DEEP_NAMES: usize = 10;

/// The chain's own names are `d`.
const CHAIN_NAME: &[u8] = b"d";
const OTHER_NAMES: &[u8; DEEP_NAMES] = b"abcefghijk";

pub struct Measured {
    pub name: &'static str,
    pub tree: Tree,
}

/// The image by which the jobs are judged first.
pub const TYPICAL: &str = "typical";

/// Every image. Wide ones have all names in one directory; of a chain's directories each is inside the one before.
pub fn all() -> Vec<Measured> {
    let numbered = |names: fn(usize) -> String| (0..FULL.entries).map(names).map(String::into_bytes);
    [
        (TYPICAL, generate(FULL, 0)),
        ("typical, a quarter", generate(part_of_full(4), 0)),
        ("typical, a sixteenth", generate(part_of_full(16), 0)),
        ("wide", wide(numbered(|n| format!("f{n:04}")))),
        ("wide, 20 bytes in common", wide(numbered(|n| format!("in-common-in-common-{n:04}")))),
        ("wide, unlike in front", wide(numbered(|n| format!("{n:04}-then-all-the-same--")))),
        ("wide, in one bucket", wide(names_in_one_bucket(0))),
        ("chain, rising", chain()),
        ("chain, falling", falling(chain())),
        ("bench tree", bench_tree()),
    ]
    .map(|(name, tree)| Measured { name, tree })
    .into()
}

/// So many times fewer records of each kind.
fn part_of_full(part: usize) -> Aim {
    let [inodes, entries, texts, handles] = [FULL.inodes, FULL.entries, FULL.texts, FULL.handles].map(|all| all / part);
    let directories = FULL.directories / part;
    let files = inodes - 1 - directories - texts;
    let (symlinks, names, open_handles) = (texts, entries, handles);
    Aim { inodes, entries, texts, handles, directories, files, symlinks, names, open_handles, shape: FULL.shape }
}

/// An inode with nothing uncommon about it; its links and a directory's parent are counted later.
fn inode(kind: u8, field: usize) -> Inode {
    let (mode, owner, group) = (0o755, 100, 100);
    Inode { kind, mode, owner, group, field: field as u16, modified: 100, changed: 100, ..Inode::default() }
}

/// Root, so many other directories, all the symlinks, and files for the rest; still without entries.
fn inodes(directories: usize) -> Vec<Inode> {
    let mut inodes = vec![inode(DIRECTORY, 0); 1 + directories];
    inodes.extend((0..FULL.texts).map(|text| inode(SYMLINK, text)));
    inodes.resize(FULL.inodes, inode(FILE, 0));
    inodes
}

/// Which inode the n-th name is for: each has one, and those that are no directories share the names that are left.
fn target(directories: usize, n: usize) -> u16 {
    let others = FULL.inodes - 1 - directories;
    (if n < directories { 1 + n } else { 1 + directories + (n - directories) % others }) as u16
}

fn full(inodes: Vec<Inode>, entries: Vec<Entry>) -> Tree {
    let texts = (0..FULL.texts).map(|text| format!("some/where/{text}").into_bytes()).collect();
    let handles = (0..FULL.handles).map(|handle| Handle { state: 1, inode: handle as u16 }).collect();
    let mut tree = Tree { inodes, entries, texts, handles };
    tree.recount();
    tree
}

/// Every name in root, slot after slot.
pub fn in_root(names: impl Iterator<Item = Vec<u8>>) -> Tree {
    let named = (0..FULL.entries).zip(names);
    let entries = named.map(|(n, name)| Entry::new(0, target(WIDE_DIRECTORIES, n), &name)).collect();
    full(inodes(WIDE_DIRECTORIES), entries)
}

/// The same in any order.
pub fn wide(names: impl Iterator<Item = Vec<u8>>) -> Tree {
    let mut tree = in_root(names);
    Random::new(1).shuffle(&mut tree.entries);
    tree
}

/// Directories one inside the other, their numbers and their slots rising with the depth; the other names deep in it.
pub fn chain() -> Tree {
    let in_chain = |depth: usize| Entry::new(depth as u16, target(CHAIN, depth), CHAIN_NAME);
    let other = |n: usize| {
        let (depth, name) = (FIRST_DEEP + n / DEEP_NAMES, OTHER_NAMES[n % DEEP_NAMES]);
        Entry::new(depth as u16, target(CHAIN, CHAIN + n), &[name])
    };
    let mut entries: Vec<Entry> = (0..CHAIN).map(in_chain).chain((0..FULL.entries - CHAIN).map(other)).collect();
    entries.sort_by_key(|entry| entry.parent);
    full(inodes(CHAIN), entries)
}

/// The same tree with all numbers but root's, and all slots, the other way round.
pub fn falling(mut tree: Tree) -> Tree {
    let count = tree.inodes.len() as u16;
    let turned = |number: u16| if number == 0 { 0 } else { count - number };
    tree.inodes[1..].reverse();
    tree.entries.reverse();
    for entry in &mut tree.entries {
        (entry.parent, entry.target) = (turned(entry.parent), turned(entry.target));
    }
    tree.handles.iter_mut().for_each(|handle| handle.inode = turned(handle.inode));
    tree.recount();
    tree
}

//! The full images that the cases are edits of. Short names, and texts of one byte, leave room for several edits.

use crate::bench::bucket::{bucket, in_one_bucket, names_in_one_bucket, BUCKETS};
use crate::bench::images::{chain, falling, in_root, wide};
use crate::cases::trees::builder::{Entry, Inode, Tree};
use crate::model::image::{FILE, SYMLINK};

const PORTABLE: &[u8; 64] = b"ABCDEFGHIJKLMNOPQRSTUVWXYZabcdefghijklmnopqrstuvwxyz0123456789_-";

/// So many give every bucket more names than any base takes from it.
const ENOUGH: usize = 1 << 18;

/// Where the slots of directories begin in `four_bytes`: in the middle, so that slots at both ends can be freed.
const FIRST_DIRECTORY_SLOT: usize = 300;

/// Free slots in front of `holes`, and as many at its end.
pub const HOLES_AT_AN_END: usize = 10;

/// Every seventh slot between is free too, where its inode has another name.
const HOLE_EVERY: usize = 7;

/// Portable names of four bytes, every one of them once.
pub fn short_names() -> impl Iterator<Item = Vec<u8>> {
    (0..PORTABLE.len().pow(4)).map(|number| {
        let digit = |place: u32| PORTABLE[number / PORTABLE.len().pow(place) % PORTABLE.len()];
        [3, 2, 1, 0].map(digit).to_vec()
    })
}

/// Some of the short names by their buckets in root.
pub fn short_names_by_bucket() -> Vec<Vec<Vec<u8>>> {
    let mut buckets = vec![vec![]; BUCKETS as usize];
    short_names().take(ENOUGH).for_each(|name| buckets[bucket(0, &name) as usize].push(name));
    buckets
}

/// All names in one bucket and in any order: the image that is measured.
pub fn twelve_bytes() -> Tree {
    wide(names_in_one_bucket(0))
}

/// All names in one bucket, rising but for one turn. The first inode behind root and the last one are symlinks.
pub fn four_bytes() -> Tree {
    let mut tree = in_root(in_one_bucket(0, short_names()));
    tree.entries.rotate_right(FIRST_DIRECTORY_SLOT);
    tree.texts.iter_mut().for_each(|text| *text = b"t".to_vec());
    let symlinks = |inode: &Inode| inode.kind == SYMLINK;
    let first = tree.inodes.iter().position(symlinks).expect("a symlink");
    exchange(&mut tree, 1, first);
    let (end, last) = (tree.inodes.len() - 1, tree.inodes.iter().rposition(symlinks).expect("a symlink"));
    exchange(&mut tree, end, last);
    tree.recount();
    tree
}

/// Two inodes with each other's number; link counts and parents are still to be counted.
fn exchange(tree: &mut Tree, one: usize, other: usize) {
    let turned = |number: u16| match usize::from(number) {
        number if number == one => other as u16,
        number if number == other => one as u16,
        _ => number,
    };
    tree.inodes.swap(one, other);
    tree.entries.iter_mut().for_each(|entry| entry.target = turned(entry.target));
    tree.handles.iter_mut().for_each(|handle| handle.inode = turned(handle.inode));
}

/// The same names with free slots in front, at the end and between.
pub fn holes() -> Tree {
    let mut tree = four_bytes();
    let slots = tree.entries.len();
    let between = (HOLES_AT_AN_END..slots - HOLES_AT_AN_END).step_by(HOLE_EVERY);
    let ends = (0..HOLES_AT_AN_END).chain(slots - HOLES_AT_AN_END..slots);
    for slot in ends.chain(between.skip(1)) {
        if tree.entries_to(tree.entries[slot].target).len() > 1 {
            tree.entries[slot] = Entry::default();
        }
    }
    tree.recount();
    tree
}

/// All names in one bucket, as long as a name can be and different in the last four bytes.
pub fn long() -> Tree {
    wide(in_one_bucket(0, short_names().map(|name| [b"in-common-in-common-", &name[..]].concat())))
}

/// Names that do not crowd.
pub fn apart() -> Tree {
    wide((0..).map(|number: usize| format!("f{number:04}").into_bytes()))
}

/// Names of which so many share each of the first buckets, bucket after bucket, and the others have each their own.
pub fn crowds(sizes: &[usize]) -> impl Iterator<Item = Vec<u8>> {
    let sizes: Vec<usize> = sizes.iter().copied().chain(std::iter::repeat(1)).take(BUCKETS as usize).collect();
    short_names_by_bucket().into_iter().zip(sizes).flat_map(|(names, size)| names.into_iter().take(size))
}

/// Four hundred directories one inside the other, with rising and with falling numbers; one inode is free.
pub fn chains() -> [Tree; 2] {
    let mut rising = chain();
    let files: Vec<usize> = (0..rising.inodes.len()).filter(|&number| rising.inodes[number].kind == FILE).collect();
    let [free, other] = [0, 1].map(|next| files[files.len() / 2 + next]);
    rising.inodes[free] = Inode::default();
    let entries = rising.entries.iter_mut().filter(|entry| usize::from(entry.target) == free);
    entries.for_each(|entry| entry.target = other as u16);
    rising.recount();
    [rising.clone(), falling(rising)]
}

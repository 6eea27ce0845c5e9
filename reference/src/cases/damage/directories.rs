//! Damage to root, to parents, and to the entries of directories.

use super::subject::{each, spread, Subject};
use super::Images;
use crate::cases::trees::builder::{Entry, Inode, Tree};
use crate::model::image::{DIRECTORY, FILE, FREE, SYMLINK};

pub fn root_kinds(subject: &Subject) -> Images {
    let poked = each(vec![0], &[FREE, FILE, SYMLINK, 4], |root, kind| subject.poke(subject.inode_at(root), kind));
    let cleared = subject.vary(|tree| {
        tree.inodes[0] = Inode::default();
        true
    });
    poked.into_iter().chain(cleared).collect()
}

/// An entry for root in a free slot, or in place of one of several names of a file.
pub fn root_targeted(subject: &Subject) -> Images {
    each(spread(subject.directories()), &[false, true], |parent, in_place| {
        subject.vary(|tree| {
            let slot = tree.entries_in(parent as u16).into_iter().find(|&slot| spare_name(tree, slot));
            let done = match (in_place, slot) {
                (false, _) => tree.add(Entry::new(parent as u16, 0, b"~root")),
                (true, Some(slot)) => {
                    tree.entries[slot].target = 0;
                    true
                }
                (true, None) => false,
            };
            tree.recount();
            done
        })
    })
}

fn spare_name(tree: &Tree, slot: usize) -> bool {
    let target = tree.entries[slot].target;
    tree.kind(target) != DIRECTORY && tree.entries_to(target).len() > 1
}

pub fn no_entry(subject: &Subject) -> Images {
    each(spread(subject.subdirectories()), &[()], |directory, ()| {
        subject.vary(|tree| {
            let slot = tree.entries_to(directory as u16)[0];
            tree.entries[slot] = Entry::default();
            tree.recount();
            true
        })
    })
}

pub fn two_entries(subject: &Subject) -> Images {
    each(spread(subject.subdirectories()), &[()], |directory, ()| {
        subject.vary(|tree| {
            let parent = tree.inodes[directory].field;
            let added = tree.add(Entry::new(parent, directory as u16, b"~again"));
            tree.recount();
            added
        })
    })
}

pub fn two_parents(subject: &Subject) -> Images {
    let parents = spread(subject.directories());
    each(spread(subject.subdirectories()), &parents, |directory, parent| {
        subject.vary(|tree| {
            let differs = usize::from(tree.inodes[directory].field) != parent;
            let added = tree.add(Entry::new(parent as u16, directory as u16, b"~again"));
            tree.recount();
            differs && added
        })
    })
}

pub fn parent_fields(subject: &Subject) -> Images {
    let mut fields = spread(subject.directories());
    fields.extend(spread(subject.non_directories()));
    fields.extend([subject.tree.inodes.len(), 256, 65_535]);
    each(spread(subject.subdirectories()), &fields, |directory, field| {
        subject.poke_u16(subject.inode_at(directory) + 14, field)
    })
}

/// Puts each of the directories into the next one, and the last into the first: all else still fits.
fn ring(subject: &Subject, directories: &[usize]) -> Option<Vec<u8>> {
    subject.vary(|tree| {
        for (i, &directory) in directories.iter().enumerate() {
            let slot = tree.entries_to(directory as u16)[0];
            let next = directories[(i + 1) % directories.len()];
            tree.entries[slot] = Entry::new(next as u16, directory as u16, b"~ring");
        }
        tree.recount();
        true
    })
}

pub fn cycles_of_one(subject: &Subject) -> Images {
    each(spread(subject.subdirectories()), &[()], |directory, ()| ring(subject, &[directory]))
}

pub fn cycles_of_two(subject: &Subject) -> Images {
    let pairs: Vec<[usize; 2]> = chosen(subject.subdirectories());
    pairs.iter().filter_map(|pair| ring(subject, pair)).collect()
}

pub fn cycles_of_three(subject: &Subject) -> Images {
    let triples: Vec<[usize; 3]> = chosen(subject.subdirectories());
    triples.iter().filter_map(|triple| ring(subject, triple)).collect()
}

/// Some groups of neighbours, forward and back.
fn chosen<const N: usize>(numbers: Vec<usize>) -> Vec<[usize; N]> {
    let groups: Vec<[usize; N]> = numbers.windows(N).map(|group| std::array::from_fn(|i| group[i])).collect();
    let places = spread((0..groups.len()).collect());
    let forward = places.iter().map(|&place| groups[place]);
    let back = places.iter().map(|&place| std::array::from_fn(|i| groups[place][N - 1 - i]));
    forward.chain(back).collect()
}

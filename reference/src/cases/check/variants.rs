//! Changes that leave an image consistent: what a check that refuses too much would get wrong.

use crate::cases::damage::subject::{each, spread, Subject};
use crate::cases::damage::{clause, Breaks, Clause, Images};
use crate::cases::trees::builder::{Entry, Handle, Inode, Tree};
use crate::model::image::{DIRECTORY, FREE, LINKS_MAX, NAME_MAX, TEXT_MAX};
use crate::model::layout::{ENTRIES, HANDLES, INODES, SECTIONS, TEXTS};

pub const VARIANT_CLAUSES: &[Clause] = &[
    clause("owner, group or time", Breaks::Nothing, owners_and_times),
    clause("mode", Breaks::Nothing, modes),
    clause("file system of a directory", Breaks::Nothing, directory_file_systems),
    clause("name", Breaks::Nothing, names),
    clause("name near a sibling's", Breaks::Nothing, near_names),
    clause("name of another directory's entry", Breaks::Nothing, names_from_elsewhere),
    clause("entries exchanged", Breaks::Nothing, entries_exchanged),
    clause("entry moved", Breaks::Nothing, entries_moved),
    clause("hard link added", Breaks::Nothing, hard_links_added),
    clause("name removed", Breaks::Nothing, names_removed),
    clause("directory added", Breaks::Nothing, directories_added),
    clause("texts exchanged", Breaks::Nothing, texts_exchanged),
    clause("text", Breaks::Nothing, texts),
    clause("handle opened, moved or closed", Breaks::Nothing, handles),
    clause("free record added", Breaks::Nothing, records_added),
];

/// Applies a change, counts anew, and gives up where the change says so.
fn recounted(subject: &Subject, change: impl FnOnce(&mut Tree) -> bool) -> Option<Vec<u8>> {
    subject.vary(|tree| {
        let done = change(tree);
        tree.recount();
        done
    })
}

fn has_name(tree: &Tree, directory: u16, name: &[u8]) -> bool {
    tree.entries_in(directory).iter().any(|&slot| tree.entries[slot].name == name)
}

fn may_be_name(name: &[u8]) -> bool {
    (1..=NAME_MAX).contains(&name.len())
        && name != b"."
        && name != b".."
        && !name.iter().any(|&byte| byte == 0 || byte == b'/')
}

fn renamed(subject: &Subject, slot: usize, name: &[u8]) -> Option<Vec<u8>> {
    let fits = may_be_name(name) && !has_name(&subject.tree, subject.tree.entries[slot].parent, name);
    subject.vary(|tree| {
        tree.entries[slot].name = name.to_vec();
        fits
    })
}

fn owners_and_times(subject: &Subject) -> Images {
    let places = [(4, 1), (7, 255), (8, 1), (11, 128), (16, 0), (16, 255), (23, 255), (24, 1), (31, 255)];
    each(spread(subject.used_inodes()), &places, |number, (at, value)| {
        subject.poke(subject.inode_at(number) + at, value)
    })
}

fn modes(subject: &Subject) -> Images {
    each(spread(subject.used_inodes()), &[0, 0o1777, 0o4000, 0o7777], |number, mode| {
        subject.poke_u16(subject.inode_at(number) + 2, mode)
    })
}

/// Only directories that hold nothing but directories may change alone.
fn directory_file_systems(subject: &Subject) -> Images {
    let directories_only = |&directory: &usize| {
        let mut slots = subject.tree.entries_in(directory as u16).into_iter();
        slots.all(|slot| subject.tree.kind(subject.tree.entries[slot].target) == DIRECTORY)
    };
    let directories = subject.directories().into_iter().filter(directories_only).collect();
    each(spread(directories), &[1, 128, 254], |number, bits| {
        let at = subject.inode_at(number) + 1;
        subject.poke(at, subject.bytes[at] ^ bits)
    })
}

fn names(subject: &Subject) -> Images {
    let names: [&[u8]; 10] =
        [b"...", b"..~", b".~", b"~.", b"~..", b"\x01", b"\xff", b" ", b"\\", b"\xff\x01~~~~~~~~~~~~~~~~~~~~~."];
    each(spread(subject.used_slots()), &names, |slot, name| renamed(subject, slot, name))
}

/// A sibling's name with another last byte, one byte more, or one fewer.
fn near_names(subject: &Subject) -> Images {
    each(spread(subject.used_slots()), &[0, 1, 2], |slot, way: usize| {
        let siblings = subject.tree.entries_in(subject.tree.entries[slot].parent);
        let other = *siblings.iter().rev().find(|&&sibling| sibling != slot)?;
        let mut name = subject.tree.entries[other].name.clone();
        match way {
            0 => *name.last_mut()? ^= 1,
            1 => name.push(b'~'),
            _ => name.truncate(name.len() - 1),
        }
        renamed(subject, slot, &name)
    })
}

fn names_from_elsewhere(subject: &Subject) -> Images {
    let slots = spread(subject.used_slots());
    each(slots.clone(), &slots, |slot, other| renamed(subject, slot, &subject.tree.entries[other].name))
}

fn entries_exchanged(subject: &Subject) -> Images {
    let slots = spread((0..subject.tree.entries.len()).collect());
    each(slots.clone(), &slots, |one, other| {
        subject.vary(|tree| {
            tree.entries.swap(one, other);
            one < other
        })
    })
}

/// A file's or symlink's entry put into another directory of the same file system.
fn entries_moved(subject: &Subject) -> Images {
    let parents = spread(subject.directories());
    let movable = |&slot: &usize| subject.tree.kind(subject.tree.entries[slot].target) != DIRECTORY;
    let slots = subject.used_slots().into_iter().filter(movable).collect();
    each(spread(slots), &parents, |slot, parent| {
        let entry = &subject.tree.entries[slot];
        let file_system = subject.tree.inodes[usize::from(entry.target)].file_system;
        let fits = usize::from(entry.parent) != parent
            && subject.tree.inodes[parent].file_system == file_system
            && !has_name(&subject.tree, parent as u16, &entry.name);
        recounted(subject, |tree| {
            tree.entries[slot].parent = parent as u16;
            fits
        })
    })
}

fn hard_links_added(subject: &Subject) -> Images {
    let names: [&[u8]; 2] = [b"~", b"~~~~~"];
    each(spread(subject.non_directories()), &names, |number, name| {
        let parent = subject.tree.entries[subject.tree.entries_to(number as u16)[0]].parent;
        let fits = subject.tree.inodes[number].links < LINKS_MAX && !has_name(&subject.tree, parent, name);
        recounted(subject, |tree| fits && tree.add(Entry::new(parent, number as u16, name)))
    })
}

fn names_removed(subject: &Subject) -> Images {
    each(spread(subject.non_directories()), &[false, true], |number, last| {
        let slots = subject.tree.entries_to(number as u16);
        let slot = if last { slots[slots.len() - 1] } else { slots[0] };
        recounted(subject, |tree| {
            tree.entries[slot] = Entry::default();
            slots.len() > 1
        })
    })
}

fn directories_added(subject: &Subject) -> Images {
    each(spread(subject.directories()), &[0, 255], |parent, file_system| {
        let number = subject.tree.inodes.iter().position(|inode| inode.kind == FREE)?;
        let fits = subject.tree.inodes[parent].links < LINKS_MAX && !has_name(&subject.tree, parent as u16, b"~");
        recounted(subject, |tree| {
            tree.inodes[number] = Inode { kind: DIRECTORY, file_system, ..Inode::default() };
            fits && tree.add(Entry::new(parent as u16, number as u16, b"~"))
        })
    })
}

/// Two symlinks with each other's text.
fn texts_exchanged(subject: &Subject) -> Images {
    let symlinks = spread(subject.symlinks());
    each(symlinks.clone(), &symlinks, |one, other| {
        subject.vary(|tree| {
            let (first, second) = (tree.inodes[one].field, tree.inodes[other].field);
            tree.inodes[one].field = second;
            tree.inodes[other].field = first;
            one < other
        })
    })
}

fn texts(subject: &Subject) -> Images {
    let texts: [&[u8]; 6] = [b"/", b".", b"..", b"\x01", b"\xff/", &[0xff; TEXT_MAX]];
    each(spread(subject.used_texts()), &texts, |number, text| {
        subject.vary(|tree| {
            tree.texts[number] = text.to_vec();
            true
        })
    })
}

fn handles(subject: &Subject) -> Images {
    let used = subject.used_inodes();
    let places = spread((0..subject.tree.handles.len()).collect());
    let opened = each(places.clone(), &spread(used), |place, inode| {
        subject.vary(|tree| {
            tree.handles[place] = Handle { state: 1 + (inode % 2) as u8, inode: inode as u16 };
            true
        })
    });
    let closed = each(places, &[()], |place, ()| {
        subject.vary(|tree| {
            tree.handles[place] = Handle::default();
            true
        })
    });
    [opened, closed].concat()
}

/// Every section in turn one record longer, where the count allows it.
fn records_added(subject: &Subject) -> Images {
    let grow: [fn(&mut Tree) -> bool; 4] = [
        |tree| push(&mut tree.inodes),
        |tree| push(&mut tree.entries),
        |tree| push(&mut tree.texts),
        |tree| push(&mut tree.handles),
    ];
    let sections = vec![INODES, ENTRIES, TEXTS, HANDLES];
    each(sections, &[()], |section, ()| {
        let room = SECTIONS[section].counts.contains(&(subject.layout.counts[section] + 1));
        // The records behind the new one move, so that the whole image has to be stored.
        (room && subject.bytes.len() <= 4096).then(|| subject.vary(grow[section]))?
    })
}

fn push<T: Default>(records: &mut Vec<T>) -> bool {
    records.push(T::default());
    true
}

#[cfg(test)]
mod tests {
    use super::*;
    use crate::cases::trees::samples::samples;
    use crate::model::check::check;
    use crate::model::numbers::DONE;

    #[test]
    fn every_variant_is_consistent() {
        for clause in VARIANT_CLAUSES {
            let images: Images =
                samples().into_iter().flat_map(|(_, tree)| (clause.images)(&Subject::new(tree))).collect();
            assert!(!images.is_empty(), "{} has no case", clause.name);
            for image in images {
                assert_eq!(check(&image), DONE, "{}", clause.name);
            }
        }
    }
}

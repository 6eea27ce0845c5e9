//! Damage to symlinks and their texts.

use super::subject::{each, spread, Subject};
use super::Images;
use crate::cases::trees::builder::Tree;

/// Gives a symlink another text, and frees the one that it had.
fn retext(tree: &mut Tree, symlink: usize, text: u16) {
    let old = std::mem::replace(&mut tree.inodes[symlink].field, text);
    tree.texts[usize::from(old)].clear();
}

/// The text freed under the symlink, or the symlink set to a text that was free.
pub fn texts_free(subject: &Subject) -> Images {
    let mut texts = spread(subject.free_texts());
    texts.push(usize::MAX);
    each(spread(subject.symlinks()), &texts, |symlink, text| {
        let own = subject.tree.inodes[symlink].field;
        let text = if text == usize::MAX { own } else { text as u16 };
        subject.vary(|tree| {
            retext(tree, symlink, text);
            true
        })
    })
}

/// 1024 texts of 64 bytes are 65536 bytes, where 16-bit products wrap.
pub fn texts_beyond(subject: &Subject) -> Images {
    let count = subject.tree.texts.len() as u16;
    let poked = each(spread(subject.symlinks()), &[1024, 32_768], |symlink, step| {
        let text = usize::from(subject.tree.inodes[symlink].field);
        subject.poke_u16(subject.inode_at(symlink) + 14, text + step)
    });
    let freed = each(spread(subject.symlinks()), &[count, count + 1, 65_535], |symlink, text| {
        subject.vary(|tree| {
            retext(tree, symlink, text);
            true
        })
    });
    [poked, freed].concat()
}

pub fn texts_shared(subject: &Subject) -> Images {
    let symlinks = spread(subject.symlinks());
    each(symlinks.clone(), &symlinks, |one, other| {
        subject.vary(|tree| {
            let text = tree.inodes[other].field;
            retext(tree, one, text);
            one != other
        })
    })
}

pub fn texts_with_zero(subject: &Subject) -> Images {
    each(spread(subject.used_texts()), &[0, 1, 2], |text, place: usize| {
        let last = subject.tree.texts[text].len() - 1;
        subject.poke(subject.text_at(text) + 1 + [0, last / 2, last][place], 0)
    })
}

/// A text in a record that no symlink names, or a symlink turned into a file.
pub fn texts_alone(subject: &Subject) -> Images {
    let filled = each(spread(subject.free_texts()), &[1, 63], |text, len| {
        subject.vary(|tree| {
            tree.texts[text] = vec![b'~'; len];
            true
        })
    });
    let turned = each(spread(subject.symlinks()), &[1], |symlink, kind| {
        subject.vary(|tree| {
            tree.inodes[symlink].kind = kind;
            tree.inodes[symlink].field = 0;
            true
        })
    });
    [filled, turned].concat()
}

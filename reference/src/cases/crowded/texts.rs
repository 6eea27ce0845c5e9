//! Texts that two symlinks share or none has, at the first and the last inode.

use super::Table;
use crate::model::image::FILE;

pub fn all(table: &mut Table) {
    let symlinks = table.subject.symlinks();
    let (first, last) = (symlinks[0], symlinks[symlinks.len() - 1]);
    for (one, other) in [(first, last), (last, first)] {
        table.add("shared texts", &[37, 39], |tree| tree.inodes[other].field = tree.inodes[one].field);
        // The other text is freed, so that none is left over.
        table.add("shared texts", &[37], |tree| {
            let text = usize::from(tree.inodes[other].field);
            tree.texts[text].clear();
            tree.inodes[other].field = tree.inodes[one].field;
        });
        table.add("texts without symlink", &[39], |tree| {
            tree.inodes[one].kind = FILE;
            tree.inodes[one].field = 0;
        });
    }
}

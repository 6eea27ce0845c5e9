//! Damage to handles and to what open ones name.

use super::subject::{each, one_byte_each, spread, Subject};
use super::Images;
use crate::model::layout::HANDLES;

pub fn states(subject: &Subject) -> Images {
    let handles = (0..subject.tree.handles.len()).collect();
    each(spread(handles), &[3, 4, 128, 129, 255], |handle, state| subject.poke(subject.handle_at(handle), state))
}

pub fn second_bytes(subject: &Subject) -> Images {
    each(spread(subject.open_handles()), &[1, 128, 255], |handle, value| {
        subject.poke(subject.handle_at(handle) + 1, value)
    })
}

pub fn pads(subject: &Subject) -> Images {
    each(spread(subject.open_handles()), &[(4, 1), (5, 255), (6, 128), (7, 1)], |handle, (at, value)| {
        subject.poke(subject.handle_at(handle) + at, value)
    })
}

pub fn closed(subject: &Subject) -> Images {
    one_byte_each(subject, subject.closed_handles(), HANDLES, 0)
}

/// Only handles on an inode other than 0: the others are all zero once closed.
pub fn freed(subject: &Subject) -> Images {
    each(spread(subject.open_handles()), &[0], |handle, state| {
        let named = subject.tree.handles[handle].inode != 0;
        named.then(|| subject.poke(subject.handle_at(handle), state))?
    })
}

pub fn on_free(subject: &Subject) -> Images {
    let inodes = spread(subject.free_inodes());
    let handles = (0..subject.tree.handles.len()).collect();
    each(spread(handles), &inodes, |handle, inode| {
        subject.vary(|tree| {
            tree.handles[handle].state = tree.handles[handle].state.max(1);
            tree.handles[handle].inode = inode as u16;
            true
        })
    })
}

pub fn beyond(subject: &Subject) -> Images {
    let count = subject.tree.inodes.len();
    each(spread(subject.open_handles()), &[0, 1, 2, 3, 4], |handle, which: usize| {
        let inode = usize::from(subject.tree.handles[handle].inode);
        let numbers = [count, count + 1, inode + 2048, inode | 0x8000, 65_535];
        subject.poke_u16(subject.handle_at(handle) + 2, numbers[which])
    })
}

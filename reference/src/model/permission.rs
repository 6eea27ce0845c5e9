//! Who may do what with an inode (rule 43).

use super::image::Inode;

/// On whose behalf a job is done (rule 41).
#[derive(Clone, Debug, PartialEq, Eq)]
pub struct Credentials {
    pub user: u32,
    /// The effective group.
    pub group: u32,
    /// The groups beside it. A list that is too long is the request's fault (rule 42), and is no fault here.
    pub further: Vec<u32>,
}

impl Credentials {
    /// With no group beside the effective one.
    pub const fn new(user: u32, group: u32) -> Credentials {
        Credentials { user, group, further: Vec::new() }
    }

    fn is_in(&self, group: u32) -> bool {
        self.group == group || self.further.contains(&group)
    }
}

pub const SUPERUSER: u32 = 0;

/// The lowest bit of a class's three is search, the next one write.
const SEARCH: u16 = 1;
const WRITE: u16 = 2;

pub fn may_search(who: &Credentials, directory: Inode) -> bool {
    may(who, directory, SEARCH)
}

pub fn may_write(who: &Credentials, inode: Inode) -> bool {
    may(who, inode, WRITE)
}

fn may(who: &Credentials, inode: Inode, bit: u16) -> bool {
    who.user == SUPERUSER || class_bits(who, inode) & bit != 0
}

/// One class counts alone, however little it allows.
fn class_bits(who: &Credentials, inode: Inode) -> u16 {
    let shift = if who.user == inode.owner() {
        6
    } else if who.is_in(inode.group()) {
        3
    } else {
        0
    };
    inode.mode() >> shift & 0o7
}

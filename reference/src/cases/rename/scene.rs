//! Renames on the rename tree described by what is moved, replaced and in the way: that alone tells which steps apply.

use super::{case, components, request, RenameCase, Told};
use crate::cases::random::Random;
use crate::cases::trees::builder::{Entry, Handle, Tree};
use crate::cases::trees::for_renames::{inode_at, AREAS, CLOSED, FREE_SLOT, GROUP, OWNER};
use crate::model::numbers::{EACCES, EBUSY, EINVAL, EISDIR, EMLINK, ENOSPC, ENOTDIR, ENOTEMPTY, EPERM, EROFS, EXDEV};
use crate::model::permission::Credentials;

#[derive(Clone, Copy, Debug, PartialEq, Eq, PartialOrd, Ord)]
pub enum Moved {
    File,
    Symlink,
    Directory,
    /// A directory that holds others.
    Parent,
    /// A directory on another file system than its parent.
    Mount,
}

use Moved::{Directory, File, Mount, Parent, Symlink};

const MOVED: [Moved; 5] = [File, Symlink, Directory, Parent, Mount];

#[derive(Clone, Copy, Debug, PartialEq, Eq, PartialOrd, Ord)]
pub enum Replaced {
    Nothing,
    LastFile,
    KeptFile,
    LastSymlink,
    KeptSymlink,
    Empty,
    Full,
    MountPoint,
    /// The moved inode, by the same name or by another one.
    SameName,
    OtherName,
}

use Replaced::{Empty, Full, KeptFile, KeptSymlink, LastFile, LastSymlink, MountPoint, Nothing, OtherName, SameName};

const REPLACED: [Replaced; 10] =
    [Nothing, LastFile, KeptFile, LastSymlink, KeptSymlink, Empty, Full, MountPoint, SameName, OtherName];

/// Where the new name is.
#[derive(Clone, Copy, Debug, PartialEq, Eq, PartialOrd, Ord)]
pub enum Place {
    SameParent,
    Elsewhere,
    /// The directory whose link count is at its limit. It lies below the moved one if that is the first area's parent.
    Wide,
    Below,
    /// Below the moved directory, on another file system.
    BelowMount,
    Itself,
}

use Place::{Below, BelowMount, Elsewhere, Itself, SameParent, Wide};

const PLACES: [Place; 6] = [SameParent, Elsewhere, Wide, Below, BelowMount, Itself];

#[derive(Clone, Copy, Debug, PartialEq, Eq, PartialOrd, Ord)]
pub enum Caller {
    Owner,
    Other,
    Superuser,
}

#[derive(Clone, Copy, Debug, PartialEq, Eq, PartialOrd, Ord)]
pub enum InUse {
    No,
    Current,
    /// By a handle of that state.
    Open(u8),
}

/// Areas stand for file systems by their index; the last one is read-only.
#[derive(Clone, Copy, Debug, PartialEq, Eq, PartialOrd, Ord)]
pub struct Scene {
    pub moved: Moved,
    pub replaced: Replaced,
    pub place: Place,
    areas: [usize; 2],
    caller: Caller,
    /// Write permission taken from the old parent, the new one, the moved inode.
    denied: [bool; 3],
    sticky: bool,
    /// The moved inode, the old parent belong to the caller who owns nothing else.
    owned: [bool; 2],
    replaced_use: InUse,
    no_free_slot: bool,
    slash: bool,
}

const READ_ONLY: usize = 2;
const OTHER: u32 = 300;

impl Scene {
    /// Any values, whether or not they go together.
    pub fn any(random: &mut Random) -> Scene {
        let area = |random: &mut Random| *random.pick(&[0, 0, 0, 1, READ_ONLY]);
        let old_area = area(random);
        let uses = [InUse::No, InUse::No, InUse::Current, InUse::Open(1), InUse::Open(2)];
        Scene {
            moved: *random.pick(&MOVED),
            replaced: *random.pick(&REPLACED),
            place: *random.pick(&PLACES),
            areas: [old_area, if random.one_in(3) { area(random) } else { old_area }],
            caller: *random.pick(&[Caller::Owner, Caller::Other, Caller::Other, Caller::Superuser]),
            denied: std::array::from_fn(|_| random.one_in(4)),
            sticky: random.one_in(3),
            owned: std::array::from_fn(|_| random.one_in(4)),
            replaced_use: *random.pick(&uses),
            no_free_slot: random.one_in(3),
            slash: random.one_in(4),
        }
    }

    pub fn moves_a_directory(&self) -> bool {
        matches!(self.moved, Directory | Parent | Mount)
    }

    pub fn replaces_a_directory(&self) -> bool {
        matches!(self.replaced, Empty | Full | MountPoint) || self.is_one_inode() && self.moves_a_directory()
    }

    fn is_one_inode(&self) -> bool {
        matches!(self.replaced, SameName | OtherName)
    }

    /// Whether the rename tree has such a scene, and no flag is without meaning in it.
    pub fn is_possible(&self) -> bool {
        let place = match self.place {
            SameParent => !self.denied[1],
            Elsewhere => true,
            Wide => self.areas[1] == 0,
            Below => matches!(self.moved, Parent | Mount),
            BelowMount => self.moved == Parent && self.replaced == Nothing,
            Itself => {
                self.denied[1] == self.denied[2]
                    && (self.moved == Parent || self.moves_a_directory() && self.replaced == Nothing)
            }
        };
        let replaced = match self.replaced {
            SameName => self.place == SameParent,
            OtherName => {
                matches!(self.place, SameParent | Elsewhere)
                    && self.areas[0] == self.areas[1]
                    && !self.moves_a_directory()
            }
            _ => true,
        };
        let one_area = matches!(self.place, Elsewhere | Wide) || self.areas[0] == self.areas[1];
        let in_use = match self.replaced_use {
            InUse::No => true,
            InUse::Current => self.replaces_a_directory(),
            InUse::Open(_) => self.replaced != Nothing,
        };
        let slash = !self.slash || self.replaced == Nothing || self.replaces_a_directory();
        let owned = self.caller == Caller::Other || self.owned == [false; 2];
        place && replaced && one_area && in_use && slash && owned
    }

    /// The steps that apply, with the number of each, but for the new side of step 6: scenes were chosen by these steps
    /// before that side was asked, and stay chosen.
    pub fn steps(&self) -> Vec<(u8, u8)> {
        let (moved, replaced) = (self.moves_a_directory(), self.replaces_a_directory());
        let in_mount = self.place == BelowMount || (self.place, self.moved) == (Itself, Mount);
        let denied = |which: usize| self.denied[which] && self.caller != Caller::Superuser;
        let above = matches!(self.place, Below | BelowMount | Itself)
            || self.place == Wide && self.moved == Parent && self.areas[0] == 0;
        let kept = matches!(self.replaced, KeptFile | KeptSymlink) || self.is_one_inode() && !moved;
        let types = match (moved, replaced) {
            (true, false) if self.replaced != Nothing => Some(ENOTDIR),
            (false, true) => Some(EISDIR),
            (false, false) if self.replaced == Nothing && self.slash => Some(ENOTDIR),
            _ => None,
        };
        let apart = self.place != SameParent;
        let steps = [
            (1, self.is_one_inode(), 0),
            (2, self.areas.contains(&READ_ONLY), EROFS),
            (3, self.areas[0] != self.areas[1] || in_mount, EXDEV),
            (4, self.moved == Mount || self.replaced == MountPoint, EBUSY),
            (5, denied(0) || denied(1), EACCES),
            (6, self.sticky && self.caller == Caller::Other && self.owned == [false; 2], EPERM),
            (7, above, EINVAL),
            (8, types.is_some(), types.unwrap_or(0)),
            (9, moved && apart && denied(2), EACCES),
            (10, self.replaced == Full || self.replaced == SameName && matches!(self.moved, Parent | Mount), ENOTEMPTY),
            (11, self.replaced_use != InUse::No && !kept, EBUSY),
            (12, moved && apart && self.replaced == Nothing && self.place == Wide, EMLINK),
            (13, self.replaced == Nothing && self.no_free_slot, ENOSPC),
        ];
        steps.into_iter().filter(|(_, applies, _)| *applies).map(|(step, _, number)| (step, number)).collect()
    }

    /// The new side of step 6: the sticky directory is into as well, and holds replaced.
    pub fn into_is_sticky(&self) -> bool {
        let owns_replaced = self.is_one_inode() && self.owned[0];
        let kept = self.caller == Caller::Other && !owns_replaced && !self.owned[1];
        self.sticky && self.place == SameParent && self.replaced != Nothing && kept
    }

    /// The number of the first step that applies; none does where the rename has rows.
    fn refusal(&self) -> Option<u8> {
        let steps = self.steps();
        let is_ahead = |step: u8| step <= 6 || !self.into_is_sticky();
        let first = steps.first().filter(|(step, _)| is_ahead(*step)).map(|(_, number)| *number);
        first.or(self.into_is_sticky().then_some(EPERM))
    }

    fn old_path(&self) -> String {
        format!("/{}/p/{}", AREAS[self.areas[0]].0, self.moved_name())
    }

    fn moved_name(&self) -> &'static str {
        match self.moved {
            File => "f",
            Symlink => "l",
            Directory => "s",
            Parent => "d",
            Mount => "m",
        }
    }

    fn new_parent(&self) -> String {
        let area = AREAS[self.areas[1]].0;
        match self.place {
            SameParent => format!("/{area}/p"),
            Elsewhere => format!("/{area}/q"),
            Wide => "/w/p/d/wide".to_string(),
            Below => format!("{}/e", self.old_path()),
            BelowMount => format!("{}/mount", self.old_path()),
            Itself => self.old_path(),
        }
    }

    fn new_path(&self) -> String {
        let name = match (self.replaced, self.place, self.moved) {
            (Nothing, ..) => "new",
            (LastFile, ..) => "file",
            (KeptFile, ..) => "kept",
            (LastSymlink, ..) => "link",
            (KeptSymlink, ..) => "klink",
            (Empty, ..) => "empty",
            (Full, ..) => "full",
            (MountPoint, ..) => "mount",
            (SameName, ..) => self.moved_name(),
            (OtherName, SameParent, File) => "f2",
            (OtherName, SameParent, _) => "l2",
            (OtherName, _, File) => "pf",
            (OtherName, ..) => "pl",
        };
        format!("{}/{name}{}", self.new_parent(), if self.slash { "/" } else { "" })
    }

    fn tree(&self, home: &Tree) -> Tree {
        let mut tree = home.clone();
        let old_parent = format!("/{}/p", AREAS[self.areas[0]].0);
        let inodes = [&old_parent, &self.new_parent(), &self.old_path()].map(|path| usize::from(inode_at(home, path)));
        for (inode, _) in inodes.into_iter().zip(self.denied).filter(|(_, denied)| *denied) {
            tree.inodes[inode].mode = 0o555;
        }
        if self.sticky {
            tree.inodes[inodes[0]].mode |= 0o1000;
        }
        for (inode, _) in [inodes[2], inodes[0]].into_iter().zip(self.owned).filter(|(_, owned)| *owned) {
            tree.inodes[inode].owner = OTHER;
        }
        if let InUse::Open(state) = self.replaced_use {
            let inode = inode_at(home, &self.new_path());
            tree.handles[CLOSED[usize::from(state - 1)]] = Handle { state, inode };
        }
        if self.no_free_slot {
            let kept = inode_at(home, "/w/q/kept");
            tree.entries[FREE_SLOT] = Entry::new(inode_at(home, "/w/q"), kept, b"z");
            tree.inodes[usize::from(kept)].links += 1;
        }
        tree
    }

    pub fn case(&self, class: &'static str, home: &Tree) -> RenameCase {
        let mut request = request(&self.old_path(), &self.new_path());
        request.who = match self.caller {
            Caller::Owner => Credentials::new(OWNER, GROUP),
            Caller::Other => Credentials::new(OTHER, OTHER),
            Caller::Superuser => Credentials::new(0, 0),
        };
        if self.replaced_use == InUse::Current {
            request.current = inode_at(home, &self.new_path());
        }
        let steps = Some([components(&self.old_path()), components(&self.new_path())]);
        let told = match self.refusal() {
            Some(number) => Told { number, rows: 0, steps },
            None => Told { number: 0, rows: self.rows(), steps },
        };
        case(class, &self.tree(home), request, told)
    }

    fn rows(&self) -> u8 {
        let two_parents = self.place != SameParent;
        6 + u8::from(two_parents) + u8::from(self.replaced != Nothing) + u8::from(self.replaced == LastSymlink)
    }
}

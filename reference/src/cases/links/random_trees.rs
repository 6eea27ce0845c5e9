//! Random trees of a few directories and many symlinks, most of which lead through others to a directory.

use crate::cases::random::Random;
use crate::cases::trees::builder::{Entry, Handle, Inode, Tree};
use crate::model::image::{DIRECTORY, FILE, SYMLINK};

const DIRECTORIES: usize = 8;
const FILES: usize = 5;
const FREE_SLOTS: usize = 3;

/// Names of one byte, so that many are named in one path, and one that nothing has.
const SYMLINKS: &[u8; 44] = b"abcdefghijklmnopqrstuvwxyzABCDEFGHIJKLMNOPQR";
pub const NO_NAME: &[u8] = b"-";

const OWNERS: [u32; 3] = [100, 100, 200];
const GROUPS: [u32; 2] = [50, 60];

/// Everybody may do everything, until a request changes a mode.
const MODE: u16 = 0o777;

/// A name that leads on from a directory, and the directory that it leads to.
pub type Component = (Vec<u8>, u16);

pub struct Maze {
    pub tree: Tree,
    /// Symlinks by their inodes, with the directory that each leads to.
    leads: Vec<(u16, u16)>,
}

pub fn maze(random: &mut Random) -> Maze {
    let mut maze = Maze { tree: Tree::default(), leads: vec![] };
    maze.add_inode(DIRECTORY, 0, random);
    for i in 1..DIRECTORIES {
        let parent = random.below(i) as u16;
        maze.add(parent, DIRECTORY, parent, format!("d{i}").as_bytes(), random);
    }
    for i in 0..FILES {
        let parent = random.below(DIRECTORIES) as u16;
        maze.add(parent, FILE, 0, format!("f{i}").as_bytes(), random);
    }
    for &name in SYMLINKS {
        maze.add_symlink(random.below(DIRECTORIES) as u16, name, random);
    }
    maze.tree.entries.extend(vec![Entry::default(); FREE_SLOTS]);
    maze.tree.handles = [(0, 0), (1, 1), (2, 2)].map(|(state, inode)| Handle { state, inode }).to_vec();
    maze.tree.recount();
    maze
}

impl Maze {
    fn add_inode(&mut self, kind: u8, field: u16, random: &mut Random) -> u16 {
        let (owner, group) = (*random.pick(&OWNERS), *random.pick(&GROUPS));
        self.tree.inodes.push(Inode { kind, mode: MODE, owner, group, field, ..Inode::default() });
        self.tree.inodes.len() as u16 - 1
    }

    fn add(&mut self, parent: u16, kind: u8, field: u16, name: &[u8], random: &mut Random) -> u16 {
        let inode = self.add_inode(kind, field, random);
        self.tree.entries.push(Entry::new(parent, inode, name));
        inode
    }

    /// A few lead to no directory: they name themselves, or nothing. Others do not name these.
    fn add_symlink(&mut self, holder: u16, name: u8, random: &mut Random) {
        let (text, lead) = match random.below(20) {
            0 => (vec![name], None),
            1 => (NO_NAME.to_vec(), None),
            _ => self.text(holder, random),
        };
        let inode = self.add(holder, SYMLINK, self.tree.texts.len() as u16, &[name], random);
        self.tree.texts.push(text);
        self.leads.extend(lead.map(|lead| (inode, lead)));
    }

    /// Names only symlinks that are there already.
    fn text(&self, holder: u16, random: &mut Random) -> (Vec<u8>, Option<u16>) {
        let absolute = random.one_in(4);
        let (mut text, mut at) = if absolute { (b"/".to_vec(), 0) } else { (vec![], holder) };
        for left in (0..1 + random.below(3)).rev() {
            let (name, next) = self.component(at, random);
            text.extend(name);
            text.extend((left > 0).then_some(b'/'));
            at = next;
        }
        (text, Some(at))
    }

    /// Mostly a symlink, of which there are more than directories.
    pub fn component(&self, at: u16, random: &mut Random) -> Component {
        let entries = self.tree.entries_in(at).into_iter().map(|slot| &self.tree.entries[slot]);
        let ways = entries.filter_map(|entry| Some((entry.name.clone(), self.lead(entry.target)?)));
        let ways: Vec<Component> = ways.collect();
        match random.below(10) {
            0 => (b".".to_vec(), at),
            1..10 if !ways.is_empty() => random.pick(&ways).clone(),
            _ => (b"..".to_vec(), self.tree.inodes[usize::from(at)].field),
        }
    }

    fn lead(&self, inode: u16) -> Option<u16> {
        let symlink = self.leads.iter().find(|(symlink, _)| *symlink == inode);
        match self.tree.kind(inode) {
            DIRECTORY => Some(inode),
            _ => symlink.map(|(_, lead)| *lead),
        }
    }
}

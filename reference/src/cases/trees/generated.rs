//! Generated consistent trees, small to full size.

use crate::cases::random::Random;
use crate::cases::trees::builder::{Entry, Handle, Inode, Tree};
use crate::model::image::{DIRECTORY, FILE, FREE, LINKS_MAX, NAME_MAX, SYMLINK, TEXT_MAX};
use std::collections::BTreeSet;

/// How the directories of a tree hang together.
#[derive(Clone, Copy, Debug)]
pub enum Shape {
    Bushy,
    /// Each directory inside the one before it.
    Chain,
}

/// What a generated tree is to have. Counts of used records are aims: a rule may leave fewer.
#[derive(Clone, Copy, Debug)]
pub struct Aim {
    pub inodes: usize,
    pub entries: usize,
    pub texts: usize,
    pub handles: usize,
    pub directories: usize,
    pub files: usize,
    pub symlinks: usize,
    pub names: usize,
    pub open_handles: usize,
    pub shape: Shape,
}

/// Every record of the largest image in use.
pub const FULL: Aim = Aim {
    inodes: 512,
    entries: 1024,
    texts: 64,
    handles: 16,
    directories: 160,
    files: 287,
    symlinks: 64,
    names: 1024,
    open_handles: 16,
    shape: Shape::Bushy,
};

/// Full size with about a third of the records in use.
pub const SPARSE: Aim = Aim { directories: 60, files: 80, symlinks: 20, names: 300, open_handles: 5, ..FULL };

/// Every inode a directory, each inside the one before.
pub const DEEPEST: Aim = Aim { directories: 511, files: 0, symlinks: 0, names: 511, shape: Shape::Chain, ..FULL };

/// A deep chain with files at every depth.
pub const DEEP: Aim = Aim { directories: 300, files: 150, symlinks: 61, shape: Shape::Chain, ..FULL };

/// The aim of a small tree: some records of each kind, most of them used.
pub fn small_aim(random: &mut Random) -> Aim {
    let (directories, files, symlinks) = (random.below(12), random.below(12), random.below(6));
    let used = 1 + directories + files + symlinks;
    let names = used - 1 + random.below(20);
    let open_handles = random.below(5);
    Aim {
        inodes: used + random.below(4),
        entries: names + random.below(4),
        texts: symlinks + random.below(3),
        handles: open_handles + random.below(3),
        directories,
        files,
        symlinks,
        names,
        open_handles,
        shape: if random.one_in(4) { Shape::Chain } else { Shape::Bushy },
    }
}

/// A consistent tree with that aim.
pub fn generate(aim: Aim, seed: u64) -> Tree {
    let mut grower = Grower::new(aim, seed);
    for _ in 0..aim.directories {
        grower.grow_directory(aim.shape);
    }
    for _ in 0..aim.files {
        grower.grow_other(FILE);
    }
    for _ in 0..aim.symlinks {
        grower.grow_other(SYMLINK);
    }
    // A try may find no directory of the right file system, or a target with all the links it may have.
    for _ in 0..8 * aim.names {
        let used = aim.entries - grower.slots.len();
        if used < aim.names {
            grower.add_hard_link();
        }
    }
    grower.open_handles(aim.open_handles);
    siblings_to_the_ends(&mut grower.tree);
    grower.tree
}

/// Exchanges slots so that entries with short names, of one directory, stand first and last: the
/// pairs that a search for equal names could miss at its limits.
fn siblings_to_the_ends(tree: &mut Tree) {
    let short = |tree: &Tree, directory: u16| -> Vec<usize> {
        tree.entries_in(directory).into_iter().filter(|&slot| tree.entries[slot].name.len() <= 5).collect()
    };
    let directory = (0..tree.inodes.len() as u16).find(|&directory| short(tree, directory).len() >= 4);
    let Some(directory) = directory else {
        return;
    };
    let last = tree.entries.len() - 1;
    for (from_the_end, end) in [(false, 0), (true, last), (false, 1), (true, last - 1)] {
        let slots = short(tree, directory);
        let nearest = if from_the_end { slots[slots.len() - 1 - (last - end)] } else { slots[end] };
        tree.entries.swap(nearest, end);
    }
}

/// A tree under construction, with the records that are still free in a shuffled order.
struct Grower {
    random: Random,
    tree: Tree,
    numbers: Vec<u16>,
    slots: Vec<usize>,
    texts: Vec<u16>,
    directories: Vec<u16>,
    others: Vec<u16>,
    names: BTreeSet<(u16, Vec<u8>)>,
}

fn shuffled(random: &mut Random, numbers: std::ops::Range<usize>) -> Vec<usize> {
    let mut numbers: Vec<usize> = numbers.collect();
    random.shuffle(&mut numbers);
    numbers
}

impl Grower {
    fn new(aim: Aim, seed: u64) -> Grower {
        let mut random = Random::new(seed);
        let tree = Tree {
            inodes: vec![Inode::default(); aim.inodes],
            entries: vec![Entry::default(); aim.entries],
            texts: vec![vec![]; aim.texts],
            handles: vec![Handle::default(); aim.handles],
        };
        let numbers = shuffled(&mut random, 1..aim.inodes);
        let slots = shuffled(&mut random, 0..aim.entries);
        let texts = shuffled(&mut random, 0..aim.texts);
        let mut grower = Grower {
            random,
            tree,
            numbers: numbers.iter().map(|&number| number as u16).collect(),
            slots,
            texts: texts.iter().map(|&number| number as u16).collect(),
            directories: vec![0],
            others: vec![],
            names: BTreeSet::new(),
        };
        let file_system = grower.file_system();
        grower.tree.inodes[0] = grower.inode(DIRECTORY, file_system, 0);
        grower.tree.inodes[0].links = 2;
        grower
    }

    fn grow_directory(&mut self, shape: Shape) {
        let parent = match shape {
            Shape::Bushy => *self.random.pick(&self.directories),
            Shape::Chain => self.directories[self.directories.len() - 1],
        };
        if self.tree.inodes[usize::from(parent)].links == LINKS_MAX {
            return;
        }
        let file_system = match self.random.one_in(8) {
            true => self.file_system(),
            false => self.tree.inodes[usize::from(parent)].file_system,
        };
        let mut inode = self.inode(DIRECTORY, file_system, parent);
        inode.links = 2;
        let number = self.place(inode, parent);
        self.tree.inodes[usize::from(parent)].links += 1;
        self.directories.push(number);
    }

    fn grow_other(&mut self, kind: u8) {
        let parent = *self.random.pick(&self.directories);
        let file_system = self.tree.inodes[usize::from(parent)].file_system;
        let field = match kind {
            SYMLINK => self.text(),
            _ => 0,
        };
        let mut inode = self.inode(kind, file_system, field);
        inode.links = 1;
        let number = self.place(inode, parent);
        self.others.push(number);
    }

    fn add_hard_link(&mut self) {
        if self.others.is_empty() {
            return;
        }
        let target = *self.random.pick(&self.others);
        let parent = *self.random.pick(&self.directories);
        let holder = self.tree.inodes[usize::from(parent)].file_system;
        let inode = &mut self.tree.inodes[usize::from(target)];
        if inode.links < LINKS_MAX && inode.file_system == holder {
            inode.links += 1;
            self.enter(parent, target);
        }
    }

    fn open_handles(&mut self, wanted: usize) {
        let used: Vec<u16> =
            (0..self.tree.inodes.len() as u16).filter(|&number| self.tree.kind(number) != FREE).collect();
        let places = shuffled(&mut self.random, 0..self.tree.handles.len());
        for &place in places.iter().take(wanted) {
            self.tree.handles[place] = Handle { state: 1 + (self.random.byte() & 1), inode: *self.random.pick(&used) };
        }
    }

    /// Puts an inode into a free record, with an entry in `parent`.
    fn place(&mut self, inode: Inode, parent: u16) -> u16 {
        let number = self.numbers.pop().expect("the aim has an inode for each file");
        self.tree.inodes[usize::from(number)] = inode;
        self.enter(parent, number);
        number
    }

    fn enter(&mut self, parent: u16, target: u16) {
        let slot = self.slots.pop().expect("the aim has a slot for each name");
        let name = self.name(parent);
        self.tree.entries[slot] = Entry::new(parent, target, &name);
    }

    fn text(&mut self) -> u16 {
        let number = self.texts.pop().expect("the aim has a text for each symlink");
        let len = match self.random.below(4) {
            0 => 1,
            1 => TEXT_MAX,
            _ => 1 + self.random.below(TEXT_MAX),
        };
        self.tree.texts[usize::from(number)] = (0..len).map(|_| 1 + self.random.byte() % 255).collect();
        number
    }

    fn inode(&mut self, kind: u8, file_system: u8, field: u16) -> Inode {
        let mut wide = |common: u64| match self.random.below(4) {
            0 => u64::MAX,
            1 => self.random.word(),
            2 => 0,
            _ => common,
        };
        Inode {
            kind,
            file_system,
            mode: (wide(0o755) & 0o7777) as u16,
            owner: wide(100) as u32,
            group: wide(100) as u32,
            links: 0,
            field,
            modified: wide(100),
            changed: wide(100),
        }
    }

    fn file_system(&mut self) -> u8 {
        *self.random.pick(&[0, 0, 0, 1, 127, 128, 255])
    }

    /// A name that is not yet in the directory.
    fn name(&mut self, parent: u16) -> Vec<u8> {
        loop {
            let name = self.any_name();
            let reserved = name == b"." || name == b"..";
            if !reserved && self.names.insert((parent, name.clone())) {
                return name;
            }
        }
    }

    fn any_name(&mut self) -> Vec<u8> {
        match self.random.below(8) {
            0 => self.name_bytes(1),
            1 => self.name_bytes(NAME_MAX),
            2 => vec![b'.'; 1 + self.random.below(NAME_MAX)],
            3 => {
                let mut name = vec![b'n'; NAME_MAX - 1];
                name.extend(self.name_bytes(1));
                name
            }
            4 => format!("f{}", self.random.below(100)).into_bytes(),
            5 => vec![b'a' + self.random.byte() % 2; 1 + self.random.below(9)],
            6 => vec![b'.', self.name_bytes(1)[0]],
            _ => {
                let len = 1 + self.random.below(NAME_MAX);
                self.name_bytes(len)
            }
        }
    }

    /// Any bytes but 0 and the slash.
    fn name_bytes(&mut self, len: usize) -> Vec<u8> {
        let allowed = |byte: u8| byte != 0 && byte != b'/';
        let random = &mut self.random;
        std::iter::repeat_with(|| random.byte()).filter(|&byte| allowed(byte)).take(len).collect()
    }
}

#[cfg(test)]
mod tests {
    use super::*;
    use crate::model::check::check;
    use crate::model::numbers::DONE;

    #[test]
    fn every_generated_image_is_consistent() {
        for seed in 0..100 {
            let aim = small_aim(&mut Random::new(seed));
            assert_eq!(check(&generate(aim, seed).encode()), DONE, "seed {seed}, {aim:?}");
        }
        for aim in [FULL, SPARSE, DEEPEST, DEEP] {
            let image = generate(aim, 0).encode();
            assert_eq!(image.len(), 53_448);
            assert_eq!(check(&image), DONE, "{aim:?}");
        }
    }

    #[test]
    fn the_full_tree_has_no_free_record() {
        let tree = generate(FULL, 0);
        assert!(tree.inodes.iter().all(|inode| inode.kind != FREE));
        assert!(tree.entries.iter().all(|entry| !entry.is_free()));
        assert!(tree.texts.iter().all(|text| !text.is_empty()));
        assert!(tree.handles.iter().all(|handle| handle.state != 0));
    }
}

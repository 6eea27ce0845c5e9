//! The files of test vectors: base images, and cases told as edits of the base before them, or as names alone.

mod read;

pub use read::read;

use crate::model::request::Request;

/// Limits of the format, for programs that read it with fixed buffers.
pub const LONGEST_BASE: usize = 53_448;
pub const LONGEST_CASE: usize = 131_072;
pub const MOST_EDITS: usize = 12;
pub const LONGEST_PLAN: usize = 1024;
pub const LONGEST_PATH: usize = 600;
pub const LONGEST_SCRATCH: usize = 131_072;
pub const MOST_GROUPS: usize = 24;

const BASE: u8 = 1;
const CHECK: u8 = 2;
const WALK: u8 = 3;
const LAND: u8 = 4;
const RENAME: u8 = 5;
const REPAIR: u8 = 6;
const RENAME_WITH_GROUPS: u8 = 7;
const COMPARE: u8 = 8;
const RENAME_WITH_FLAGS: u8 = 9;

type Edit = (u32, u8);

/// What one case gives to its job.
#[derive(Clone, Debug, PartialEq, Eq)]
pub enum Case {
    Check(Vec<u8>),
    Walk(Walking),
    Land(Landing),
    Rename(Renaming),
    Repair(Repairing),
    RenameWithGroups(Renaming),
    Compare(Comparing),
    RenameWithFlags(Renaming),
}

#[derive(Clone, Debug, PartialEq, Eq)]
pub struct Walking {
    pub image: Vec<u8>,
    pub request: Request,
}

#[derive(Clone, Debug, PartialEq, Eq)]
pub struct Landing {
    pub image: Vec<u8>,
    pub plan: Vec<u8>,
    pub row: u64,
}

#[derive(Clone, Debug, PartialEq, Eq)]
pub struct Renaming {
    pub image: Vec<u8>,
    pub buffer: Buffer,
    pub request: Request,
    pub now: u64,
}

#[derive(Clone, Debug, PartialEq, Eq)]
pub struct Repairing {
    pub image: Vec<u8>,
    pub plan: Buffer,
    pub scratch: Scratch,
}

#[derive(Clone, Debug, PartialEq, Eq)]
pub struct Comparing {
    pub first: Vec<u8>,
    pub second: Vec<u8>,
}

/// A plan buffer before the call.
#[derive(Clone, Copy, Debug, PartialEq, Eq)]
pub struct Buffer {
    pub len: u16,
    pub fill: u8,
}

impl Buffer {
    /// No two neighbours are alike, so that bytes that stay, go or move are seen.
    pub fn bytes(self) -> Vec<u8> {
        (0..self.len).map(|at| self.fill ^ at as u8).collect()
    }
}

/// A scratch buffer before the call, which may be as long as any image.
#[derive(Clone, Copy, Debug, PartialEq, Eq)]
pub struct Scratch {
    pub len: u32,
    pub fill: u8,
}

impl Scratch {
    pub fn bytes(self) -> Vec<u8> {
        (0..self.len).map(|at| self.fill ^ at as u8).collect()
    }
}

/// A number that tells images, or names, apart: no byte and no length goes unseen.
pub fn checksum(bytes: &[u8]) -> u64 {
    bytes.iter().fold(0, |sum, &byte| (sum * 31 + u64::from(byte) + 1) % 4_294_967_291)
}

/// The file's bytes as far as they are written, with the base that the next case may build on.
#[derive(Default)]
pub struct Writer {
    pub data: Vec<u8>,
    base: Vec<u8>,
}

impl Writer {
    pub fn check(&mut self, home: &[u8], image: &[u8]) {
        self.image(CHECK, home, image);
    }

    pub fn land(&mut self, home: &[u8], landing: &Landing) {
        assert!(landing.plan.len() <= LONGEST_PLAN, "a plan of {} bytes", landing.plan.len());
        self.image(LAND, home, &landing.image);
        let runs = runs(&landing.plan);
        self.data.extend((landing.plan.len() as u16).to_le_bytes());
        self.data.push(runs.len() as u8);
        for (at, bytes) in runs {
            self.data.extend((at as u16).to_le_bytes());
            self.data.push(bytes.len() as u8);
            self.data.extend(bytes);
        }
        self.data.extend(landing.row.to_le_bytes());
    }

    /// The image of a walk has the length of its base, so that edits tell all of it.
    pub fn walk(&mut self, home: &[u8], walking: &Walking) {
        let Walking { image, request } = walking;
        if self.base != home {
            self.base(home);
        }
        assert_eq!(image.len(), home.len());
        let edits = edits(home, image).expect("a walk's image is near its tree's");
        self.data.push(WALK);
        self.edits(&edits);
        self.caller(request);
        self.paths(request);
    }

    pub fn rename(&mut self, home: &[u8], renaming: &Renaming) {
        self.renaming(RENAME, home, renaming);
        self.paths(&renaming.request);
    }

    pub fn rename_with_groups(&mut self, home: &[u8], renaming: &Renaming) {
        self.renaming(RENAME_WITH_GROUPS, home, renaming);
        self.groups(&renaming.request);
        self.paths(&renaming.request);
    }

    pub fn rename_with_flags(&mut self, home: &[u8], renaming: &Renaming) {
        self.renaming(RENAME_WITH_FLAGS, home, renaming);
        self.data.extend(renaming.request.flags.to_le_bytes());
        self.groups(&renaming.request);
        self.paths(&renaming.request);
    }

    /// All of a rename but its flags, its groups and its paths.
    fn renaming(&mut self, tag: u8, home: &[u8], renaming: &Renaming) {
        let Renaming { image, buffer, request, now } = renaming;
        assert!(usize::from(buffer.len) <= LONGEST_PLAN, "a plan of {} bytes", buffer.len);
        assert!(tag != RENAME || request.who.further.is_empty(), "groups that are not stored");
        assert!(tag == RENAME_WITH_FLAGS || request.flags == 0, "flags that are not stored");
        self.image(tag, home, image);
        self.data.extend(buffer.len.to_le_bytes());
        self.data.push(buffer.fill);
        self.caller(request);
        self.data.extend(now.to_le_bytes());
    }

    pub fn repair(&mut self, home: &[u8], repairing: &Repairing) {
        let Repairing { image, plan, scratch } = repairing;
        assert!(usize::from(plan.len) <= LONGEST_PLAN, "a plan of {} bytes", plan.len);
        assert!(scratch.len as usize <= LONGEST_SCRATCH, "a scratch of {} bytes", scratch.len);
        self.image(REPAIR, home, image);
        self.data.extend(plan.len.to_le_bytes());
        self.data.push(plan.fill);
        self.data.extend(scratch.len.to_le_bytes());
        self.data.push(scratch.fill);
    }

    pub fn compare(&mut self, names: &Comparing) {
        let Comparing { first, second } = names;
        self.data.push(COMPARE);
        for name in [first, second] {
            self.data.push(u8::try_from(name.len()).expect("a name of at most 255 bytes"));
        }
        self.data.extend([&first[..], second].concat());
    }

    fn caller(&mut self, request: &Request) {
        self.data.extend(request.who.user.to_le_bytes());
        self.data.extend(request.who.group.to_le_bytes());
        self.data.extend(request.current.to_le_bytes());
        self.data.extend([request.old.start, request.new.start]);
    }

    fn groups(&mut self, request: &Request) {
        let groups = &request.who.further;
        assert!(groups.len() <= MOST_GROUPS, "a list of {} groups", groups.len());
        self.data.extend((groups.len() as u16).to_le_bytes());
        self.data.extend(groups.iter().flat_map(|group| group.to_le_bytes()));
    }

    fn paths(&mut self, request: &Request) {
        for path in [&request.old.path, &request.new.path] {
            assert!(path.len() <= LONGEST_PATH, "a path of {} bytes", path.len());
            self.data.extend((path.len() as u16).to_le_bytes());
        }
        self.data.extend(&request.old.path);
        self.data.extend(&request.new.path);
    }

    /// Begins a case with its image, as edits of the current base, or of `home`, or else with a base of its own.
    fn image(&mut self, tag: u8, home: &[u8], image: &[u8]) {
        assert!(image.len() <= LONGEST_CASE, "a case of {} bytes", image.len());
        let edits = edits(&self.base, image).or_else(|| {
            let base = if edits(home, image).is_some() { home } else { image };
            self.base(&base[..base.len().min(LONGEST_BASE)]);
            edits(&self.base, image)
        });
        let edits = edits.expect("an image over the base's limit ends in zero bytes");
        self.data.push(tag);
        self.data.extend((image.len() as u32).to_le_bytes());
        self.edits(&edits);
    }

    fn base(&mut self, image: &[u8]) {
        self.data.push(BASE);
        self.data.extend((image.len() as u32).to_le_bytes());
        self.data.extend(image);
        self.base = image.to_vec();
    }

    fn edits(&mut self, edits: &[Edit]) {
        self.data.push(edits.len() as u8);
        for (at, value) in edits {
            self.data.extend(at.to_le_bytes());
            self.data.push(*value);
        }
    }
}

/// The edits that lead from a base to an image; nothing where they are too many.
pub fn edits(base: &[u8], image: &[u8]) -> Option<Vec<Edit>> {
    let old = base.iter().copied().chain(std::iter::repeat(0));
    let changed = image.iter().zip(old).enumerate().filter(|(_, (new, old))| *new != old);
    let edits: Vec<Edit> = changed.map(|(at, (new, _))| (at as u32, *new)).take(MOST_EDITS + 1).collect();
    (edits.len() <= MOST_EDITS).then_some(edits)
}

/// The stretches of a plan that are not zero. A few zeros cost less than a run of their own.
fn runs(plan: &[u8]) -> Vec<(usize, &[u8])> {
    let mut runs = vec![];
    let mut at = 0;
    while let Some(zeros) = plan[at..].iter().position(|&byte| byte != 0) {
        let start = at + zeros;
        let within = &plan[start..plan.len().min(start + 255)];
        let end = within.windows(4).position(|next| next == [0; 4]).unwrap_or(within.len());
        runs.push((start, &within[..end]));
        at = start + end;
    }
    runs
}

#[cfg(test)]
mod tests {
    use super::*;
    use crate::model::permission::Credentials;
    use crate::model::request::Operand;

    #[test]
    fn checks_are_read_as_they_were_written() {
        let home: Vec<u8> = (0..100).collect();
        let mut edited = home.clone();
        edited[3] = 200;
        let images = [
            home.clone(),
            edited,
            home[..40].to_vec(),
            [&home[..], &[0; 9]].concat(),
            vec![7; 60],
            vec![],
            home.clone(),
        ];
        let mut writer = Writer::default();
        for image in &images {
            writer.check(&home, image);
        }
        let cases: Vec<Case> = images.into_iter().map(Case::Check).collect();
        assert_eq!(read(&writer.data).expect("the format is kept"), cases);
        assert_eq!(read(&writer.data[..writer.data.len() - 1]), None);
    }

    #[test]
    fn landings_are_read_as_they_were_written() {
        let home: Vec<u8> = (0..100).collect();
        let mut sparse = vec![0; 648];
        for at in [0, 3, 5, 9, 300, 304, 309, 647] {
            sparse[at] = at as u8 + 1;
        }
        let plans = [vec![], vec![1], vec![0; 648], sparse, (0..1024).map(|at| at as u8).collect(), vec![9; 1024]];
        let mut writer = Writer::default();
        let landings = plans.map(|plan| Landing { image: home.clone(), plan, row: u64::MAX - 1 });
        for landing in &landings {
            writer.land(&home, landing);
        }
        let cases: Vec<Case> = landings.into_iter().map(Case::Land).collect();
        assert_eq!(read(&writer.data).expect("the format is kept"), cases);
        assert_eq!(read(&writer.data[..writer.data.len() - 1]), None);
    }

    #[test]
    fn walks_are_read_as_they_were_written() {
        let home: Vec<u8> = (0..100).collect();
        let other = vec![7; 90];
        let mut edited = home.clone();
        edited[99] = 1;
        let who = Credentials::new(u32::MAX, 5);
        let (old, new) = (Operand::new(3, b"a/b"), Operand::new(255, &[0; LONGEST_PATH]));
        let request = Request { who, current: 258, flags: 0, old, new };
        let mut writer = Writer::default();
        let walkings =
            [&home, &edited, &other, &home].map(|image| Walking { image: image.clone(), request: request.clone() });
        for walking in &walkings {
            writer.walk(if walking.image.len() == 90 { &other } else { &home }, walking);
        }
        let cases: Vec<Case> = walkings.into_iter().map(Case::Walk).collect();
        assert_eq!(read(&writer.data).expect("the format is kept"), cases);
        assert_eq!(read(&writer.data[..writer.data.len() - 1]), None);
    }

    #[test]
    fn renames_are_read_as_they_were_written() {
        let home: Vec<u8> = (0..100).collect();
        let who = Credentials::new(1, u32::MAX);
        let request =
            Request { who, current: 513, flags: 0, old: Operand::new(0, b""), new: Operand::new(255, b"/b\0") };
        let renaming = |image: &[u8], len: u16, fill: u8| {
            let image = image.to_vec();
            Renaming { image, buffer: Buffer { len, fill }, request: request.clone(), now: u64::MAX - 1 }
        };
        let mut writer = Writer::default();
        let renamings = [renaming(&home, 0, 0), renaming(&home[..50], 648, 255), renaming(&[], 1024, 7)];
        for renaming in &renamings {
            writer.rename(&home, renaming);
        }
        let cases: Vec<Case> = renamings.into_iter().map(Case::Rename).collect();
        assert_eq!(read(&writer.data).expect("the format is kept"), cases);
        assert_eq!(read(&writer.data[..writer.data.len() - 1]), None);
    }

    #[test]
    fn renames_with_groups_are_read_as_they_were_written() {
        let home: Vec<u8> = (0..100).collect();
        let renaming = |further: Vec<u32>| {
            let who = Credentials { further, ..Credentials::new(1, u32::MAX) };
            let request =
                Request { who, current: 513, flags: 0, old: Operand::new(0, b"/a"), new: Operand::new(255, b"") };
            Renaming { image: home.clone(), buffer: Buffer { len: 648, fill: 9 }, request, now: 1 << 63 }
        };
        let mut writer = Writer::default();
        let renamings = [vec![], vec![u32::MAX], (0..MOST_GROUPS as u32).collect()].map(renaming);
        for renaming in &renamings {
            writer.rename_with_groups(&home, renaming);
        }
        let cases: Vec<Case> = renamings.into_iter().map(Case::RenameWithGroups).collect();
        assert_eq!(read(&writer.data).expect("the format is kept"), cases);
        assert_eq!(read(&writer.data[..writer.data.len() - 1]), None);
    }

    #[test]
    fn renames_with_flags_are_read_as_they_were_written() {
        let home: Vec<u8> = (0..100).collect();
        let renaming = |(flags, further): (u32, Vec<u32>)| {
            let who = Credentials { further, ..Credentials::new(7, 8) };
            let (old, new) = (Operand::new(0, b"/a"), Operand::new(255, b"b"));
            let request = Request { who, current: 2, flags, old, new };
            Renaming { image: home.clone(), buffer: Buffer { len: 648, fill: 9 }, request, now: u64::MAX }
        };
        let mut writer = Writer::default();
        let renamings = [(0, vec![]), (2, vec![5]), (1 << 31, vec![]), (u32::MAX, vec![9; 24])].map(renaming);
        for renaming in &renamings {
            writer.rename_with_flags(&home, renaming);
        }
        let cases: Vec<Case> = renamings.into_iter().map(Case::RenameWithFlags).collect();
        assert_eq!(read(&writer.data).expect("the format is kept"), cases);
        assert_eq!(read(&writer.data[..writer.data.len() - 1]), None);
    }

    #[test]
    fn repairs_are_read_as_they_were_written() {
        let home: Vec<u8> = (0..100).collect();
        let repairing = |image: &[u8], len: u16, scratch: u32| {
            let (plan, scratch) = (Buffer { len, fill: 3 }, Scratch { len: scratch, fill: 250 });
            Repairing { image: image.to_vec(), plan, scratch }
        };
        let mut writer = Writer::default();
        let repairings = [repairing(&home, 0, 131_072), repairing(&home[..50], 1024, 0), repairing(&[], 648, 65_536)];
        for repairing in &repairings {
            writer.repair(&home, repairing);
        }
        let cases: Vec<Case> = repairings.into_iter().map(Case::Repair).collect();
        assert_eq!(read(&writer.data).expect("the format is kept"), cases);
        assert_eq!(read(&writer.data[..writer.data.len() - 1]), None);
    }

    #[test]
    fn compares_are_read_as_they_were_written() {
        let mut writer = Writer::default();
        let pairs = [(vec![], vec![]), (vec![], vec![8]), (vec![8; 255], vec![1, 2]), (vec![0; 24], vec![255; 255])];
        let pairs = pairs.map(|(first, second)| Comparing { first, second });
        for names in &pairs {
            writer.compare(names);
        }
        let cases: Vec<Case> = pairs.into_iter().map(Case::Compare).collect();
        assert_eq!(read(&writer.data).expect("the format is kept"), cases);
        assert_eq!(read(&writer.data[..writer.data.len() - 1]), None);
    }

    #[test]
    fn a_buffer_shows_its_places() {
        assert_eq!(Buffer { len: 3, fill: 255 }.bytes(), [255, 254, 253]);
        assert_eq!(Buffer { len: 258, fill: 6 }.bytes()[256..], [6, 7]);
        assert_eq!(Scratch { len: 258, fill: 6 }.bytes(), Buffer { len: 258, fill: 6 }.bytes());
    }

    #[test]
    fn the_checksum_sees_order_and_length() {
        assert_eq!(checksum(b""), 0);
        assert_eq!(checksum(&[0]), 1);
        assert_eq!(checksum(&[0, 1]), 33);
        assert_eq!(checksum(&[255; 7]), 256 * (31u64.pow(7) - 1) / 30 % 4_294_967_291);
    }
}

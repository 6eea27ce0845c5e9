//! Check cases of full size: names that crowd into one bucket, ways to root, counts. Each breaks just the rules told.

pub mod bases;
pub mod chains;
pub mod counts;
pub mod duplicates;
pub mod few_pairs;
pub mod free_slots;
pub mod part;
pub mod texts;

use crate::cases::damage::subject::Subject;
use crate::cases::trees::builder::Tree;
use crate::model::layout::JOURNAL;

const NO_RULE: &[u8] = &[];
const NAME_TAKEN: &[u8] = &[27];

const LAST_SLOT: usize = 1023;

pub struct CrowdedCase {
    pub class: &'static str,
    pub image: Vec<u8>,
    /// The rules that it breaks.
    told: &'static [u8],
}

/// The cases that are a few edits away from one full image.
pub struct Table {
    subject: Subject,
    pub cases: Vec<CrowdedCase>,
}

impl Table {
    fn new(tree: Tree) -> Table {
        Table { subject: Subject::new(tree), cases: vec![] }
    }

    /// A case with the tree after a change, which breaks the told rules.
    fn add(&mut self, class: &'static str, told: &'static [u8], change: impl FnOnce(&mut Tree)) {
        let image = self.changed(change);
        self.cases.push(CrowdedCase { class, image, told });
    }

    /// The same under a pending journal record, which is to be found ahead of all that the change breaks.
    fn add_pending(&mut self, told: &'static [u8], change: impl FnOnce(&mut Tree)) {
        let mut image = self.changed(change);
        image[self.subject.layout.position(JOURNAL, 0)] = 1;
        self.cases.push(CrowdedCase { class: "pending journal record", image, told });
    }

    fn changed(&self, change: impl FnOnce(&mut Tree)) -> Vec<u8> {
        let mut tree = self.subject.tree.clone();
        change(&mut tree);
        tree.encode()
    }
}

//! Single paths with the answers of their walks, told by hand, and requests that are made of them.

use super::{from_current, request, Told, WalkCase, WalkCases};
use crate::cases::trees::builder::Tree;
use crate::model::numbers::{DONE, ENOENT, EPERM};
use crate::model::request::{Operand, CURRENT};

#[derive(Clone)]
pub struct Probe {
    pub class: &'static str,
    pub operand: Operand,
    pub as_old: u8,
    pub as_new: u8,
    pub steps: u16,
}

type Path<'a> = &'a [u8];

/// Probes of one class, under construction.
pub struct Table {
    class: &'static str,
    pub probes: Vec<Probe>,
}

impl Table {
    pub fn new(class: &'static str) -> Table {
        Table { class, probes: vec![] }
    }

    fn add(&mut self, start: u8, path: Path, [as_old, as_new]: [u8; 2], steps: u16) {
        self.probes.push(Probe { class: self.class, operand: Operand::new(start, path), as_old, as_new, steps });
    }

    /// The same number for either path.
    pub fn at(&mut self, start: u8, number: u8, steps: u16, paths: &[Path]) {
        paths.iter().for_each(|path| self.add(start, path, [number; 2], steps));
    }

    pub fn all(&mut self, number: u8, steps: u16, paths: &[Path]) {
        self.at(CURRENT, number, steps, paths);
    }

    /// The final name is missing, which old alone is refused for.
    pub fn missing(&mut self, start: u8, steps: u16, paths: &[Path]) {
        paths.iter().for_each(|path| self.add(start, path, [ENOENT, DONE], steps));
    }

    /// It is missing, which old is refused for, and not portable, which new is.
    pub fn unportable(&mut self, start: u8, steps: u16, paths: &[Path]) {
        paths.iter().for_each(|path| self.add(start, path, [ENOENT, EPERM], steps));
    }
}

/// A path of parts, each so many times.
pub fn joined(parts: &[(&str, usize)]) -> Vec<u8> {
    parts.iter().flat_map(|(part, times)| part.as_bytes().repeat(*times)).collect()
}

/// Two probes in one request: old's refusal comes first, and then new's walk is not taken.
pub fn case(class: &'static str, tree: &Tree, old: &Probe, new: &Probe) -> WalkCase {
    let told = match (old.as_old, new.as_new) {
        (DONE, number) => Told { number, steps: [old.steps, new.steps] },
        (number, _) => Told { number, steps: [old.steps, 0] },
    };
    let request = request(old.operand.clone(), new.operand.clone());
    WalkCase { class, tree: tree.clone(), request, told: Some(told) }
}

/// Every probe as old and as new, beside a path that walks: the tree has `/d/f` and an empty `/x`.
pub fn single(tree: &Tree, probes: &[Probe]) -> WalkCases {
    let good = |path: &[u8]| Probe { class: "", operand: from_current(path), as_old: 0, as_new: 0, steps: 2 };
    let (old, new) = (good(b"/d/f"), good(b"/x/new"));
    let both = |probe: &Probe| [case(probe.class, tree, probe, &new), case(probe.class, tree, &old, probe)];
    probes.iter().flat_map(both).collect()
}

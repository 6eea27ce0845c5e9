//! A rule that an image breaks, and where.

/// Ordered as a list of faults is: by section, record and rule.
#[derive(Clone, Copy, Debug, PartialEq, Eq, PartialOrd, Ord)]
pub struct Fault {
    pub section: usize,
    pub record: usize,
    /// A number from 1 to 40.
    pub rule: u8,
}

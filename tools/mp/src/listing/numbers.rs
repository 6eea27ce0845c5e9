//! The numbers of records: those that a listing gives, and for all else the lowest that are free.

use super::fault::{Fault, Given, Place};
use super::statement::plural;
use crate::image::Section;

/// The numbers of one section.
pub struct Numbers {
    section: Section,
    /// How many records there are, if the listing says so.
    count: Option<usize>,
    /// The line that has a number, for each number in use.
    taken: Vec<Option<usize>>,
    next: usize,
}

impl Numbers {
    pub fn new(section: Section, count: Option<usize>) -> Self {
        let (_, most) = section.counts();
        Numbers { section, count, taken: vec![None; most], next: 0 }
    }

    fn singular(&self) -> &'static str {
        match self.section {
            Section::Inodes => "inode",
            Section::Entries => "slot",
            Section::Texts => "text",
            Section::Handles => "handle",
            Section::Journal => unreachable!("there is one journal record, and no listing numbers it"),
        }
    }

    /// Takes number 0, which needs no line.
    pub fn take_first(&mut self) {
        self.taken[0] = Some(0);
    }

    /// Takes a number that a line gives.
    pub fn reserve(&mut self, number: Given<u16>) -> Result<(), Fault> {
        let Given { place, value } = number;
        let what = self.singular();
        if let Some(count) = self.count.filter(|&count| usize::from(value) >= count) {
            return Err(place.fault(format!("there is no {what} {value} by the line {} {count}", plural(self.section))));
        }
        match self.taken[usize::from(value)].replace(place.line) {
            Some(line) => Err(place.fault(format!("{what} {value} is taken already, by line {line}"))),
            None => Ok(()),
        }
    }

    /// Takes the lowest number that is free, for the line at `place`.
    pub fn lowest(&mut self, place: Place) -> Result<u16, Fault> {
        let end = self.count.unwrap_or(self.taken.len());
        match (self.next..end).find(|&number| self.taken[number].is_none()) {
            Some(number) => {
                self.taken[number] = Some(place.line);
                self.next = number + 1;
                Ok(number as u16)
            }
            None => Err(place.fault(self.full())),
        }
    }

    fn full(&self) -> String {
        let what = plural(self.section);
        match self.count {
            Some(count) => format!("this is one too many for the line {what} {count}"),
            None => format!("this is one too many; an image has at most {} {what}", self.taken.len()),
        }
    }

    /// How many records there are in all. Left out, it is as many as the numbers need, and for entries one more, since a
    /// rename to a new name needs a free one.
    pub fn total(&self) -> usize {
        let needed = self.taken.iter().rposition(Option::is_some).map_or(0, |last| last + 1);
        let spare = usize::from(self.section == Section::Entries);
        self.count.unwrap_or((needed + spare).min(self.taken.len()))
    }
}

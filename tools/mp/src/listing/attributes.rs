//! The attributes of a line: words such as `mode=0755`.

use super::fault::{give, Fault, Given, Place};
use super::words::Word;
use crate::image::Section;

/// What a line says of an inode and its name. What it leaves out has a default.
#[derive(Clone, Debug, Default)]
pub struct Attributes {
    pub mode: Option<Given<u16>>,
    pub owner: Option<Given<(u32, u32)>>,
    pub system: Option<Given<u8>>,
    pub links: Option<Given<u16>>,
    pub modified: Option<Given<u64>>,
    pub changed: Option<Given<u64>>,
    pub inode: Option<Given<u16>>,
    pub slot: Option<Given<u16>>,
    pub text: Option<Given<u16>>,
}

/// The most that a mode can be, and the most links of an inode.
const MOST_MODE: u64 = 0o7777;
pub const MOST_LINKS: u16 = 64;

impl Attributes {
    /// Takes in an attribute. `refused` are the ones that this kind of line does not have.
    pub fn take(&mut self, word: &Word, line: &str, refused: &[&str]) -> Result<(), Fault> {
        let Some((key, value)) = word.plain().and_then(|word| word.split_once('=')) else {
            return Err(word.fault(format!("unknown word {}; a path begins with /", word.shown())));
        };
        let at = word.place;
        let place = at.right(key.len() + 1);
        if refused.contains(&key) {
            return Err(at.fault(format!("a {line} line has no {key}=")));
        }
        match key {
            "mode" => give(&mut self.mode, at, key, mode(value, place)?),
            "owner" => give(&mut self.owner, at, key, owner(value, place)?),
            "fs" => give(&mut self.system, at, key, number(value, place, u8::MAX.into())? as u8),
            "links" => give(&mut self.links, at, key, number(value, place, MOST_LINKS.into())? as u16),
            "modified" => give(&mut self.modified, at, key, number(value, place, u64::MAX)?),
            "changed" => give(&mut self.changed, at, key, number(value, place, u64::MAX)?),
            "inode" => give(&mut self.inode, at, key, record(value, place, Section::Inodes)?),
            "slot" => give(&mut self.slot, at, key, record(value, place, Section::Entries)?),
            "text" => give(&mut self.text, at, key, record(value, place, Section::Texts)?),
            _ => Err(at.fault(format!("unknown attribute {key}="))),
        }
    }
}

/// A decimal number of no more than `most`.
pub fn number(digits: &str, place: Place, most: u64) -> Result<u64, Fault> {
    if digits.is_empty() || !digits.bytes().all(|byte| byte.is_ascii_digit()) {
        return Err(place.fault(format!("a number has to stand here, and not \"{digits}\"")));
    }
    let value = digits.parse::<u64>().ok().filter(|&value| value <= most);
    value.ok_or_else(|| place.fault(format!("{digits} is too large; {most} is the most")))
}

/// The number of a record, which is in range if the image is as large as can be.
pub fn record(digits: &str, place: Place, section: Section) -> Result<u16, Fault> {
    let (_, most) = section.counts();
    Ok(number(digits, place, most as u64 - 1)? as u16)
}

fn mode(digits: &str, place: Place) -> Result<u16, Fault> {
    if digits.is_empty() || !digits.bytes().all(|byte| (b'0'..=b'7').contains(&byte)) {
        return Err(place.fault(format!("an octal number has to stand here, and not \"{digits}\"")));
    }
    let value = u64::from_str_radix(digits, 8).ok().filter(|&value| value <= MOST_MODE);
    value.map(|value| value as u16).ok_or_else(|| place.fault(format!("mode {digits} is over {MOST_MODE:04o}")))
}

fn owner(value: &str, place: Place) -> Result<(u32, u32), Fault> {
    let Some((user, group)) = value.split_once(':') else {
        return Err(place.fault("an owner is a user and a group, as in owner=100:100"));
    };
    let most = u32::MAX.into();
    let group_place = place.right(user.len() + 1);
    Ok((number(user, place, most)? as u32, number(group, group_place, most)? as u32))
}

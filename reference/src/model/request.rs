//! What a caller asks for (rule 41), and the checks of it ahead of both walks (rules 42 and 42a).

use super::image::Image;
use super::numbers::{BAD_REQUEST, EINVAL};
use super::permission::Credentials;
use super::refusal::{Refusal, Rule};

/// The start that means the current directory.
pub const CURRENT: u8 = 255;

/// How many groups a caller may have beside the effective one.
pub const FURTHER_MAX: usize = 16;

/// The flags, as renameat2 of Linux has them: new must not exist, or it must and changes places with old.
pub const NO_REPLACE: u32 = 1;
pub const EXCHANGE: u32 = 2;

/// One of the two paths, with the start that it has if it is relative.
#[derive(Clone, Debug, PartialEq, Eq)]
pub struct Operand {
    pub start: u8,
    pub path: Vec<u8>,
}

impl Operand {
    pub fn new(start: u8, path: &[u8]) -> Operand {
        Operand { start, path: path.to_vec() }
    }
}

#[derive(Clone, Debug, PartialEq, Eq)]
pub struct Request {
    pub who: Credentials,
    pub current: u16,
    /// None, or one of the two; anything else is refused (rule 42a).
    pub flags: u32,
    pub old: Operand,
    pub new: Operand,
}

/// What can be wrong with a request itself.
pub const REFUSALS: [(Refusal, fn(&Request, &Image) -> bool); 4] = [
    (Refusal::new(42, "current directory is none", BAD_REQUEST), |request, image| !image.is_directory(request.current)),
    (Refusal::new(42, "byte 0 in old", BAD_REQUEST), |request, _| request.old.path.contains(&0)),
    (Refusal::new(42, "byte 0 in new", BAD_REQUEST), |request, _| request.new.path.contains(&0)),
    (Refusal::new(42, "too many groups", BAD_REQUEST), |request, _| request.who.further.len() > FURTHER_MAX),
];

/// Rule 42a: both flags, or a bit that is no flag.
pub const WRONG_FLAGS: Refusal = Refusal { rule: Rule::behind(42, 'a'), clause: "wrong flags", number: EINVAL };

impl Request {
    pub fn has_wrong_flags(&self) -> bool {
        ![0, NO_REPLACE, EXCHANGE].contains(&self.flags)
    }

    /// Asked of both paths, whatever else is wrong with them and whether or not the current directory matters; and of
    /// every caller's groups, whether or not anybody is going to look at them.
    pub fn refusal(&self, image: &Image) -> Option<Refusal> {
        REFUSALS.iter().find(|(_, applies)| applies(self, image)).map(|(refusal, _)| *refusal)
    }
}

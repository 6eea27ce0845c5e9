//! The order of refusal (rule 63): everything that answers a rename or an exchange instead of rows, and what comes first.

use super::call::Call;
use super::parts::Parts;
use super::steps;
use crate::model::check::{is_layout_rule, JOURNAL_RULE};
use crate::model::numbers::{
    BUFFER_TOO_SHORT, DONE, EACCES, EBUSY, EEXIST, EINVAL, EISDIR, EMLINK, ENOENT, ENOSPC, ENOTDIR, ENOTEMPTY, EPERM,
    EROFS, EXDEV, INCONSISTENT, JOURNAL_PENDING,
};
use crate::model::plan::PLAN_LEN;
use crate::model::refusal::{Refusal, Rule};
use crate::model::request::WRONG_FLAGS;

/// The places in the order.
#[derive(Clone, Copy, Debug, PartialEq, Eq, PartialOrd, Ord)]
pub enum Place {
    Buffer,
    Layout,
    Journal,
    Records,
    Request,
    Flags,
    OldWalk,
    NewWalk,
    /// Whether new exists, which the flags ask.
    NewName,
    Step(u8),
}

/// Which calls a test is asked of.
#[derive(Clone, Copy, Debug, PartialEq, Eq)]
pub enum Of {
    Both,
    /// A rename without flags, or with no-replace.
    Rename,
    Exchange,
}

impl Of {
    pub fn includes(self, exchange: bool) -> bool {
        match self {
            Of::Both => true,
            Of::Rename => !exchange,
            Of::Exchange => exchange,
        }
    }
}

/// What is asked, and how it answers where it applies.
pub enum Test {
    /// Of the call as it comes.
    Call(fn(&Call) -> Option<Refusal>),
    /// Of what both walks lead to.
    Parts(Refusal, Of, fn(&Parts) -> bool),
}

type Applies = fn(&Parts) -> bool;

const fn step(rule: u8, clause: &'static str, number: u8, applies: Applies) -> (Place, Test) {
    step_of(Rule::new(rule), Of::Both, clause, number, applies)
}

const fn of_a_rename(rule: u8, clause: &'static str, number: u8, applies: Applies) -> (Place, Test) {
    step_of(Rule::new(rule), Of::Rename, clause, number, applies)
}

const fn of_an_exchange(rule: u8, clause: &'static str, number: u8, applies: Applies) -> (Place, Test) {
    step_of(Rule::behind(rule, 'a'), Of::Exchange, clause, number, applies)
}

/// A rule with a letter belongs to the step of the rule that it stands behind.
const fn step_of(rule: Rule, of: Of, clause: &'static str, number: u8, applies: Applies) -> (Place, Test) {
    (Place::Step(rule.number - 64), Test::Parts(Refusal { rule, clause, number }, of, applies))
}

const EXISTING_NEW: Refusal = Refusal { rule: Rule::behind(64, 'a'), clause: "new exists", number: EEXIST };
const MISSING_NEW: Refusal = Refusal { rule: Rule::behind(64, 'b'), clause: "new is missing", number: ENOENT };

/// Every test in its order. A step that has several clauses is several tests; step 1 is no refusal but stops there too.
pub const ORDER: [(Place, Test); 35] = [
    (Place::Buffer, Test::Call(short_buffer)),
    (Place::Layout, Test::Call(bad_layout)),
    (Place::Journal, Test::Call(pending_journal)),
    (Place::Records, Test::Call(broken_records)),
    (Place::Request, Test::Call(wrong_request)),
    (Place::Flags, Test::Call(wrong_flags)),
    (Place::OldWalk, Test::Call(refused_old)),
    (Place::NewWalk, Test::Call(refused_new)),
    (Place::NewName, Test::Parts(EXISTING_NEW, Of::Rename, steps::new_must_not_exist)),
    (Place::NewName, Test::Parts(MISSING_NEW, Of::Exchange, steps::new_must_exist)),
    step(65, "one inode", DONE, steps::one_inode),
    step(66, "from is read-only", EROFS, steps::from_is_read_only),
    step(66, "into is read-only", EROFS, steps::into_is_read_only),
    step(67, "two file systems", EXDEV, steps::two_file_systems),
    step(68, "moved is a mount point", EBUSY, steps::moved_is_a_mount_point),
    step(68, "replaced is a mount point", EBUSY, steps::replaced_is_a_mount_point),
    step(69, "write denied on from", EACCES, steps::write_denied_on_from),
    step(69, "write denied on into", EACCES, steps::write_denied_on_into),
    step(70, "from is sticky", EPERM, steps::from_is_sticky),
    step_of(Rule::behind(70, 'a'), Of::Both, "into is sticky", EPERM, steps::into_is_sticky),
    step(71, "moved is into", EINVAL, steps::moved_is_into),
    step(71, "moved is above into", EINVAL, steps::moved_is_above_into),
    of_an_exchange(71, "replaced is from", EINVAL, steps::replaced_is_from),
    of_an_exchange(71, "replaced is above from", EINVAL, steps::replaced_is_above_from),
    of_a_rename(72, "a directory onto none", ENOTDIR, steps::directory_onto_none),
    of_a_rename(72, "none onto a directory", EISDIR, steps::none_onto_a_directory),
    of_a_rename(72, "a slash behind none", ENOTDIR, steps::slash_behind_none),
    step(73, "write denied on moved", EACCES, steps::write_denied_on_moved),
    of_an_exchange(73, "write denied on replaced", EACCES, steps::write_denied_on_replaced),
    of_a_rename(74, "replaced has entries", ENOTEMPTY, steps::replaced_has_entries),
    of_a_rename(75, "replaced is the current directory", EBUSY, steps::replaced_is_the_current_directory),
    of_a_rename(75, "replaced is open", EBUSY, steps::replaced_is_open),
    of_a_rename(76, "too many links", EMLINK, steps::too_many_links),
    of_an_exchange(76, "too many links by an exchange", EMLINK, steps::too_many_links_by_an_exchange),
    of_a_rename(77, "no free slot", ENOSPC, steps::no_free_slot),
];

impl Test {
    pub fn answer(&self, call: &Call) -> Option<Refusal> {
        match self {
            Test::Call(refusal) => refusal(call),
            Test::Parts(refusal, of, applies) => {
                call.parts().filter(|parts| of.includes(parts.exchange) && applies(parts)).map(|_| *refusal)
            }
        }
    }
}

/// The first that applies.
pub fn first(call: &Call) -> Option<(Place, Refusal)> {
    ORDER.iter().find_map(|(place, test)| Some((*place, test.answer(call)?)))
}

/// All that apply, in their order. Where one leaves a later one without meaning, that does not.
pub fn all_that_apply(call: &Call) -> Vec<(Place, Refusal)> {
    ORDER.iter().filter_map(|(place, test)| Some((*place, test.answer(call)?))).collect()
}

fn short_buffer(call: &Call) -> Option<Refusal> {
    (call.plan_len < PLAN_LEN).then_some(Refusal::new(63, "short buffer", BUFFER_TOO_SHORT))
}

fn bad_layout(call: &Call) -> Option<Refusal> {
    call.image.is_none().then_some(Refusal::new(63, "bad layout", INCONSISTENT))
}

fn pending_journal(call: &Call) -> Option<Refusal> {
    call.broken_rules().contains(&JOURNAL_RULE).then_some(Refusal::new(63, "journal record", JOURNAL_PENDING))
}

fn broken_records(call: &Call) -> Option<Refusal> {
    let others = |&rule: &u8| rule != JOURNAL_RULE && !is_layout_rule(rule);
    call.broken_rules().iter().any(others).then_some(Refusal::new(63, "other records", INCONSISTENT))
}

fn wrong_request(call: &Call) -> Option<Refusal> {
    call.request.refusal(call.image?)
}

fn wrong_flags(call: &Call) -> Option<Refusal> {
    call.request.has_wrong_flags().then_some(WRONG_FLAGS)
}

fn refused_old(call: &Call) -> Option<Refusal> {
    call.old()?.end.as_ref().err().copied()
}

fn refused_new(call: &Call) -> Option<Refusal> {
    call.new_walk()?.end.as_ref().err().copied()
}

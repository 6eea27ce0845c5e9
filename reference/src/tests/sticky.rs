//! The sticky bit on the new side (rule 70a): where it stands in the order, whom it lets pass, and what it leaves alone.

use super::made::{all_rename_lines, all_renames, STICKY_RENAMES};
use crate::cases::rename::part::answer;
use crate::cases::stand_in::with_stand_in;
use crate::model::image::{Image, Inode};
use crate::model::layout::{Layout, INODES};
use crate::model::numbers::EPERM;
use crate::model::permission::SUPERUSER;
use crate::model::refusal::Refusal;
use crate::model::rename::call::Call;
use crate::model::rename::order::{all_that_apply, Test, ORDER};
use crate::model::rename::parts::Parts;
use crate::vectors::Renaming;
use std::collections::BTreeSet;

const OLD_SIDE: &str = "from is sticky";
const NEW_SIDE: &str = "into is sticky";

/// Asks something of a rename's parts and of all the clauses that apply to it; nothing where a walk is refused, or where
/// something ahead of both walks applies.
fn with_parts<T>(renaming: &Renaming, ask: impl Fn(&Parts, &[Refusal]) -> T) -> Option<T> {
    let Renaming { image, buffer, request, .. } = renaming;
    let view = Image::read(image);
    let call = Call::new(image, view.as_ref(), request, buffer.len.into());
    let all: Vec<Refusal> = all_that_apply(&call).into_iter().map(|(_, refusal)| refusal).collect();
    let is_step = |refusal: &Refusal| refusal.rule.number > 64;
    call.parts().filter(|_| all.iter().all(is_step)).map(|parts| ask(parts, &all))
}

/// The clauses that apply to each rename in which the new side does.
fn with_the_new_side() -> Vec<Vec<&'static str>> {
    let clauses = |_: &Parts, all: &[Refusal]| all.iter().map(|refusal| refusal.clause).collect::<Vec<_>>();
    let all = all_renames().filter_map(|renaming| with_parts(renaming, clauses));
    all.filter(|clauses| clauses.contains(&NEW_SIDE)).collect()
}

#[test]
fn the_new_side_stands_between_the_old_one_and_step_7() {
    let rule = |test: &Test| match test {
        Test::Parts(refusal, ..) => Some(format!("{:?}", refusal.rule)),
        Test::Call(_) => None,
    };
    let rules: Vec<String> = ORDER.iter().filter_map(|(_, test)| rule(test)).collect();
    assert!(rules.windows(3).any(|rules| rules == ["70", "70a", "71"]), "{rules:?}");
}

/// Without the old side, so that it is the new one whose place is seen. What needs that nothing is replaced never meets it.
#[test]
fn the_new_side_meets_every_step_that_it_can_meet() {
    let ahead = [
        "one inode",
        "from is read-only",
        "into is read-only",
        "two file systems",
        "moved is a mount point",
        "replaced is a mount point",
        "write denied on from",
        "write denied on into",
    ];
    let after = [
        "moved is into",
        "moved is above into",
        "a directory onto none",
        "none onto a directory",
        "write denied on moved",
        "replaced has entries",
        "replaced is the current directory",
        "replaced is open",
    ];
    let scenes: Vec<_> = with_the_new_side().into_iter().filter(|all| !all.contains(&OLD_SIDE)).collect();
    let firsts: BTreeSet<&str> = scenes.iter().map(|all| all[0]).filter(|&clause| clause != NEW_SIDE).collect();
    assert_eq!(firsts, BTreeSet::from(ahead));
    let answered = scenes.iter().filter(|all| all[0] == NEW_SIDE);
    let later: BTreeSet<&str> = answered.flat_map(|all| &all[1..]).copied().collect();
    assert_eq!(later, BTreeSet::from(after));
}

#[test]
fn each_side_applies_alone_and_both_do() {
    let scenes = with_the_new_side();
    assert!(scenes.iter().filter(|all| **all == [NEW_SIDE]).count() >= 50);
    assert!(scenes.iter().filter(|all| **all == [OLD_SIDE, NEW_SIDE]).count() >= 20);
    let clause = |_: &Parts, all: &[Refusal]| all.iter().map(|refusal| refusal.clause).eq([OLD_SIDE]);
    assert!(all_renames().filter(|renaming| with_parts(renaming, clause) == Some(true)).count() >= 50);
}

/// The rule in the words of the request: replaced exists, into has the sticky bit, and the user is not 0, replaced's owner
/// or into's owner.
fn is_kept(user: u32, into: Inode, replaced: Inode) -> bool {
    into.mode() & 512 == 512 && user != 0 && user != replaced.owner() && user != into.owner()
}

#[test]
fn the_new_side_applies_exactly_as_the_request_says() {
    for renaming in all_renames() {
        with_parts(renaming, |parts, all| {
            let replaced = parts.replaced.map(|replaced| parts.inode(replaced.inode));
            let kept = replaced.is_some_and(|it| is_kept(parts.who.user, parts.inode(parts.new_parent), it));
            assert_eq!(kept, all.iter().any(|refusal| refusal.clause == NEW_SIDE));
        });
    }
}

/// The line of a rename that is changed in a way which its parts may tell; nothing where both walks are not whole.
fn changed(renaming: &Renaming, change: impl Fn(&Parts, &mut Renaming)) -> Option<String> {
    with_parts(renaming, |parts, _| {
        let mut other = renaming.clone();
        change(parts, &mut other);
        answer(&other).1
    })
}

fn number(line: &str) -> Option<u8> {
    line.split(' ').next()?.parse().ok()
}

/// The sticky bit is the second one of the mode's high byte.
fn clear_the_bit(image: &mut [u8], inode: u16) {
    let record = Layout::read(image).expect("the layout is right").position(INODES, inode.into());
    image[record + 3] &= !2;
}

/// Where both walks are whole: without the sticky bit on both directories no number but that of the bit goes away, and
/// none is 1.
#[test]
fn only_the_sticky_bit_answers_1() {
    let mut freed = 0;
    for (renaming, line) in all_renames().zip(all_rename_lines()) {
        let cleared = changed(renaming, |parts, other| {
            clear_the_bit(&mut other.image, parts.old_parent);
            clear_the_bit(&mut other.image, parts.new_parent);
        });
        let Some(cleared) = cleared else { continue };
        assert_ne!(number(&cleared), Some(EPERM));
        assert!(number(line) == Some(EPERM) || number(&cleared) == number(line));
        freed += usize::from(number(line) == Some(EPERM));
    }
    assert!(freed > 300, "{freed} renames are refused for the bit");
}

#[test]
fn the_superuser_is_never_refused_for_the_bit() {
    let by_superuser = |_: &Parts, other: &mut Renaming| other.request.who.user = SUPERUSER;
    let lines = all_renames().filter_map(|renaming| changed(renaming, by_superuser));
    lines.for_each(|line| assert_ne!(number(&line), Some(EPERM)));
}

/// The caller comes into the groups of all that is asked, and into one with the number of into's owner. Classes of
/// permission may change with that, but not what the bit says.
#[test]
fn groups_do_not_matter_to_the_bit() {
    let sides = |_: &Parts, all: &[Refusal]| {
        all.iter()
            .map(|refusal| refusal.clause)
            .filter(|clause| [OLD_SIDE, NEW_SIDE].contains(clause))
            .collect::<Vec<_>>()
    };
    for renaming in &STICKY_RENAMES.cases {
        let member = with_parts(renaming, |parts, _| {
            let inodes = [parts.old_parent, parts.moved.inode, parts.new_parent].map(|inode| parts.inode(inode));
            let mut member = renaming.clone();
            member.request.who.further = inodes.map(|inode| inode.group()).to_vec();
            member.request.who.group = inodes[2].owner();
            member
        });
        let told = member.and_then(|member| with_parts(&member, sides));
        assert!(told.is_none() || told == with_parts(renaming, sides), "{:?}", renaming.request);
    }
}

/// About half of the random renames replace something, or would if new's final name were portable.
#[test]
fn random_renames_replace_and_do_not() {
    let class = STICKY_RENAMES.collection.classes.last().expect("there are classes");
    assert_eq!(class.name, "random renames");
    let count = class.numbers.len();
    let random = &STICKY_RENAMES.cases[STICKY_RENAMES.cases.len() - count..];
    let replaces = |renaming: &&Renaming| {
        let (image, request) = with_stand_in(&renaming.image, &renaming.request);
        let portable = Renaming { image, request, ..(**renaming).clone() };
        with_parts(&portable, |parts, _| parts.replaced.is_some()) == Some(true)
    };
    let replacing = random.iter().filter(replaces).count();
    assert!((count / 3..=2 * count / 3).contains(&replacing), "{replacing} of {count}");
}

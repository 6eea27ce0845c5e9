//! Portable names (rule 53a): every byte on its side, the rule's place in the order, and what it leaves alone.

use super::made::{all_rename_lines, all_renames, PORTABLE_NAMES};
use super::rules::order::steps_of;
use crate::cases::rename::part::answer;
use crate::cases::stand_in::with_stand_in;
use crate::cases::trees::for_names::{names_tree, THREE};
use crate::cases::walk::part::walks_of;
use crate::model::check::check;
use crate::model::image::Image;
use crate::model::numbers::{DONE, EACCES, EINVAL, ENAMETOOLONG, ENOENT, ENOTDIR, EPERM};
use crate::model::permission::{Credentials, SUPERUSER};
use crate::model::refusal::Rule;
use crate::model::rename::call::Call;
use crate::model::rename::order;
use crate::model::request::{Operand, Request, CURRENT};
use crate::model::walk::{is_portable, walk, walk_both, Role, REFUSALS};
use crate::vectors::Renaming;
use std::collections::BTreeSet;

const RULE: Rule = Rule::behind(53, 'a');

/// The set in the words of the request: letters A to Z and a to z, digits, dot, underscore and hyphen.
fn is_in_the_set(byte: u8) -> bool {
    (65..=90).contains(&byte) || (97..=122).contains(&byte) || (48..=57).contains(&byte) || [46, 95, 45].contains(&byte)
}

#[test]
fn every_byte_is_on_its_side() {
    assert!((0..=255).all(|byte| is_portable(&byte) == is_in_the_set(byte)));
    assert_eq!((0..=255).filter(is_portable).count(), 26 + 26 + 10 + 3);
}

fn request(new: &[u8]) -> Request {
    let operand = |path: &[u8]| Operand::new(CURRENT, path);
    Request { who: Credentials::new(100, 50), current: 0, flags: 0, old: operand(b"/p/f"), new: operand(new) }
}

/// Each byte that a name may have, first and last, where the name is missing and where it exists; and in old, which is
/// not asked.
#[test]
fn a_walk_asks_new_for_every_byte() {
    for byte in (1..=255).filter(|&byte| byte != b'/') {
        for at in [0, 2] {
            let mut tree = names_tree();
            tree.entries[THREE].name[at] = byte;
            let bytes = tree.encode();
            assert_eq!(check(&bytes), DONE, "names in an image may hold any byte");
            let image = Image::read(&bytes).expect("the layout is right");
            let mut missing = *b"/n/xyz";
            missing[3 + at] = byte;
            let number = if is_in_the_set(byte) { DONE } else { EPERM };
            let existing = [b"/n/", &tree.entries[THREE].name[..]].concat();
            for new in [&missing[..], &existing] {
                assert_eq!(walk_both(&image, &request(new)).number, number);
            }
            let old = Request { old: Operand::new(CURRENT, &existing), ..request(b"/n/xyz") };
            assert_eq!(walk_both(&image, &old).number, DONE);
        }
    }
}

#[test]
fn the_rule_stands_behind_the_dots_and_ahead_of_the_lookup() {
    let rules: Vec<String> = REFUSALS.iter().map(|refusal| format!("{:?}", refusal.rule)).collect();
    assert!(rules.windows(3).any(|rules| rules == ["53", "53a", "54"]), "{rules:?}");
    let bytes = names_tree().encode();
    let image = Image::read(&bytes).expect("the layout is right");
    let long = [b"/n/", &[b'~'; 25][..]].concat();
    let lines: [(&[u8], u8); 12] = [
        (b"/n/mno/~", ENOTDIR),
        (b"/n/a b/~", ENOTDIR),
        (&long, ENAMETOOLONG),
        (&long[..27], EPERM),
        (b"/n/.", EINVAL),
        (b"/n/..", EINVAL),
        (b"/n/.~", EPERM),
        (b"/n/a b", EPERM),
        (b"/n/a b/", EPERM),
        (b"/n/mno/", ENOTDIR),
        (b"/n/f~", EPERM),
        (b"/n/~/~", ENOENT),
    ];
    for (new, number) in lines {
        assert_eq!(walk_both(&image, &request(new)).number, number, "{new:?}");
    }
}

#[test]
fn search_is_asked_ahead_of_the_name() {
    let mut tree = names_tree();
    tree.inodes[2].mode = 0o666;
    let bytes = tree.encode();
    let image = Image::read(&bytes).expect("the layout is right");
    let denied = request(b"/n/~");
    assert_eq!(walk_both(&image, &denied).number, EACCES);
    let superuser = Request { who: Credentials::new(SUPERUSER, 0), ..denied };
    assert_eq!(walk_both(&image, &superuser).number, EPERM);
}

/// The same rename with a portable name in the place of new's final one.
fn with_portable_name(renaming: &Renaming) -> Renaming {
    let (image, request) = with_stand_in(&renaming.image, &renaming.request);
    Renaming { image, request, ..renaming.clone() }
}

/// The rule and the clause that answer a rename; nothing where it has rows.
fn first(renaming: &Renaming) -> Option<(Rule, &'static str)> {
    let image = Image::read(&renaming.image);
    let call = Call::new(&renaming.image, image.as_ref(), &renaming.request, renaming.buffer.len.into());
    order::first(&call).map(|(_, refusal)| (refusal.rule, refusal.clause))
}

fn is_refused_for_its_name(renaming: &Renaming) -> bool {
    first(renaming).is_some_and(|(rule, _)| rule == RULE)
}

/// With a portable name each clause of the steps is some answer, and so are the slash of rule 60 and none at all.
#[test]
fn the_name_comes_ahead_of_all_that_is_behind_it() {
    let refused = PORTABLE_NAMES.renames().filter(|(renaming, _)| is_refused_for_its_name(renaming));
    let behind: BTreeSet<_> = refused.map(|(renaming, _)| first(&with_portable_name(renaming))).collect();
    let steps = steps_of(false).map(|(_, refusal)| Some((refusal.rule, refusal.clause)));
    let slash = REFUSALS.iter().find(|refusal| refusal.rule == Rule::new(60)).expect("rule 60 refuses");
    let expected: BTreeSet<_> = steps.chain([None, Some((slash.rule, slash.clause))]).collect();
    assert_eq!(behind, expected);
}

/// With a portable name every other rename has the same number and rows, and every rename the same counts. A byte 0 is
/// not the name's fault but the request's.
#[test]
fn nothing_else_asks_for_the_bytes_of_a_name() {
    let is_asked = |renaming: &Renaming| check(&renaming.image) == DONE && !renaming.request.new.path.contains(&0);
    let mut refused = 0;
    for (renaming, line) in all_renames().zip(all_rename_lines()).filter(|(renaming, _)| is_asked(renaming)) {
        let (before, after) = (answer(renaming).0, answer(&with_portable_name(renaming)).0);
        assert_eq!(before.steps, after.steps, "{line}");
        let for_its_name = is_refused_for_its_name(renaming);
        assert!(for_its_name || before == after, "{line}");
        refused += usize::from(for_its_name);
    }
    assert!(refused > 1_500, "{refused} renames are refused for their name");
}

/// Nobody is exempt.
#[test]
fn the_superuser_is_refused_too() {
    for (renaming, line) in PORTABLE_NAMES.renames().filter(|(renaming, _)| is_refused_for_its_name(renaming)) {
        let mut other = renaming.clone();
        other.request.who = Credentials::new(SUPERUSER, 0);
        assert_eq!(answer(&other).1, *line);
    }
}

/// The rule refuses exactly where new's walk comes to a final name with such a byte, and never old's.
#[test]
fn only_news_walk_is_refused_for_a_name() {
    let mut refused = 0;
    for (walking, _) in PORTABLE_NAMES.walks() {
        let image = Image::read(&walking.image).expect("the layout is right");
        let for_its_name = |role| walk(&image, &walking.request, role).end.is_err_and(|refusal| refusal.rule == RULE);
        assert!(!for_its_name(Role::Old));
        assert!(walks_of(walking).number != EPERM || for_its_name(Role::New));
        refused += usize::from(for_its_name(Role::New));
    }
    assert!(refused > 300, "{refused} walks are refused for their name");
}

//! Every exchange of small trees, and some of large ones, survives every crash.

use super::{explore_all, NOW};
use crate::cases::exchange::on_the_way::on_the_crash_tree;
use crate::cases::exchange::{link_counts, random_exchanges, EXCHANGE};
use crate::cases::random::Random;
use crate::cases::rename::random_renames::straight;
use crate::cases::rename::RenameCase;
use crate::cases::stand_in::with_stand_in;
use crate::cases::trees::bench::{bench_tree, full_bench_tree};
use crate::cases::trees::builder::{Entry, Inode, Tree};
use crate::cases::trees::generated::{generate, small_aim, DEEP, FULL};
use crate::cases::trees::samples::every_state;
use crate::explore::{explore, PlannedRename};
use crate::model::check::check;
use crate::model::image::{Image, DIRECTORY, FILE, SYMLINK};
use crate::model::numbers::DONE;
use crate::model::permission::{Credentials, SUPERUSER};
use crate::model::plan::{Row, PLAN_LEN};
use crate::model::repair::{repair, Answer};
use crate::model::request::{Operand, Request, CURRENT};

pub fn request(old: &str, new: &str) -> Request {
    let operand = |path: &str| Operand::new(CURRENT, path.as_bytes());
    let who = Credentials::new(SUPERUSER, 0);
    Request { who, current: 0, flags: EXCHANGE, old: operand(old), new: operand(new) }
}

fn of_cases(cases: impl IntoIterator<Item = RenameCase>) -> impl Iterator<Item = PlannedRename> {
    let exchanges = cases.into_iter().filter(|case| case.request.flags == EXCHANGE);
    exchanges.filter_map(|case| PlannedRename::new(&case.image, &case.request, case.now))
}

/// The path of every name, straight from root.
fn paths(tree: &Tree) -> Vec<String> {
    let mut found: Vec<(u16, String)> = vec![(0, String::new())];
    let mut at = 0;
    while let Some((directory, path)) = found.get(at).cloned() {
        let below = tree.entries_in(directory).into_iter().map(|slot| &tree.entries[slot]);
        found.extend(below.map(|entry| (entry.target, format!("{path}/{}", String::from_utf8_lossy(&entry.name)))));
        at += 1;
    }
    found.into_iter().skip(1).map(|(_, path)| path).collect()
}

fn all_exchanges(tree: &Tree) -> Vec<PlannedRename> {
    let image = tree.encode();
    let paths = paths(tree);
    let pairs = paths.iter().flat_map(|old| paths.iter().map(move |new| request(old, new)));
    pairs.filter_map(|request| PlannedRename::new(&image, &request, NOW)).collect()
}

#[test]
fn every_exchange_of_the_bench_trees_survives_every_crash() {
    for tree in [bench_tree(), full_bench_tree()] {
        assert!(explore_all("exchanges, bench tree", all_exchanges(&tree)) > 1_000);
    }
}

/// Three inodes beside root, of any types, each in root or in a directory before it; where one of them may have two names,
/// also with one more in root.
fn small_trees() -> Vec<Tree> {
    let kinds = [FILE, DIRECTORY, SYMLINK];
    let mut trees = vec![];
    for choice in 0..27 * 6 * 4 {
        let kind = |i: u32| kinds[choice / 3usize.pow(i - 1) % 3];
        let parents = [0, choice / 27 % 2, choice / 54 % 3];
        let inode = |kind: u8, field: u16| {
            let (owner, group) = (100, 100);
            Inode { kind, file_system: 0, mode: 0o755, owner, group, links: 0, field, modified: 100, changed: 100 }
        };
        let mut tree = Tree { inodes: vec![inode(DIRECTORY, 0)], ..Tree::default() };
        for i in 1..=3 {
            let field = if kind(i) == SYMLINK { tree.texts.len() as u16 } else { 0 };
            tree.texts.extend((kind(i) == SYMLINK).then(|| b"x".to_vec()));
            tree.inodes.push(inode(kind(i), field));
            tree.entries.push(Entry::new(parents[i as usize - 1] as u16, i as u16, &[b'a' + i as u8]));
        }
        let more = choice / 162 % 4;
        tree.entries.extend((more > 0).then(|| Entry::new(0, more as u16, b"more")));
        tree.recount();
        trees.extend(Some(tree).filter(|tree| check(&tree.encode()) == DONE));
    }
    trees
}

/// All that can be exchanged in them, either way round.
#[test]
fn every_exchange_of_every_small_tree_survives_every_crash() {
    let trees = small_trees();
    assert!(trees.len() > 150, "{} trees", trees.len());
    let exchanges: Vec<PlannedRename> = trees.iter().flat_map(all_exchanges).collect();
    assert!(exchanges.len() > 600, "{} exchanges", exchanges.len());
    assert!(explore_all("exchanges, small trees", exchanges) > 20_000);
}

#[test]
fn every_shape_of_an_exchange_survives_every_crash() {
    assert!(explore_all("exchanges, crash tree", on_the_crash_tree()) > 3_000);
}

#[test]
fn exchanges_at_the_limit_of_links_survive_every_crash() {
    let cases = link_counts::cases().into_iter().step_by(3).chain(link_counts::in_two_wide().1);
    explore_all("exchanges, many subdirectories", of_cases(cases));
}

#[test]
fn random_exchanges_survive_every_crash() {
    let random = &mut Random::new(31);
    let mut trees = vec![every_state()];
    trees.extend((0..20).map(|seed| generate(small_aim(&mut Random::new(900 + seed)), seed)));
    let trees: Vec<Tree> = trees.into_iter().map(|tree| random_exchanges::arranged(tree, random)).collect();
    let cases: Vec<RenameCase> = trees.iter().flat_map(|tree| random_exchanges::cases(tree, 30, random)).collect();
    assert!(explore_all("exchanges, random trees", of_cases(cases)) > 5_000);
}

#[test]
fn exchanges_on_full_images_survive_every_crash() {
    let random = &mut Random::new(32);
    for aim in [FULL, DEEP] {
        let tree = generate(aim, 6);
        let image = tree.encode();
        let any = || {
            let (old, new) = (straight(&tree, false, random), straight(&tree, false, random));
            let (image, request) = with_stand_in(&image, &Request { old, new, ..request("", "") });
            PlannedRename::new(&image, &request, NOW)
        };
        explore_all("exchanges, full", std::iter::repeat_with(any).flatten().take(2));
    }
}

/// Repair's rows are the exchange's own but for the first, whichever of those have landed, entries included.
#[test]
fn the_rows_of_a_repair_are_those_of_the_exchange() {
    for planned in on_the_crash_tree() {
        let rest = 1..usize::from(planned.rows) - 1;
        for chosen in 0..1 << rest.len() {
            let landed = [0].into_iter().chain(rest.clone().filter(|row| chosen & 1 << (row - 1) != 0));
            let (mut plan, mut scratch) = ([0xa5; PLAN_LEN], vec![0; planned.before.len()]);
            let answer = repair(&planned.after(landed), &mut plan, &mut scratch);
            assert_eq!(answer, Answer { number: DONE, rows: planned.rows - 1 });
            assert_eq!(scratch, planned.finished);
            for row in 1..planned.rows.into() {
                let (own, other) = (Row::read(&planned.plan, row), Row::read(&plan, row - 1));
                assert_eq!(Row { body: own.body - 64, ..own }, other);
                assert_eq!(planned.plan[72 + 64 * row..][..64], plan[72 + 64 * (row - 1)..][..64]);
            }
        }
    }
}

/// A file may be without a name at a crash, and only for want of a further one.
#[test]
fn a_file_with_a_further_name_always_has_one() {
    let exchanges = on_the_crash_tree();
    let names = |image: &[u8], inode: u16| {
        let view = Image::read(image).expect("the layout is right");
        view.entries().filter(|entry| entry.name_len() != 0 && entry.target() == inode).count()
    };
    let mut nameless = 0;
    for planned in &exchanges {
        explore(planned, repair).expect("no breach");
        for row in [1, 2] {
            let image = planned.after([0, row]);
            let lost = (1..17).filter(|&inode| names(&image, inode) == 0 && names(&planned.before, inode) > 0);
            for inode in lost {
                assert_eq!(names(&planned.before, inode), 1);
                nameless += 1;
            }
        }
    }
    assert!(nameless > exchanges.len(), "{nameless}");
}

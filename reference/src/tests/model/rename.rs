//! The rename on the bench tree: the rules' own examples, and any bytes.

use crate::cases::random::Random;
use crate::cases::trees::bench::{bench_tree, full_bench_tree};
use crate::cases::trees::builder::Tree;
use crate::model::image::Image;
use crate::model::layout::{Layout, ENTRIES};
use crate::model::numbers::{DONE, EACCES, EBADF, EBUSY, EINVAL, EISDIR, ENOENT, ENOSPC, ENOTDIR, ENOTEMPTY};
use crate::model::permission::Credentials;
use crate::model::plan::{Row, PLAN_LEN};
use crate::model::rename::finished::finished;
use crate::model::rename::{rename, Answer};
use crate::model::request::{Operand, Request, CURRENT};

const NOW: u64 = 500;

fn request(user: u32, start: u8, old: &str, new: &str) -> Request {
    let (old, new) = (Operand::new(start, old.as_bytes()), Operand::new(CURRENT, new.as_bytes()));
    Request { who: Credentials::new(user, user), current: 0, flags: 0, old, new }
}

fn answer(tree: &Tree, request: &Request) -> (Answer, Vec<u8>) {
    let mut plan = vec![7; PLAN_LEN + 3];
    let answer = rename(&tree.encode(), request, NOW, &mut plan);
    assert_eq!(plan[PLAN_LEN..], [7; 3]);
    assert!(answer.number == DONE || plan == vec![7; PLAN_LEN + 3]);
    (answer, plan)
}

fn after(tree: &Tree, old: &str, new: &str) -> Vec<u8> {
    finished(&tree.encode(), &request(100, CURRENT, old, new), NOW).expect("both walks are whole")
}

fn links(image: &[u8], inode: u16) -> u16 {
    Image::read(image).and_then(|image| image.inode(inode)).expect("the inode is there").links()
}

type Line = (&'static str, &'static str, u8, u8, Option<[u16; 2]>);

const LINES: [Line; 13] = [
    ("/a/f", "/a/k", DONE, 6, Some([2, 2])),
    ("/a/f", "/b/h", DONE, 0, None),
    ("/a/f", "/b/g", DONE, 8, None),
    ("/a/d", "/b/e/", DONE, 7, None),
    ("/a", "/a/d/x", EINVAL, 0, None),
    ("/a/f", "/a/d", EISDIR, 0, None),
    ("/b", "/a", ENOTEMPTY, 0, None),
    ("/s/f", "/k", DONE, 7, Some([3, 1])),
    ("/s", "/t", DONE, 6, None),
    ("/a/f", "/k/", ENOTDIR, 0, None),
    ("g", "/g", EBADF, 0, None), // at handle 9
    ("/", "/k", EBUSY, 0, None),
    ("", "/k", ENOENT, 0, None),
];

#[test]
fn the_bench_lines_are_answered_as_told() {
    for (old, new, number, rows, steps) in LINES {
        let (answer, _) = answer(&bench_tree(), &request(100, if old == "g" { 9 } else { CURRENT }, old, new));
        assert_eq!((answer.number, answer.rows), (number, rows), "{old} to {new}");
        assert_eq!(answer.steps, steps.unwrap_or(answer.steps), "{old} to {new}");
    }
    assert_eq!(answer(&bench_tree(), &request(100, 0, "g", "/g")).0.number, DONE);
    assert_eq!(answer(&bench_tree(), &request(200, CURRENT, "/a/f", "/a/k")).0.number, EACCES);
    assert_eq!(answer(&full_bench_tree(), &request(100, CURRENT, "/a/f", "/a/k")).0.number, ENOSPC);
    assert_eq!(answer(&full_bench_tree(), &request(100, CURRENT, "/a/f", "/b/g")).0.number, DONE);
}

#[test]
fn the_bench_lines_leave_what_is_told() {
    let first = after(&bench_tree(), "/a/f", "/a/k");
    let slot = Layout::read(&first).expect("the layout is right").position(ENTRIES, 7);
    assert_eq!(first[slot..slot + 9], *b"\x01\0\x03\0\x01\0\0\0k");
    assert_eq!(after(&bench_tree(), "/a/f", "/b/h"), bench_tree().encode());
    let third = after(&bench_tree(), "/a/f", "/b/g");
    assert_eq!(third[168..200], [0; 32]);
    let fourth = after(&bench_tree(), "/a/d", "/b/e/");
    assert_eq!((links(&fourth, 1), links(&fourth, 2)), (2, 3));
    assert_eq!(links(&after(&full_bench_tree(), "/a/f", "/b/g"), 4), 1);
}

#[test]
fn the_third_plan_has_the_rows_that_are_told() {
    let told = [(1, 592), (2, 424), (3, 360), (3, 136), (3, 72), (3, 104), (3, 168), (4, 592)];
    let (_, plan) = answer(&bench_tree(), &request(100, CURRENT, "/a/f", "/b/g"));
    for (number, (group, offset)) in (0..).zip(told) {
        let row = Row { group, second: 0, len: 32, offset, body: 72 + 64 * number as u16 };
        assert_eq!(Row::read(&plan, number), row);
    }
    assert_eq!(plan[64..72], [0; 8]);
    let journal = b"\x01\0\x03\0\x05\0\x03\0\x04\0\x01\0\xff\xff\0\0\xf4\x01\0\0\0\0\0\0";
    assert_eq!(plan[72..96], *journal);
    assert_eq!(plan[96..136], [0; 40]);
    assert_eq!(plan[136..145], *b"\x02\0\x03\0\x01\0\0\0g");
}

#[test]
fn one_inode_under_both_names_clears_the_plan() {
    let (answer, plan) = answer(&bench_tree(), &request(100, CURRENT, "/a/f", "/b/h"));
    assert_eq!(answer, Answer { number: DONE, rows: 0, steps: [2, 2] });
    assert_eq!(plan[..PLAN_LEN], [0; PLAN_LEN]);
}

#[test]
fn any_bytes_are_answered() {
    let mut random = Random::new(4);
    let tree = bench_tree().encode();
    for round in 0..20_000 {
        let mut image = tree.clone();
        for _ in 0..random.below(3) {
            let at = random.below(image.len());
            image[at] = random.byte();
        }
        image.truncate(if round % 9 == 0 { random.below(tree.len()) } else { tree.len() });
        let mut path = || (0..random.below(9)).map(|_| *random.pick(b"/abdfgs.")).collect::<Vec<u8>>();
        let (old, new) = (path(), path());
        let (start, current) = (random.byte(), random.below(9) as u16);
        let who = Credentials::new(100, random.below(2) as u32);
        let request =
            Request { who, current, flags: 0, old: Operand::new(start, &old), new: Operand::new(CURRENT, &new) };
        let mut plan: Vec<u8> = vec![random.byte(); 640 + random.below(20)];
        let before = plan.clone();
        let answer = rename(&image, &request, random.word(), &mut plan);
        assert!(answer.number == DONE || (plan == before && answer.rows == 0));
    }
}

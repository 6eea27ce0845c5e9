//! The four jobs through the wrapper, on the bench tree.

use mirepillar::*;

/// The bench tree's image: the first item of the stored cases, behind its tag and its length.
fn bench() -> Vec<u8> {
    let cases = concat!(env!("CARGO_MANIFEST_DIR"), "/../../crates/vectors/data/land");
    std::fs::read(cases).expect("the stored cases can be read")[5..5 + 624].to_vec()
}

fn request<'a>(old: &'a [u8], new: &'a [u8]) -> Request<'a> {
    Request { user: 100, group: 100, now: 500, ..Request::new(old, new) }
}

fn planned(image: &[u8], request: &Request) -> (Renamed, Plan) {
    let mut plan = Plan::EMPTY;
    (rename(image, request, &mut plan.0), plan)
}

#[test]
fn check_tells_sound_pending_and_unsound() {
    let mut image = bench();
    assert_eq!(check(&image), Number::DONE);
    image[592] = 1;
    assert_eq!(check(&image), Number::PENDING);
    assert_eq!(check(&image[..623]), Number::UNSOUND);
    assert_eq!(check(&[]), Number::UNSOUND);
}

#[test]
fn a_rename_is_planned_landed_and_sound() {
    let mut image = bench();
    let (answered, plan) = planned(&image, &request(b"/a/f", b"/b/g"));
    assert_eq!(answered, Renamed { number: Number::DONE, rows: 8, old_steps: 2, new_steps: 2 });
    let rows: Vec<(u8, usize, usize)> = plan.rows().map(|row| (row.group, row.body.len(), row.offset)).collect();
    let third = [(1, 592), (2, 424), (3, 360), (3, 136), (3, 72), (3, 104), (3, 168), (4, 592)];
    assert_eq!(rows, third.map(|(group, offset)| (group, 32, offset)));
    for row in 0..8 {
        assert_eq!(land(&mut image, &plan.0, row), Number::DONE);
    }
    assert_eq!(check(&image), Number::DONE);
    assert_eq!(land(&mut image, &plan.0, 8), Number::BAD_ROW);
    assert_eq!(land(&mut image, &plan.0, u64::MAX), Number::BAD_ROW);
    assert_eq!(image[168..200], [0; 32]);
}

#[test]
fn a_refused_rename_leaves_the_plan() {
    let image = bench();
    let mut plan = vec![7; 700];
    let answered = rename(&image, &request(b"/b", b"/a"), &mut plan);
    assert_eq!((answered.number, answered.rows), (Number::ENOTEMPTY, 0));
    assert_eq!(plan, [7; 700]);
    assert_eq!(rename(&image, &request(b"/a/f", b"/b/g"), &mut plan[..647]).number, Number::SHORT_BUFFER);
}

#[test]
fn the_request_is_passed_on_whole() {
    let image = bench();
    let number = |request: Request| planned(&image, &request).0.number;
    let plain = request(b"/a/f", b"/a/k");
    assert_eq!(number(plain), Number::DONE);
    assert_eq!(number(Request { user: 200, group: 200, ..plain }), Number::EACCES);
    assert_eq!(number(Request { groups: &[0; 17], ..plain }), Number::WRONG_REQUEST);
    assert_eq!(number(Request { cwd: 3, ..plain }), Number::WRONG_REQUEST);
    assert_eq!(number(Request { old: b"g", new: b"/g", old_start: 0, ..plain }), Number::DONE);
    assert_eq!(number(Request { old: b"g", new: b"/g", old_start: 9, ..plain }), Number::EBADF);
    assert_eq!(number(Request { old: b"/a/f", new: b"k", new_start: 9, ..plain }), Number::EBADF);
    assert_eq!(number(Request { new: b"/b/g", flags: NO_REPLACE, ..plain }), Number::EEXIST);
    assert_eq!(number(Request { flags: EXCHANGE, ..plain }), Number::ENOENT);
    assert_eq!(number(Request { flags: NO_REPLACE | EXCHANGE, ..plain }), Number::EINVAL);
    let (answered, plan) = planned(&image, &Request { now: 0x0102_0304_0506_0708, ..plain });
    assert_eq!(answered.rows, 6);
    assert_eq!(plan.row(0).map(|row| row.body[16..24].to_vec()), Some(vec![8, 7, 6, 5, 4, 3, 2, 1]));
}

/// The class of the group: mode 0070, and the caller only in a further group.
#[test]
fn further_groups_count() {
    let mut image = bench();
    for inode in 0..2 {
        image[40 + 32 * inode + 2..][..2].copy_from_slice(&0o070u16.to_le_bytes());
    }
    let mut plan = Plan::EMPTY;
    let other = Request { user: 200, group: 200, ..request(b"/a/f", b"/a/k") };
    assert_eq!(rename(&image, &other, &mut plan.0).number, Number::EACCES);
    assert_eq!(rename(&image, &Request { groups: &[7, 100], ..other }, &mut plan.0).number, Number::DONE);
}

#[test]
fn a_crash_is_repaired() {
    let before = bench();
    let (_, plan) = planned(&before, &request(b"/a/f", b"/b/g"));
    let mut image = before.clone();
    let repaired = |image: &[u8]| {
        let (mut plan, mut scratch) = (Plan::EMPTY, vec![9; image.len() + 5]);
        let answered = repair(image, &mut plan.0, &mut scratch);
        assert_eq!(scratch[image.len()..], [9; 5]);
        (answered, plan, scratch[..image.len()].to_vec())
    };
    land(&mut image, &plan.0, 0);
    let (answered, _, outcome) = repaired(&image);
    assert_eq!((answered, outcome), (Repaired { number: Number::DONE, rows: 1 }, before));
    land(&mut image, &plan.0, 1);
    let (answered, rows, outcome) = repaired(&image);
    assert_eq!(answered, Repaired { number: Number::DONE, rows: 6 });
    (0..6).for_each(|row| assert_eq!(land(&mut image, &rows.0, row), Number::DONE));
    assert_eq!(image, outcome);
    image[592] = 9;
    let (answered, _, outcome) = repaired(&image);
    assert_eq!((answered.number, outcome), (Number::NOT_REPAIRABLE, vec![0; 624]));
}

#[test]
fn numbers_have_names_and_meanings() {
    assert_eq!(Number::EEXIST.to_string(), "17 EEXIST: the new name exists");
    assert_eq!(Number::UNSOUND.to_string(), "201 unsound image");
    assert_eq!((Number::ELOOP.errno(), Number::PENDING.errno()), (Some("ELOOP"), None));
    assert_eq!(Number(99).to_string(), "99 no number of the table");
}

#[test]
fn a_row_that_does_not_fit_is_none() {
    let mut plan = Plan::EMPTY;
    assert_eq!(plan.rows().count(), 0);
    plan.0[..8].copy_from_slice(&[1, 0, 32, 0, 80, 2, 72, 0]);
    assert_eq!(plan.row(0).map(|row| (row.group, row.offset, row.body.len())), Some((1, 592, 32)));
    plan.0[2] = 65;
    assert_eq!(plan.row(0), None);
    plan.0[..8].copy_from_slice(&[1, 0, 32, 0, 80, 2, 255, 255]);
    assert_eq!(plan.row(0), None);
    assert_eq!(plan.row(9), None);
}

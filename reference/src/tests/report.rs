//! What is told of the measurements: the numbers as they are written, the growth, the verdicts, and the picture.

use crate::bench::plot::plot;
use crate::bench::report::{grouped, growth, three_digits, verdicts, Line, RISING};

/// One job on the four images of rising size, with these times of the library; the plain program takes half.
fn lines(job: &'static str, times: [f64; 4]) -> Vec<Line> {
    let sizes = [624, 3_408, 13_416, 53_448];
    let images = RISING.into_iter().zip(sizes).zip(times);
    images.map(|((image, bytes), library)| Line { job, image, bytes, library, plain: library / 2.0 }).collect()
}

#[test]
fn numbers_are_written_short() {
    assert_eq!(
        [123.4, 99.96, 12.34, 1.234, 0.1234, 0.01234].map(three_digits).join(" "),
        "123 100 12.3 1.23 0.123 0.0123"
    );
    assert_eq!([0, 624, 3_408, 53_448, 1_000_007].map(grouped).join(" "), "0 624 3,408 53,448 1,000,007");
}

#[test]
fn a_row_has_the_ratio() {
    assert_eq!(lines("check", [1.0; 4])[3].row(), "| check | typical | 53,448 | 1.00 | 0.500 | 2.00 |");
}

#[test]
fn the_growth_is_that_from_a_quarter_to_the_whole() {
    let table = growth(&["check"], &lines("check", [0.2, 1.0, 4.0, 18.0]));
    let rows: Vec<_> = table.lines().collect();
    assert_eq!(rows[2], "| check | 0.200 | 1.00 | 4.00 | 18.0 | × 4.5 | × 4.5 |");
    assert!(rows.iter().all(|row| row.matches('|').count() == rows[0].matches('|').count()));
}

#[test]
fn a_ratio_that_is_too_high_is_told() {
    let mut lines = lines("check", [1.0; 4]);
    assert!(verdicts(&lines).contains("Every ratio is at most 2.0: yes"));
    lines[0].library = 1.1;
    let told = verdicts(&lines);
    assert!(told.contains("Every ratio is at most 2.0: NO; the highest is 2.20 (check; bench tree)."), "{told}");
    assert!(
        told.contains("On the typical image it is at most 1.0: NO; the highest is 2.00 (check; typical)."),
        "{told}"
    );
}

/// The numbers that an attribute has in a picture, in their order.
fn values(svg: &str, attribute: &str) -> Vec<f64> {
    let begin = format!(" {attribute}=\"");
    let parts = svg.split(&begin).skip(1);
    parts.filter_map(|part| part.split('"').next()?.parse().ok()).collect()
}

#[test]
fn every_time_is_a_dot_inside_its_panel() {
    let jobs = ["check", "rename", "land", "repair"];
    let table: Vec<_> = jobs.into_iter().flat_map(|job| lines(job, [0.0004, 0.3, 9.0, 4_000.0])).collect();
    let svg = plot(jobs.map(|job| (job, job)), &table);
    let (x, y) = (values(&svg, "cx"), values(&svg, "cy"));
    assert_eq!((x.len(), y.len(), svg.matches("<polyline").count()), (32, 32, 8));
    for (panel, dots) in x.chunks(8).zip(y.chunks(8)).enumerate() {
        let (left, top) = ([80.0, 500.0][panel % 2], [118.0, 430.0][panel / 2]);
        assert!(dots.0.iter().all(|x| (left..=left + 330.0).contains(x)), "{dots:?}");
        assert!(dots.1.iter().all(|y| (top..=top + 210.0).contains(y)), "{dots:?}");
        assert!(dots.1[..4].is_sorted_by(|lower, upper| lower > upper), "more time is further up: {dots:?}");
    }
}

//! What a run of the measurements says: a line for each job on each image, the growth with the image, and the verdicts.

use super::images::TYPICAL;

/// What the library may take in the plain program's times: on every image, and on the typical one.
const EVERY: f64 = 2.0;
const TYPICALLY: f64 = 1.0;

/// The images of rising size, by whose times the growth is told. The last two are four times one another.
pub const RISING: [&str; 4] = ["bench tree", "typical, a sixteenth", "typical, a quarter", TYPICAL];

/// One job on one image: microseconds of the library and of the plain program.
#[derive(Clone, Debug, PartialEq)]
pub struct Line {
    pub job: &'static str,
    pub image: &'static str,
    pub bytes: usize,
    pub library: f64,
    pub plain: f64,
}

pub const TABLE_HEAD: &str =
    "| job | image | bytes | library, µs | plain program, µs | ratio |\n|---|---|---|---|---|---|";

impl Line {
    pub fn ratio(&self) -> f64 {
        self.library / self.plain
    }

    /// As a row of the table.
    pub fn row(&self) -> String {
        let Line { job, image, bytes, library, plain } = self;
        let [bytes, library, plain] = [grouped(*bytes), three_digits(*library), three_digits(*plain)];
        format!("| {job} | {image} | {bytes} | {library} | {plain} | {:.2} |", self.ratio())
    }
}

/// A time by its first three digits.
pub fn three_digits(time: f64) -> String {
    let places = match time {
        time if time >= 99.95 => 0,
        time if time >= 9.995 => 1,
        time if time >= 0.9995 => 2,
        time if time >= 0.09995 => 3,
        _ => 4,
    };
    format!("{time:.places$}")
}

/// A number with a comma in front of each three digits.
pub fn grouped(number: usize) -> String {
    match number {
        0..1_000 => number.to_string(),
        _ => format!("{},{:03}", grouped(number / 1_000), number % 1_000),
    }
}

/// The lines of one job on the images of rising size.
pub fn rising<'a>(job: &str, lines: &'a [Line]) -> Vec<&'a Line> {
    RISING.iter().filter_map(|image| lines.iter().find(|line| line.job == job && line.image == *image)).collect()
}

/// A table of the library's times on the images of rising size, and by how much both programs' times are multiplied from
/// the last but one to the last.
pub fn growth(jobs: &[&str], lines: &[Line]) -> String {
    let sizes = jobs.first().map_or(vec![], |job| rising(job, lines));
    let head: String = sizes.iter().map(|line| format!(" {} bytes, µs |", grouped(line.bytes))).collect();
    let rule = "---|".repeat(3 + sizes.len());
    let rows = jobs.iter().filter_map(|job| growth_of(job, lines));
    format!("| library's job |{head} last step | plain program's |\n|{rule}\n{}", rows.collect::<Vec<_>>().join("\n"))
}

/// Nothing where a job has not been measured on two of them.
fn growth_of(job: &str, lines: &[Line]) -> Option<String> {
    let measured = rising(job, lines);
    let [.., before, last] = &measured[..] else {
        return None;
    };
    let times: String = measured.iter().map(|line| format!(" {} |", three_digits(line.library))).collect();
    let [library, plain] = [last.library / before.library, last.plain / before.plain];
    Some(format!("| {job} |{times} × {library:.1} | × {plain:.1} |"))
}

/// Whether the ratios are as low as they should be.
pub fn verdicts(lines: &[Line]) -> String {
    let typical = lines.iter().filter(|line| line.image == TYPICAL);
    let sentences =
        [verdict("Every ratio is", lines.iter(), EVERY), verdict("On the typical image it is", typical, TYPICALLY)];
    sentences.into_iter().flatten().collect::<Vec<_>>().join("\n")
}

fn verdict<'a>(which: &str, lines: impl Iterator<Item = &'a Line>, bar: f64) -> Option<String> {
    let highest = lines.max_by(|one, other| one.ratio().total_cmp(&other.ratio()))?;
    let (verdict, ratio) = (if highest.ratio() <= bar { "yes" } else { "NO" }, highest.ratio());
    Some(format!(
        "{which} at most {bar:.1}: {verdict}; the highest is {ratio:.2} ({}; {}).",
        highest.job, highest.image
    ))
}

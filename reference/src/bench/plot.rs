//! A picture of the times against the size of the image, as an SVG: a panel for each job, both scales logarithmic.

use super::report::{grouped, rising, three_digits, Line};

/// In the picture's own units.
const WIDTH: f64 = 880.0;
const HEIGHT: f64 = 720.0;
const PANEL: (f64, f64) = (330.0, 210.0);
const FIRST: (f64, f64) = (80.0, 118.0);
const STEP: (f64, f64) = (420.0, 312.0);

/// The ends of the scale of bytes, as powers of ten: every image is between them.
const BYTES: (f64, f64) = (2.6, 4.9);

const LIBRARY: &str = "#0b5394";
const PLAIN: &str = "#b45f06";

/// A panel's title, and the job's name in the lines.
pub type Panel = (&'static str, &'static str);

/// The place of one panel's upper left corner, and the ends of the scale of times, as powers of ten.
#[derive(Clone, Copy)]
struct Frame {
    corner: (f64, f64),
    times: (i32, i32),
}

/// The whole picture. A panel whose job has no line has a frame alone.
pub fn plot(panels: [Panel; 4], lines: &[Line]) -> String {
    let times = scale(panels.iter().flat_map(|(_, job)| rising(job, lines)));
    let mut svg = format!(
        "<svg xmlns=\"http://www.w3.org/2000/svg\" viewBox=\"0 0 {WIDTH} {HEIGHT}\" font-family=\"sans-serif\" \
         font-size=\"13\" fill=\"#222\">\n<rect width=\"100%\" height=\"100%\" fill=\"#fff\"/>\n"
    );
    svg += &text(FIRST.0, 34.0, "start", "Time of each job against the size of the image", " font-size=\"18\"");
    svg += &key(FIRST.0, LIBRARY, "", "library");
    svg += &key(FIRST.0 + 120.0, PLAIN, DASHES, "plain program");
    svg += &text(FIRST.0 + 300.0, 63.0, "start", "both scales are logarithmic", MUTED);
    for (at, (title, job)) in panels.into_iter().enumerate() {
        let corner = (FIRST.0 + STEP.0 * (at % 2) as f64, FIRST.1 + STEP.1 * (at / 2) as f64);
        svg += &panel(Frame { corner, times }, title, &rising(job, lines));
    }
    svg + "</svg>\n"
}

/// The powers of ten between which all times lie.
fn scale<'a>(lines: impl Iterator<Item = &'a Line>) -> (i32, i32) {
    let powers: Vec<f64> = lines.flat_map(|line| [line.library.log10(), line.plain.log10()]).collect();
    let lowest = powers.iter().fold(0.0, |lowest: f64, power| lowest.min(power.floor()));
    let highest = powers.iter().fold(1.0, |highest: f64, power| highest.max(power.ceil()));
    (lowest as i32, highest as i32)
}

const DASHES: &str = " stroke-dasharray=\"6 4\"";
const MUTED: &str = " fill=\"#666\"";

fn text(x: f64, y: f64, anchor: &str, words: &str, more: &str) -> String {
    format!("<text x=\"{x:.1}\" y=\"{y:.1}\" text-anchor=\"{anchor}\"{more}>{words}</text>\n")
}

fn line(from: (f64, f64), to: (f64, f64), more: &str) -> String {
    let ((x1, y1), (x2, y2)) = (from, to);
    format!("<line x1=\"{x1:.1}\" y1=\"{y1:.1}\" x2=\"{x2:.1}\" y2=\"{y2:.1}\"{more}/>\n")
}

fn key(x: f64, colour: &str, dashes: &str, name: &str) -> String {
    let stroke = format!(" stroke=\"{colour}\" stroke-width=\"2\"{dashes}");
    line((x, 59.0), (x + 34.0, 59.0), &stroke) + &text(x + 42.0, 63.0, "start", name, "")
}

impl Frame {
    /// Where a size and a time lie.
    fn place(self, bytes: usize, time: f64) -> (f64, f64) {
        let (lowest, highest) = (f64::from(self.times.0), f64::from(self.times.1));
        let along = ((bytes as f64).log10() - BYTES.0) / (BYTES.1 - BYTES.0);
        let up = (time.log10() - lowest) / (highest - lowest);
        (self.corner.0 + PANEL.0 * along, self.corner.1 + PANEL.1 * (1.0 - up))
    }

    fn right(self) -> f64 {
        self.corner.0 + PANEL.0
    }

    fn bottom(self) -> f64 {
        self.corner.1 + PANEL.1
    }
}

fn panel(frame: Frame, title: &str, lines: &[&Line]) -> String {
    let (left, top) = frame.corner;
    let mut svg = text(left, top - 26.0, "start", title, " font-size=\"15\" font-weight=\"bold\"");
    svg += &grid(frame, lines);
    if let Some(last) = lines.last() {
        let [library, plain] = [last.library, last.plain].map(three_digits);
        let bytes = grouped(last.bytes);
        let words = format!("{library} against {plain} µs at {bytes} bytes: ratio {:.2}", last.ratio());
        svg += &text(left, top - 8.0, "start", &words, MUTED);
    }
    svg += &curve(frame, lines, |line| line.plain, PLAIN, DASHES);
    svg += &curve(frame, lines, |line| line.library, LIBRARY, "");
    svg + &text(left + PANEL.0 / 2.0, frame.bottom() + 36.0, "middle", "image, bytes", MUTED)
}

/// A line for each power of ten of the times, and one for each size that was measured; and the border.
fn grid(frame: Frame, lines: &[&Line]) -> String {
    let (left, top) = frame.corner;
    let thin = " stroke=\"#ddd\"";
    let mut svg = String::new();
    for power in frame.times.0..=frame.times.1 {
        let time = 10f64.powi(power);
        let y = frame.place(1, time).1;
        let words = if power == frame.times.1 { format!("{time} µs") } else { time.to_string() };
        svg += &line((left, y), (frame.right(), y), thin);
        svg += &text(left - 7.0, y + 4.0, "end", &words, "");
    }
    for measured in lines {
        let x = frame.place(measured.bytes, 1.0).0;
        svg += &line((x, top), (x, frame.bottom()), thin);
        svg += &text(x, frame.bottom() + 18.0, "middle", &grouped(measured.bytes), "");
    }
    let (width, height) = PANEL;
    let border = "fill=\"none\" stroke=\"#888\"";
    svg + &format!("<rect x=\"{left:.1}\" y=\"{top:.1}\" width=\"{width}\" height=\"{height}\" {border}/>\n")
}

fn curve(frame: Frame, lines: &[&Line], time: fn(&Line) -> f64, colour: &str, dashes: &str) -> String {
    let places: Vec<_> = lines.iter().map(|line| frame.place(line.bytes, time(line))).collect();
    let points = places.iter().map(|(x, y)| format!("{x:.1},{y:.1}")).collect::<Vec<_>>().join(" ");
    let dots =
        places.iter().map(|(x, y)| format!("<circle cx=\"{x:.1}\" cy=\"{y:.1}\" r=\"3.5\" fill=\"{colour}\"/>\n"));
    let stroke = format!("fill=\"none\" stroke=\"{colour}\" stroke-width=\"2\"{dashes}");
    format!("<polyline points=\"{points}\" {stroke}/>\n{}", dots.collect::<String>())
}

//! The plot of times against slots, as SVG: both axes logarithmic, a colour for each call, a line for each side.

use crate::report::grouped;

const WIDTH: f64 = 960.0;
const HEIGHT: f64 = 620.0;
/// The frame: left, top, right, bottom.
const FRAME: [f64; 4] = [110.0, 60.0, 930.0, 540.0];
/// The axes' ends, as powers of ten: slots, nanoseconds.
const SLOTS: [f64; 2] = [0.4, 5.0];
const TIME: [f64; 2] = [0.7, 6.5];

const SIZES: [u32; 5] = [4, 65, 240, 5_000, 57_600];
const TIMES: [&str; 6] = ["10 ns", "100 ns", "1 µs", "10 µs", "100 µs", "1 ms"];
const COLOURS: [&str; 5] = ["#d55e00", "#0072b2", "#009e73", "#cc79a7", "#333333"];
/// How a side's line is drawn, and how its points are filled.
const SIDES: [(&str, &str); 2] = [("proved, through C", ""), ("plain Rust", "7 5")];

/// A call's name, and its points: slots, then nanoseconds of both sides.
pub type Line = (&'static str, Vec<(u32, [f64; 2])>);

fn x(slots: f64) -> f64 {
    FRAME[0] + (slots.log10() - SLOTS[0]) / (SLOTS[1] - SLOTS[0]) * (FRAME[2] - FRAME[0])
}

fn y(ns: f64) -> f64 {
    FRAME[3] - (ns.log10() - TIME[0]) / (TIME[1] - TIME[0]) * (FRAME[3] - FRAME[1])
}

fn text(x: f64, y: f64, anchor: &str, more: &str, words: &str) -> String {
    format!("<text x=\"{x:.1}\" y=\"{y:.1}\" text-anchor=\"{anchor}\"{more}>{words}</text>\n")
}

fn rule(from: (f64, f64), to: (f64, f64), colour: &str, dashes: &str, width: f64) -> String {
    let ((x1, y1), (x2, y2)) = (from, to);
    format!(
        "<line x1=\"{x1:.1}\" y1=\"{y1:.1}\" x2=\"{x2:.1}\" y2=\"{y2:.1}\" stroke=\"{colour}\" \
         stroke-width=\"{width}\" stroke-dasharray=\"{dashes}\"/>\n"
    )
}

fn point((x, y): (f64, f64), colour: &str, dashes: &str) -> String {
    let filled = if dashes.is_empty() { colour } else { "white" };
    format!(
        "<circle cx=\"{x:.1}\" cy=\"{y:.1}\" r=\"4.5\" fill=\"{filled}\" stroke=\"{colour}\" stroke-width=\"2\"/>\n"
    )
}

/// Grid, ticks and titles.
fn axes() -> String {
    let [left, top, right, bottom] = FRAME;
    let mut out = String::new();
    for slots in SIZES {
        let at = x(slots as f64);
        out += &rule((at, top), (at, bottom), "#dddddd", "", 1.0);
        out += &text(at, bottom + 26.0, "middle", "", &grouped(slots));
    }
    for (power, label) in TIMES.iter().enumerate() {
        let at = y(10f64.powi(power as i32 + 1));
        out += &rule((left, at), (right, at), "#dddddd", "", 1.0);
        out += &text(left - 12.0, at + 6.0, "end", "", label);
    }
    out += &rule((left, top), (left, bottom), "black", "", 1.5);
    out += &rule((left, bottom), (right, bottom), "black", "", 1.5);
    let (across, down) = ((left + right) / 2.0, (top + bottom) / 2.0);
    out += &text(across, bottom + 60.0, "middle", "", "slots");
    let turned = format!(" transform=\"rotate(-90 28 {down:.1})\"");
    out += &text(28.0, down, "middle", &turned, "time of one call");
    out += &text(
        across,
        36.0,
        "middle",
        " font-weight=\"bold\"",
        "Time of a call against slots, both axes logarithmic",
    );
    out
}

/// One call's two lines.
fn drawn(points: &[(u32, [f64; 2])], colour: &str) -> String {
    let mut out = String::new();
    for (side, (_, dashes)) in SIDES.iter().enumerate().rev() {
        let at: Vec<(f64, f64)> = points
            .iter()
            .map(|(n, ns)| (x(*n as f64), y(ns[side])))
            .collect();
        out.extend(
            at.windows(2)
                .map(|two| rule(two[0], two[1], colour, dashes, 2.2)),
        );
        out.extend(at.iter().map(|place| point(*place, colour, dashes)));
    }
    out
}

/// Which colour is which call, and which line is which side.
fn legend(lines: &[Line]) -> String {
    let (left, mut down) = (FRAME[0] + 24.0, FRAME[1] + 26.0);
    let calls = lines
        .iter()
        .zip(COLOURS)
        .map(|((name, _), colour)| (*name, colour, ""));
    let sides = SIDES
        .iter()
        .map(|(name, dashes)| (*name, "#777777", *dashes));
    let mut out = format!(
        "<rect x=\"{}\" y=\"{}\" width=\"310\" height=\"{}\" fill=\"white\" stroke=\"#cccccc\"/>\n",
        left - 14.0,
        down - 20.0,
        26 * (lines.len() + SIDES.len()) + 14
    );
    for (name, colour, dashes) in calls.chain(sides) {
        out += &rule((left, down), (left + 46.0, down), colour, dashes, 2.2);
        out += &point((left + 23.0, down), colour, dashes);
        out += &text(left + 58.0, down + 6.0, "start", "", name);
        down += 26.0;
    }
    out
}

pub fn svg(lines: &[Line]) -> String {
    let mut out = format!(
        "<svg xmlns=\"http://www.w3.org/2000/svg\" viewBox=\"0 0 {WIDTH} {HEIGHT}\" width=\"{WIDTH}\" height=\"{HEIGHT}\" \
         font-family=\"sans-serif\" font-size=\"17\">\n<rect width=\"{WIDTH}\" height=\"{HEIGHT}\" fill=\"white\"/>\n"
    );
    out += &axes();
    out.extend(
        lines
            .iter()
            .zip(COLOURS)
            .map(|((_, points), colour)| drawn(points, colour)),
    );
    out += &legend(lines);
    out + "</svg>\n"
}

//! The legs drawn: plan and elevation, a metre to a unit.

use crate::survey::{Part, Place};

/// Around each view, and between the lines of its grid, in metres.
const MARGIN: f64 = 90.0;
const GRID: f64 = 50.0;
/// Where the text above a view stands.
const HEAD: f64 = MARGIN - 45.0;

/// A leg: where it begins and ends.
type Line = (Part, Place, Place);

fn colour(part: Part) -> &'static str {
    match part {
        Part::Upper => "#1f5fa8",
        Part::Lower => "#c0560a",
        Part::Pitch => "#777777",
    }
}

/// The drawing: the plan, north being up, and below it the elevation, seen from the south; east is to the right in both.
pub fn svg(lines: &[Line]) -> String {
    let (plan, width, high) = view(lines, 1, "Plan: metres north of the first station");
    let (elevation, _, low) = view(lines, 2, "Elevation: metres above the first station");
    let (legend, height) = (legend(width - MARGIN), high + low);
    format!(
        "<svg xmlns=\"http://www.w3.org/2000/svg\" viewBox=\"0 0 {width:.0} {height:.0}\" font-family=\"sans-serif\" \
         font-size=\"22\">\n<rect width=\"100%\" height=\"100%\" fill=\"white\"/>\n\
         {legend}{plan}<g transform=\"translate(0 {high})\">\n{elevation}</g>\n</svg>\n"
    )
}

/// What the colours say, up to x.
fn legend(x: f64) -> String {
    let parts = [
        (Part::Upper, "upper gallery"),
        (Part::Lower, "lower gallery"),
        (Part::Pitch, "pitches"),
    ];
    let names = parts.map(|(part, name)| {
        let colour = colour(part);
        format!("<tspan fill=\"{colour}\" dx=\"25\">{name}</tspan>")
    });
    let names = names.concat();
    format!("<text x=\"{x:.1}\" y=\"{HEAD}\" text-anchor=\"end\">{names}</text>\n")
}

/// A view of east and another axis; its width and height.
fn view(lines: &[Line], axis: usize, title: &str) -> (String, f64, f64) {
    let ends = || lines.iter().flat_map(|(_, from, to)| [from, to]);
    let most = |i: usize| ends().map(|place| place[i]).fold(0.0, f64::max);
    let least = |i: usize| ends().map(|place| place[i]).fold(0.0, f64::min);
    let (left, right) = (least(0), most(0));
    let (bottom, top) = (
        (least(axis) / GRID).floor() * GRID,
        (most(axis) / GRID).ceil() * GRID,
    );
    let (x, y) = (|m: f64| MARGIN + m - left, |m: f64| MARGIN + top - m);
    let line = |a: (f64, f64), b: (f64, f64), colour: &str, width: f64| {
        let (ax, ay, bx, by) = (x(a.0), y(a.1), x(b.0), y(b.1));
        format!("<path d=\"M{ax:.1} {ay:.1}L{bx:.1} {by:.1}\" stroke=\"{colour}\" stroke-width=\"{width}\" stroke-linecap=\"round\"/>\n")
    };
    let text = |x: f64, y: f64, anchor: &str, text: &str| {
        format!("<text x=\"{x:.1}\" y=\"{y:.1}\" text-anchor=\"{anchor}\">{text}</text>\n")
    };
    let mut drawn = text(MARGIN, HEAD, "start", title);
    for m in marks(bottom, top, GRID) {
        drawn += &line((left, m), (right, m), "#dddddd", 1.0);
        drawn += &text(MARGIN - 10.0, y(m) + 7.0, "end", &format!("{m:.0}"));
    }
    for m in marks(0.0, right, 4.0 * GRID) {
        drawn += &line((m, bottom), (m, top), "#dddddd", 1.0);
        drawn += &text(x(m), y(bottom) + 28.0, "middle", &format!("{m:.0} m"));
    }
    for (part, from, to) in lines {
        drawn += &line((from[0], from[axis]), (to[0], to[axis]), colour(*part), 2.5);
    }
    let (width, height) = (right - left + 2.0 * MARGIN, top - bottom + 1.6 * MARGIN);
    (drawn, width, height)
}

/// From one number to another by steps.
fn marks(from: f64, to: f64, step: f64) -> impl Iterator<Item = f64> {
    (0..)
        .map(move |i| from + i as f64 * step)
        .take_while(move |&m| m <= to)
}

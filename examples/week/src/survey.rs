//! The survey: two galleries joined by pitches, so that its loops close; as legs in a notebook and as a Survex file.

use std::collections::HashMap;
use std::fmt::Write;

/// Stations of each gallery.
const STATIONS: usize = 200;
/// A pitch joins the galleries at every so many stations.
const PITCHES: usize = 10;
/// Legs on a page of the notebook: eleven pages.
pub const PAGE_LEGS: usize = 38;
pub const LEGS: usize = 11 * PAGE_LEGS;
/// On each page of the notebook this leg was read from the wrong end of the compass.
const MISREAD: usize = 4;

/// A station: gallery (0 upper, 1 lower) and number.
type Station = (usize, usize);
/// East, north and up, in metres.
pub type Place = [f64; 3];

/// A leg as it is typed: tape in centimetres, compass and clino in tenths of a degree.
#[derive(Clone, Copy, PartialEq)]
pub struct Leg {
    from: Station,
    to: Station,
    tape: i64,
    compass: i64,
    clino: i64,
}

impl Leg {
    /// The leg between two places, read to a centimetre and a tenth of a degree.
    fn read(from: Station, to: Station, a: Place, b: Place) -> Leg {
        let [east, north, up] = [0, 1, 2].map(|i| b[i] - a[i]);
        let plan = east.hypot(north);
        let tenths = |radians: f64| (radians.to_degrees() * 10.0).round() as i64;
        Leg {
            from,
            to,
            tape: (plan.hypot(up) * 100.0).round() as i64,
            compass: tenths(east.atan2(north)).rem_euclid(3600),
            clino: tenths(up.atan2(plan)),
        }
    }

    /// What the leg adds, in metres.
    fn span(&self) -> Place {
        let radians = |tenths: i64| (tenths as f64 / 10.0).to_radians();
        let (tape, compass, clino) = (
            self.tape as f64 / 100.0,
            radians(self.compass),
            radians(self.clino),
        );
        let plan = tape * clino.cos();
        [
            plan * compass.sin(),
            plan * compass.cos(),
            tape * clino.sin(),
        ]
    }
}

/// Where a station is.
fn place((gallery, number): Station) -> Place {
    let along = number as f64;
    let bend = (along / 17.0).sin() * 40.0 + (along / 5.0).cos() * 3.0;
    match gallery {
        0 => [along * 9.0, bend, 1204.0 - along * 0.4],
        _ => [along * 9.0 + 6.5, bend - 11.0, 1171.0 - along * 0.3],
    }
}

/// The legs of the cave as they are.
pub fn legs() -> Vec<Leg> {
    let leg = |from, to| Leg::read(from, to, place(from), place(to));
    let mut legs = Vec::new();
    for n in 0..STATIONS {
        if n > 0 {
            legs.push(leg((0, n - 1), (0, n)));
            legs.push(leg((1, n - 1), (1, n)));
        }
        if n % PITCHES == 0 {
            legs.push(leg((0, n), (1, n)));
        }
    }
    legs
}

/// The legs as they were first typed: one on each page of the notebook is misread by half a turn.
pub fn misread(legs: &[Leg]) -> Vec<Leg> {
    let mut typed = legs.to_vec();
    for leg in typed.iter_mut().skip(MISREAD).step_by(PAGE_LEGS) {
        leg.compass = (leg.compass + 1800) % 3600;
    }
    typed
}

/// The Survex file of some legs, with the notebook's page at each.
pub fn file(title: &str, legs: &[Leg]) -> Vec<u8> {
    let name = |(gallery, number): Station| format!("{}{number}", ["u", "l"][gallery]);
    let mut text =
        format!("*title \"{title}\"\n*begin ferjulm\n*data normal from to tape compass clino\n");
    for (i, leg) in legs.iter().enumerate() {
        let (from, to) = (name(leg.from), name(leg.to));
        let [tape, compass, clino] = [
            leg.tape as f64 / 100.0,
            leg.compass as f64 / 10.0,
            leg.clino as f64 / 10.0,
        ];
        let page = i / PAGE_LEGS + 1;
        writeln!(
            text,
            "{from:6} {to:6} {tape:7.2} {compass:6.1} {clino:+6.1} ; page {page}"
        )
        .expect("a string grows");
    }
    text.push_str("*end ferjulm\n");
    text.into_bytes()
}

/// The legs of a file: its lines with five readings, a comment apart.
pub fn read(file: &[u8]) -> Vec<Leg> {
    let text = String::from_utf8_lossy(file);
    let lines = text.lines().filter(|line| !line.starts_with('*'));
    lines.filter_map(read_leg).collect()
}

fn read_leg(line: &str) -> Option<Leg> {
    let readings: Vec<&str> = line.split(';').next()?.split_whitespace().collect();
    let &[from, to, tape, compass, clino] = &readings[..] else {
        return None;
    };
    let station = |name: &str| {
        let gallery = ["u", "l"]
            .iter()
            .position(|&first| name.starts_with(first))?;
        Some((gallery, name[1..].parse().ok()?))
    };
    let parts = |reading: &str, of: f64| Some((reading.parse::<f64>().ok()? * of).round() as i64);
    Some(Leg {
        from: station(from)?,
        to: station(to)?,
        tape: parts(tape, 100.0)?,
        compass: parts(compass, 10.0)?,
        clino: parts(clino, 10.0)?,
    })
}

/// How many legs a file has.
pub fn count(file: &[u8]) -> usize {
    read(file).len()
}

/// What a leg is part of.
#[derive(Clone, Copy, PartialEq)]
pub enum Part {
    Upper,
    Lower,
    Pitch,
}

/// The legs as lines from place to place, the first station at 0; each begins where an earlier one has ended.
pub fn lines(legs: &[Leg]) -> Vec<(Part, Place, Place)> {
    let mut at = HashMap::from([(legs[0].from, [0.0; 3])]);
    let mut line = |leg: &Leg| {
        let (from, span) = (at[&leg.from], leg.span());
        let to = [0, 1, 2].map(|i| from[i] + span[i]);
        at.entry(leg.to).or_insert(to);
        let part = match (leg.from.0, leg.to.0) {
            (0, 0) => Part::Upper,
            (1, 1) => Part::Lower,
            _ => Part::Pitch,
        };
        (part, from, to)
    };
    legs.iter().map(&mut line).collect()
}

/// How far off the worst loop closes, in metres: each is two stretches of gallery between two pitches.
pub fn misclosure(legs: &[Leg]) -> f64 {
    let mut at = [[[0.0; 3]; STATIONS]; 2];
    let mut before: Option<Place> = None;
    let mut worst: f64 = 0.0;
    for leg in legs {
        let ((gallery, number), span) = (leg.from, leg.span());
        if leg.to.0 == gallery {
            at[gallery][leg.to.1] = [0, 1, 2].map(|i| at[gallery][number][i] + span[i]);
            continue;
        }
        // how far the pitch puts the lower gallery from where its own legs have it: the same at every pitch
        let apart = [0, 1, 2].map(|i| at[0][number][i] + span[i] - at[1][number][i]);
        if let Some(before) = before {
            let [east, north, up] = [0, 1, 2].map(|i| apart[i] - before[i]);
            worst = worst.max(east.hypot(north).hypot(up));
        }
        before = Some(apart);
    }
    worst
}

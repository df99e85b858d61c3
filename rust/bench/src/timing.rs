//! Times of both sides, their medians and ratio.

use crate::world::{Side, World};
use std::hint::black_box;
use std::time::Instant;

/// Nanoseconds a call, over all boxes; each call must answer as wanted.
#[inline(always)]
pub fn per_call(boxes: &mut [World], wanted: u32, call: impl Fn(&mut World) -> u32) -> f64 {
    let start = Instant::now();
    let mut same = true;
    for w in boxes.iter_mut() {
        same &= black_box(call(black_box(w))) == wanted;
    }
    let time = start.elapsed().as_nanos() as f64 / boxes.len() as f64;
    assert!(same, "a call did not answer {wanted}");
    time
}

pub fn median(times: &[f64]) -> f64 {
    let mut times = times.to_vec();
    times.sort_by(f64::total_cmp);
    times[times.len() / 2]
}

/// The times of one case, proved and plain.
pub struct Case {
    pub name: String,
    times: [Vec<f64>; 2],
}

impl Case {
    pub fn medians(&self) -> [f64; 2] {
        [median(&self.times[0]), median(&self.times[1])]
    }
}

/// Cases in the order in which they first came up.
#[derive(Default)]
pub struct Times {
    pub cases: Vec<Case>,
}

impl Times {
    pub fn note<S: Side>(&mut self, name: &str, time: f64) {
        let at = self.cases.iter().position(|case| case.name == name);
        let at = at.unwrap_or_else(|| {
            self.cases.push(Case {
                name: name.to_string(),
                times: Default::default(),
            });
            self.cases.len() - 1
        });
        self.cases[at].times[S::INDEX].push(time);
    }

    pub fn case(&self, name: &str) -> &Case {
        self.cases.iter().find(|case| case.name == name).unwrap()
    }

    /// A table's row for each case.
    pub fn rows(&self) -> impl Iterator<Item = Vec<String>> + '_ {
        self.cases
            .iter()
            .map(|case| vec![case.name.clone(), compared(case.medians())])
    }
}

/// Takes turns: proved, plain, plain, proved, so that neither always comes first.
pub fn alternate<T>(turns: usize, on: &mut T, sides: [fn(&mut T); 2]) {
    for turn in 0..turns {
        sides[(turn + 1) / 2 % 2](on);
    }
}

/// A time in a unit that suits it.
pub fn shown(ns: f64) -> String {
    match ns {
        ns if ns < 1e3 => format!("{ns:.0} ns"),
        ns if ns < 1e4 => format!("{:.2} µs", ns / 1e3),
        ns if ns < 1e6 => format!("{:.1} µs", ns / 1e3),
        ns => format!("{:.2} ms", ns / 1e6),
    }
}

/// "0.96 (72 ns / 75 ns)": the ratio, then proved and plain.
pub fn compared([proved, plain]: [f64; 2]) -> String {
    format!(
        "{:.2} ({} / {})",
        proved / plain,
        shown(proved),
        shown(plain)
    )
}

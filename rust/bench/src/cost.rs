//! What a C function adds to the call that it wraps: it judges and unpacks the record's 134 words, and packs them again.

use crate::plain::record::{pack, unpack};
use crate::plain::Plain;
use crate::proved::Proved;
use crate::report::Table;
use crate::timing::{alternate, median, per_call, shown, Times};
use crate::world::{Call, Side, World, HAND, PHASE, READY};

const BOXES: usize = 256;
const TURNS: usize = 4_000;

struct Bench {
    boxes: Vec<World>,
    times: Times,
}

/// Times a call on boxes of one slot whose word `at` is `value` for that call.
#[inline(always)]
fn time<S: Side>(b: &mut Bench, name: &str, (at, value): (usize, u32), wanted: u32, call: Call) {
    let before = b.boxes[0].record[at];
    b.boxes.iter_mut().for_each(|w| w.record[at] = value);
    let time = per_call(&mut b.boxes, wanted, |w| S::make(w, call));
    b.times.note::<S>(name, time);
    b.boxes.iter_mut().for_each(|w| w.record[at] = before);
}

/// What is timed, from the least of the C function's work to all of it.
const PHASE_WRONG: &str = "look up, refused by 3 for its phase: nothing unpacked";
const HAND_WRONG: &str = "look up, refused by 3 for its hand: unpacked, not packed";
const FORMAT: &str = "format of 1 slot: two words of the table zeroed, packed";
const VIEW: &str = "view, not cached: unpacked, not packed";
const WRITE_BACK: &str = "write back, not cached: unpacked and packed";

fn turn<S: Side>(b: &mut Bench) {
    time::<S>(b, PHASE_WRONG, (PHASE, 3), 3, Call::LookUp(0));
    time::<S>(b, HAND_WRONG, (HAND, 1), 3, Call::LookUp(0));
    time::<S>(b, FORMAT, (HAND, 0), 0, Call::Format(1, 1));
    time::<S>(b, VIEW, (PHASE, READY), 0, Call::View(0));
    time::<S>(b, WRITE_BACK, (PHASE, READY), 106, Call::WriteBack(0));
}

/// Unpacking and packing alone, in plain Rust.
#[inline(never)]
fn repack(w: &mut World) -> u32 {
    let record = std::hint::black_box(unpack(&w.record));
    record.map_or(3, |r| {
        pack(&mut w.record, &r);
        0
    })
}

pub fn table() -> String {
    let boxes = (0..BOXES).map(|_| World::full(1, 1)).collect();
    let mut b = Bench {
        boxes,
        times: Times::default(),
    };
    b.boxes.iter_mut().for_each(|w| w.table.fill(0));
    alternate(TURNS, &mut b, [turn::<Proved>, turn::<Plain>]);
    let alone: Vec<f64> = (0..TURNS)
        .map(|_| per_call(&mut b.boxes, 0, repack))
        .collect();
    let proved = |name: &str| b.times.case(name).medians()[0];
    let added = proved(HAND_WRONG) + proved(WRITE_BACK) - proved(VIEW);
    let mut table = Table::new(&["1 slot, 1 block", "ratio (proved / plain)"]);
    b.times.rows().for_each(|row| table.row(row));
    let mut one = |name: &str, side: &str, ns: f64| {
        table.row(vec![name.to_string(), format!("{side} {}", shown(ns))]);
    };
    one(
        "refused for its hand, and write back less view",
        "proved",
        added,
    );
    one(
        "unpacking and packing 134 words, nothing else",
        "plain",
        median(&alone),
    );
    table.text()
}

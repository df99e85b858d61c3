//! Reopening, with every slot valid and the blocks spread over the HDD, of which reopening reads only the length.

use crate::plain::Plain;
use crate::proved::Proved;
use crate::report::{grouped, Table};
use crate::rng::scattered;
use crate::timing::{alternate, compared, per_call, Times};
use crate::world::{Call, Side, World};

/// Which block the slot s of so many slots and blocks holds.
type Order = fn(u32, u32, u32) -> u32;

const SCATTERED: (&str, Order) = ("scattered", |s, _, blocks| scattered(s, blocks));
const RISING: (&str, Order) = ("rising", |s, slots, blocks| s * (blocks / slots));

/// Slots, blocks, their order, turns.
const SIZES: [(u32, u32, (&str, Order), usize); 8] = [
    (4, 16, SCATTERED, 2_000),
    (240, 960, SCATTERED, 2_000),
    (241, 964, SCATTERED, 2_000),
    (5_000, 20_000, SCATTERED, 400),
    (57_600, 230_400, SCATTERED, 100),
    (4, 16_777_216, SCATTERED, 1_000),
    (57_600, 16_777_216, SCATTERED, 60),
    (57_600, 16_777_216, RISING, 60),
];

/// A stored box, what was timed on it, and the table and record that a reopening left.
struct Bench {
    world: World,
    times: Times,
    left: Option<(Vec<u32>, Vec<u32>)>,
}

fn turn<S: Side>(b: &mut Bench) {
    b.world.table.fill(7);
    b.world.record.fill(7);
    let time = per_call(std::slice::from_mut(&mut b.world), 0, |w| {
        S::make(w, Call::Reopen)
    });
    b.times.note::<S>("reopen", time);
    let left = (b.world.table.clone(), b.world.record.clone());
    assert!(
        *b.left.get_or_insert(left.clone()) == left,
        "both left the same"
    );
}

/// The medians of both sides at one size.
pub struct Measured {
    slots: u32,
    blocks: u32,
    order: &'static str,
    medians: [f64; 2],
}

pub fn measure() -> Vec<Measured> {
    let mut measured = Vec::new();
    for (slots, blocks, (order, block_of), turns) in SIZES {
        let mut b = Bench {
            world: World::stored(slots, blocks, |s| block_of(s, slots, blocks)),
            times: Times::default(),
            left: None,
        };
        alternate(turns, &mut b, [turn::<Proved>, turn::<Plain>]);
        let kept = b
            .world
            .table
            .chunks_exact(2)
            .filter(|row| row[1] != 0)
            .count();
        assert!(kept == slots as usize, "every slot is kept");
        measured.push(Measured {
            slots,
            blocks,
            order,
            medians: b.times.cases[0].medians(),
        });
    }
    measured
}

pub fn table(measured: &[Measured]) -> String {
    let mut table = Table::new(&["slots", "blocks", "blocks' order", "ratio (proved / plain)"]);
    for m in measured {
        table.row(vec![
            grouped(m.slots),
            grouped(m.blocks),
            m.order.to_string(),
            compared(m.medians),
        ]);
    }
    table.text()
}

/// Slots with the medians, where there are four blocks for each slot.
pub fn line(measured: &[Measured]) -> Vec<(u32, [f64; 2])> {
    let fitting = measured.iter().filter(|m| m.blocks == 4 * m.slots);
    fitting.map(|m| (m.slots, m.medians)).collect()
}

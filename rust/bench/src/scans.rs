//! Lists that are offered as one, and what an import of them would cost, compared on boxes with rows of every kind: what calls alone leave is mostly dirty, and ends a list soon.

use crate::check::{random_list, Seen};
use crate::plain::Plain;
use crate::proved::Proved;
use crate::rng::{scattered, Rng};
use crate::world::{Call, Side, World, CALLERS, COUNT, HAND, NEWEST, WINDOW};

/// Tables that are made, each for three lists.
const TABLES: u32 = 6_000;

/// A ready box's table and record: mostly clean rows, used or not, some dirty or free, a few open, and now and then a block in two rows.
fn random_rows(rng: &mut Rng, w: &mut World) {
    let (slots, blocks) = (w.record[0], w.record[1]);
    let (few, opened) = (rng.pick(&[1, 10, 100]), rng.pick(&[0, 2, 9, 60]));
    w.record[NEWEST] = rng.pick(&[1, 1, 1, 4_294_967_231, 4_294_967_232]);
    w.record[HAND] = rng.pick(&[0, slots - 1, slots / 2, 239 % slots]);
    w.list(&[]);
    for s in 0..slots {
        let other = rng.below(few) == 0;
        let flags = match rng.below(8) {
            0 if other => 0,
            1 if other => 3,
            2 if other => 11,
            3 if w.record[COUNT] < opened => rng.pick(&[5, 7, 13, 15]),
            4 => 9,
            _ => 1,
        };
        let twice = if rng.below(50) == 0 { s / 2 } else { s };
        let block = if flags == 0 {
            0
        } else {
            scattered(twice, blocks)
        };
        w.table[2 * s as usize..][..2].copy_from_slice(&[block, flags]);
        if flags & 4 != 0 {
            let at = w.record[COUNT] as usize;
            w.record[WINDOW + at] = s;
            w.record[CALLERS + at] = rng.below(2) as u32;
            w.record[COUNT] += 1;
        }
    }
}

/// Offers lists on both sides, after each other; both must answer and leave the same.
pub fn agree(slots: u32, blocks: u32, seen: &mut Seen) {
    let mut rng = Rng::new();
    let [mut ours, mut theirs] = [(); 2].map(|_| World::empty(slots, blocks));
    for i in 0..TABLES {
        random_rows(&mut rng, &mut ours);
        theirs.table.copy_from_slice(&ours.table);
        theirs.record.copy_from_slice(&ours.record);
        for _ in 0..3 {
            let list = random_list(&mut rng, blocks);
            let caller = rng.pick(&[0, 0, 0, 1, 1, 2]);
            let cost = Call::Cost(&list, caller, 2 * slots as usize);
            for call in [cost, Call::OfferList(&list, caller)] {
                let (a, b) = (
                    Proved::make(&mut ours, call),
                    Plain::make(&mut theirs, call),
                );
                assert!(a == b, "{slots} slots, table {i}: {a} and {b}");
                assert!(ours == theirs, "{slots} slots: not the same, table {i}");
                *seen.entry(a).or_default() += 1;
            }
        }
    }
}

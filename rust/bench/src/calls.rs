//! Each call at five sizes, made on boxes whose slots are all in use, with few or many of them open.

use crate::boxes::Bench;
use crate::image::PAGE;
use crate::plain::Plain;
use crate::proved::Proved;
use crate::report::{grouped, Table};
use crate::timing::{alternate, compared, Times};
use crate::world::{map_bytes, meta_pages, Call, Side, PEOPLE, PHASE, RECOVERING, STEPS};

/// Slots, blocks, boxes that are timed together, turns.
type Size = (u32, u32, usize, usize);

/// 65 slots are the fewest with which every call here can be made while 63 are open.
const SIZES: [Size; 5] = [
    (4, 8, 32, 4_000),
    (65, 80, 16, 3_000),
    (240, 300, 8, 2_000),
    (5_000, 6_000, 1, 1_000),
    (57_600, 60_000, 1, 400),
];

/// The tables, and how many slots are open in their boxes.
pub const OPEN: [(&str, u32); 3] = [("calls", 0), ("open 16", 16), ("open 63", 63)];

/// The bytes that are landed.
static LANDED: [u8; PAGE] = [0xa5; PAGE];

/// Calls that name a block in a slot, which is clean before and after, or none.
fn held<S: Side>(b: &mut Bench) {
    let block = b.far();
    b.time::<S>("look up, not cached", 107, Call::LookUp(b.spare));
    b.time::<S>("look up, clean", 108, Call::LookUp(block));
    b.time_list::<S>();
    b.time::<S>("view", 0, Call::View(block));
    let room = map_bytes(b.boxes[0].record[0]);
    b.time::<S>("map", 0, Call::Map(room));
    b.close_last();
    b.time::<S>("offer, announced (clean)", 101, Call::Offer(block, PEOPLE));
    b.time::<S>("look up, open for writing", 110, Call::LookUp(block));
    b.time::<S>("land, open", 0, Call::Land(block, &LANDED));
    b.open_all();
    b.time::<S>("offer, overwrite", 102, Call::Offer(block, PEOPLE));
    b.time::<S>("land, dirty", 0, Call::Land(block, &LANDED));
    b.time::<S>("look up, dirty", 109, Call::LookUp(block));
    b.time::<S>("flush", 0, Call::Flush);
    b.time::<S>("write back", 0, Call::WriteBack(block));
}

/// Calls that sweep. Each brings in the spare block, and the block that had its slot is the next spare one.
fn swept<S: Side>(b: &mut Bench) {
    b.close_last();
    let next = b.next_out();
    b.time::<S>("fetch, announced", 101, Call::Fetch(b.spare, PEOPLE));
    b.time::<S>("land a fetch", 0, Call::LandFetch(b.spare));
    b.spare = next;
    let next = b.next_out();
    b.time::<S>(
        "offer, announced (swept)",
        101,
        Call::Offer(b.spare, PEOPLE),
    );
    clean_again::<S>(b, next);
    let next = b.next_out();
    b.untimed::<S>(101, Call::Offer(next, PEOPLE));
    b.untimed::<S>(0, Call::Land(next, &LANDED));
    b.set_used(false);
    b.time::<S>("offer, copied out", 103, Call::Offer(b.spare, PEOPLE));
    b.set_used(true);
    let next = b.next_out();
    b.time::<S>(
        "offer, announced (all were used)",
        101,
        Call::Offer(b.spare, PEOPLE),
    );
    clean_again::<S>(b, next);
    b.open_all();
}

/// Lands the announced spare block, writes it back and clears the used flags; `next` lost its slot.
fn clean_again<S: Side>(b: &mut Bench, next: u32) {
    b.untimed::<S>(0, Call::Land(b.spare, &LANDED));
    b.untimed::<S>(0, Call::WriteBack(b.spare));
    b.set_used(false);
    b.spare = next;
}

/// A scan offered as one, and what its import would cost, on a box with no slot open.
fn scanned<S: Side>(b: &mut Bench) {
    b.time_scan::<S>();
    b.time_import::<S>(&LANDED);
}

/// Format and its steps, whose rows are zero.
fn formatted<S: Side>(b: &mut Bench) {
    let (slots, blocks) = (b.boxes[0].record[0], b.boxes[0].record[1]);
    b.time::<S>("format", 0, Call::Format(slots, blocks));
    b.time::<S>("step, zero label page", 0, Call::Step);
    b.time::<S>("step, metadata page", 0, Call::Step);
    b.set(|w| w.record[STEPS] = meta_pages(slots) + 1);
    b.time::<S>("step, label", 0, Call::Step);
}

/// A step of a recovery: the open slots are pending, or slot 0 if there are none, and their rows are zero.
fn recovered<S: Side>(b: &mut Bench) {
    let mut pending = b.open.clone();
    if pending.is_empty() {
        pending.push(0);
    }
    b.set(|w| {
        w.record[PHASE] = RECOVERING;
        w.list(&pending);
        w.table = (0..w.record[0]).flat_map(|s| [s, 1]).collect();
        let rows = pending.iter().map(|s| 2 * *s as usize);
        rows.for_each(|row| w.table[row..row + 2].fill(0));
    });
    b.time::<S>("step, mending", 0, Call::Step);
}

/// The lists of calls that are timed, each for both sides. A format does not look at open slots: it is timed once, with none; and a scan
/// takes all that may be open.
fn lists(open: u32) -> Vec<[fn(&mut Bench); 2]> {
    let mut lists: Vec<[fn(&mut Bench); 2]> = vec![[held::<Proved>, held::<Plain>]];
    if open == 0 {
        lists.push([scanned::<Proved>, scanned::<Plain>]);
    }
    lists.push([swept::<Proved>, swept::<Plain>]);
    if open == 0 {
        lists.push([formatted::<Proved>, formatted::<Plain>]);
    }
    lists.push([recovered::<Proved>, recovered::<Plain>]);
    lists
}

/// The sizes of which so many slots can be open.
fn sizes_for(open: u32) -> impl Iterator<Item = Size> {
    SIZES.into_iter().filter(move |size| size.0 > open)
}

/// The median times of every call, for each size.
pub struct Measured {
    pub sizes: Vec<(u32, Times)>,
}

pub fn measure(open: u32) -> Measured {
    let mut sizes = Vec::new();
    for (slots, blocks, count, turns) in sizes_for(open) {
        let mut bench = Bench::new(slots, blocks, open, count);
        for sides in lists(open) {
            alternate(turns, &mut bench, sides);
        }
        sizes.push((slots, bench.times));
    }
    Measured { sizes }
}

/// Each side makes the lists three times on a box of its own; both must be left the same. The largest box is left out, for its
/// memory.
pub fn check(open: u32) {
    for (slots, blocks, ..) in sizes_for(open).filter(|size| size.0 < 57_600) {
        let [mut ours, mut theirs] = [(); 2].map(|_| Bench::new(slots, blocks, open, 1));
        for [proved, plain] in lists(open) {
            for _ in 0..3 {
                proved(&mut ours);
                plain(&mut theirs);
                let same = ours.boxes == theirs.boxes;
                assert!(same, "{slots} slots, {open} open: not the same");
            }
        }
    }
}

impl Measured {
    pub fn table(&self) -> String {
        let sizes = self.sizes.iter();
        let mut head = vec!["call".to_string()];
        head.extend(sizes.map(|(slots, _)| format!("{} slots", grouped(*slots))));
        let mut table = Table::new(&head);
        for (i, case) in self.sizes[0].1.cases.iter().enumerate() {
            let mut cells = vec![case.name.clone()];
            cells.extend(
                self.sizes
                    .iter()
                    .map(|(_, times)| compared(times.cases[i].medians())),
            );
            table.row(cells);
        }
        table.text()
    }

    /// Slots with the medians of one call.
    pub fn line(&self, name: &str) -> Vec<(u32, [f64; 2])> {
        let at = |(slots, times): &(u32, Times)| (*slots, times.case(name).medians());
        self.sizes.iter().map(at).collect()
    }
}

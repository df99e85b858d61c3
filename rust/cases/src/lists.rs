//! Lists of calls on boxes of up to 4 slots.

use crate::listed::Listed;

/// Title, slots, blocks and calls.
type List = (&'static str, u32, u32, &'static str);

const LISTS: [List; 10] = [
    // a block written, written over, confirmed, brought to the disk, and written again
    (
        "writes",
        4,
        8,
        "offer 5, look up 5, land 5 A, look up 5, offer 5, land 5 B, flush, flush, write back 5, write back 5, \
         offer 5, land 5 C, offer 6, land 6 D, look up 6, write back 7",
    ),
    // blocks fetched, and a write of each; what may not be landed when
    (
        "fetches",
        4,
        8,
        "fetch 2, look up 2, land fetch 2, look up 2, offer 2, land 2 A, \
         fetch 3, land 3 B, write back 3, land fetch 3, land fetch 3, land 3 B, offer 3, land fetch 3, land 3 B, flush",
    ),
    // all slots open; landed and opened again out of order
    (
        "window",
        4,
        8,
        "offer 0, offer 1, offer 2, offer 3, offer 4, fetch 4, land 1 A, offer 4, offer 4, \
         land 3 B, land 0 C, land 4 D, land 2 E, flush, write back 0, offer 1",
    ),
    // four blocks fetched, two of them used: the sweep passes those; then all four used: it comes round; and a dirty slot
    // that it met is copied out before a fetch takes it
    (
        "sweep",
        4,
        8,
        "fetch 0, land fetch 0, fetch 1, land fetch 1, fetch 2, land fetch 2, fetch 3, land fetch 3, \
         look up 0, look up 1, offer 4, land 4 A, \
         look up 0, look up 1, look up 3, look up 4, offer 5, land 5 B, offer 6, look up 6, land 6 C, offer 7, land 7 D, \
         fetch 0, fetch 0, land fetch 0",
    ),
    // P8, and on
    (
        "one slot",
        1,
        2,
        "offer 0, land 0 A, offer 1, offer 1, offer 0, land 1 B, fetch 0, fetch 0, land fetch 0",
    ),
    // P9, and the landing
    (
        "two slots",
        2,
        3,
        "fetch 0, land fetch 0, fetch 1, land fetch 1, look up 0, offer 2, land 2 A",
    ),
    // document 02, N2: a block that was written keeps its slot before one that was fetched
    (
        "two slots, one written",
        2,
        3,
        "offer 0, land 0 A, fetch 1, land fetch 1, offer 2, land 2 B",
    ),
    // document 02, N5: all five answers of a look-up on one box, and what the landings make of two of them
    (
        "conditions",
        4,
        8,
        "fetch 1, land fetch 1, offer 2, land 2 A, offer 3, fetch 4, look up 0, look up 1, look up 2, look up 3, look up 4, \
         land 3 B, land fetch 4, look up 3, look up 4, write back 3, look up 3",
    ),
    // document 02, N6: the same box by a list, with blocks listed twice; the used flags that it set pass slots 0 and 1 in the sweep
    (
        "a list",
        4,
        8,
        "fetch 1, land fetch 1, offer 2, land 2 A, offer 3, fetch 4, look up list 0 1 2 3 4 2 1, look up list 8, look up list 0 8, \
         land 3 B, land fetch 4, look up list 3, look up list 1 2, fetch 5",
    ),
    // a slot that is open still has its former block's page: 1 reads from the HDD
    (
        "an open slot's former block",
        1,
        2,
        "offer 0, land 0 A, write back 0, look up 0, fetch 1, look up 1, look up 0, land fetch 1, look up 1",
    ),
];

pub fn lines() -> Vec<String> {
    LISTS
        .iter()
        .flat_map(|(title, slots, blocks, calls)| {
            Listed::formatted(title, *slots, *blocks).run(calls).lines
        })
        .collect()
}

//! Random lists of calls, cuts and reopenings beside the plain disk. `cases::beside` makes the checks: at every cut and every
//! finished reopening all blocks are read.

mod list;

use ferjulm::Geometry;
use list::{Counts, List};

/// The lists of one size: how many, and the events of each.
struct Size {
    slots: u32,
    blocks: u32,
    lists: u64,
    events: u32,
}

const fn size(slots: u32, blocks: u32, lists: u64, events: u32) -> Size {
    Size {
        slots,
        blocks,
        lists,
        events,
    }
}

const SIZES: [Size; 4] = [
    size(4, 6, 1, 45_000),
    size(64, 77, 5, 7_000),
    size(241, 290, 36, 400),
    size(481, 577, 22, 400),
];

#[test]
fn random_lists_beside_the_plain_disk() {
    let mut all = Counts::default();
    for size in &SIZES {
        let before = (all.events, all.cuts, all.cuts_while_recovering);
        let Size { slots, blocks, .. } = *size;
        for seed in 0..size.lists {
            List::new(Geometry::new(slots, blocks), seed, &mut all).run(size.events);
        }
        let (events, cuts) = (all.events - before.0, all.cuts - before.1);
        let recovering = all.cuts_while_recovering - before.2;
        println!("{slots} slots: {events} events, {cuts} cuts, {recovering} of them while mending");
    }
    println!(
        "{} copied out, at most {} open",
        all.copied_out, all.most_open
    );
    println!(
        "pages to mend: {:?}; refused by number: {:?}",
        all.recovered, all.refused
    );
    assert!(
        all.events >= 100_000 && all.cuts >= 5_000 && 2 * all.cuts_while_recovering >= all.cuts
    );
    assert!(all.most_open == 63 && all.copied_out > 1_000);
    assert!(
        all.recovered.iter().all(|&count| count >= 10),
        "too few over several pages"
    );
    println!(
        "fetched again: {} open for writing, {} open for fetch, {} not open",
        all.fetched_again[0], all.fetched_again[1], all.fetched_again[2]
    );
    assert!(all.fetched_again.iter().all(|&count| count > 0));
    println!("landed in two orders: {}", all.landed_twice);
    assert!(all.landed_twice > 100);
    println!(
        "looked up, not cached to open for fetch: {:?}",
        all.looked_up
    );
    assert!(all.looked_up.iter().all(|&count| count > 100));
    println!("maps: {}", all.mapped);
    assert!(all.mapped > 100);
    println!("costs of imports: {}", all.costed);
    assert!(all.costed > 100);
    println!("lists looked up: {}", all.looked_up_lists);
    assert!(all.looked_up_lists > 100);
    println!(
        "lists offered, dealt with in whole, in part, copied out: {:?}; at most {} announced by one store; {} cut in their store",
        all.offered_lists, all.most_announced, all.cut_lists
    );
    assert!(all.offered_lists.iter().all(|&count| count > 100));
    assert!(all.most_announced > 30 && all.cut_lists > 100);
    for number in [1, 4, 6, 7, 8, 9, 10, 11, 12, 14, 15, 16, 17] {
        assert!(
            all.refused.contains_key(&number),
            "no call was refused by {number}"
        );
    }
}

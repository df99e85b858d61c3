//! Scans of 63 blocks, offered one by one and as a list (document 02, N3), to a box whose slots are all clean.

use super::counted::{fill, Counted, Stores};
use crate::image::PAGE;
use crate::world::{Call, PEOPLE};

/// Blocks of a scan: all that may be open.
const SCAN: u32 = 63;

/// Scans that were counted: their stores, and a share of the slots in use for each cut, with all open and with all landed.
pub struct Scanned {
    pub stores: Stores,
    pub kept: Vec<f64>,
}

struct Scanner {
    cache: Counted,
    next: u64,
    kept: Vec<f64>,
}

impl Scanner {
    /// A box whose slots all hold a block, clean and not used, with the hand on the first.
    fn new(slots: u32, blocks: u32) -> Scanner {
        let mut cache = Counted::new(slots, blocks);
        for block in 0..slots {
            assert!(cache.call(Call::Fetch(block, PEOPLE)) == 101);
            assert!(cache.call(Call::LandFetch(block)) == 0);
        }
        Scanner {
            cache,
            next: blocks as u64,
            kept: Vec::new(),
        }
    }

    /// Offers the blocks one by one, or as lists as far as each goes.
    fn offer(&mut self, scan: &[u32], as_list: bool) {
        let mut left = scan;
        while !left.is_empty() {
            let call = match as_list {
                true => Call::OfferList(left, PEOPLE),
                false => Call::Offer(left[0], PEOPLE),
            };
            let dealt = match self.cache.call(call) {
                101 => 1,
                112 => self.cache.world.dealt as usize,
                code => panic!("result code {code}"),
            };
            left = &left[dealt..];
        }
    }

    fn land(&mut self, scan: &[u32]) {
        let mut page = vec![0; PAGE];
        for block in scan {
            self.next += 1;
            fill(&mut page, self.next);
            assert!(self.cache.call(Call::Land(*block, &page)) == 0);
        }
    }

    fn cut(&mut self) {
        let slots = self.cache.world.record[0] as f64;
        self.kept.push(self.cache.kept_after_cut() as f64 / slots);
    }

    /// One scan; then its blocks are written back, which is not counted.
    fn scan(&mut self, scan: &[u32], as_list: bool) {
        self.offer(scan, as_list);
        self.cut();
        self.land(scan);
        self.cut();
        let stores = self.cache.stores;
        for block in scan {
            assert!(self.cache.call(Call::WriteBack(*block)) == 0);
        }
        self.cache.stores = stores;
    }
}

/// So many scans, one after another, of blocks that are not cached.
pub fn run(slots: u32, blocks: u32, scans: u32, as_list: bool) -> Scanned {
    let mut scanner = Scanner::new(slots, blocks);
    scanner.cache.stores = Stores::default();
    for k in 0..scans {
        let block = |i: u32| (slots + SCAN * k + i) % blocks;
        let scan: Vec<u32> = (0..SCAN).map(block).collect();
        scanner.scan(&scan, as_list);
    }
    Scanned {
        stores: scanner.cache.stores,
        kept: scanner.kept,
    }
}

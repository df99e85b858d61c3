//! Boxes that calls are timed on: every slot is in use, and some may be open.

use crate::timing::{per_call, Times};
use crate::world::{Call, Side, World, HAND, PEOPLE};

/// A scan of 63 blocks, or of 4 where there are 4 slots.
const SCAN: &str = "offer 63 blocks, a list (of 4 slots: 4)";
const IMPORT_COST: &str = "cost of importing 63 blocks (of 4 slots: 4)";
const IMPORT_DONE: &str = "import 63 blocks, by single calls (of 4 slots: 4)";
const SCAN_SINGLY: &str = "offer 63 blocks, one by one (of 4 slots: 4)";

/// Boxes that are all alike, what was timed on them, a block that no slot holds, and the slots that are open: spread over the box,
/// and neither the first slot nor the last.
pub struct Bench {
    pub boxes: Vec<World>,
    pub times: Times,
    pub spare: u32,
    pub open: Vec<u32>,
}

impl Bench {
    pub fn new(slots: u32, blocks: u32, open: u32, count: usize) -> Bench {
        let mut bench = Bench {
            boxes: (0..count).map(|_| World::full(slots, blocks)).collect(),
            times: Times::default(),
            spare: slots,
            open: (0..open).map(|i| 1 + i * ((slots - 2) / open)).collect(),
        };
        bench.open_all();
        bench
    }

    #[inline(always)]
    pub fn untimed<S: Side>(&mut self, wanted: u32, call: Call) -> f64 {
        per_call(&mut self.boxes, wanted, |w| S::make(w, call))
    }

    #[inline(always)]
    pub fn time<S: Side>(&mut self, name: &str, wanted: u32, call: Call) {
        let time = self.untimed::<S>(wanted, call);
        self.times.note::<S>(name, time);
    }

    /// Times a list of 64 blocks, spread over all, and as many look-ups one by one.
    #[inline(always)]
    pub fn time_list<S: Side>(&mut self) {
        let blocks = self.boxes[0].record[1];
        let list: Vec<u32> = (0..64).map(|i| (i * blocks as u64 / 64) as u32).collect();
        self.time::<S>("look up 64 blocks, a list", 0, Call::LookUpList(&list, 64));
        let each = per_call(&mut self.boxes, 0, |w| {
            let codes = list.iter().map(|block| S::make(w, Call::LookUp(*block)));
            codes.filter(|code| *code < 100).count() as u32
        });
        self.times.note::<S>("look up 64 blocks, one by one", each);
    }

    /// Times a list of 63 blocks that is offered, or of as many as there are slots, and as many offers one by one: blocks that are not
    /// cached, as far as there are such, then clean ones, all on the first metadata page. The box is left as it was.
    #[inline(always)]
    pub fn time_scan<S: Side>(&mut self) {
        let (slots, blocks) = (self.boxes[0].record[0], self.boxes[0].record[1]);
        let (table, mut record) = (self.boxes[0].table.clone(), self.boxes[0].record.clone());
        record[HAND] = 0;
        let again = |w: &mut World| {
            w.table.copy_from_slice(&table);
            w.record.copy_from_slice(&record);
        };
        let block = |i: u32| if i < blocks - slots { slots + i } else { i };
        let list: Vec<u32> = (0..slots.min(63)).map(block).collect();
        self.set(again);
        self.time::<S>(SCAN, 112, Call::OfferList(&list, PEOPLE));
        self.set(again);
        let each = per_call(&mut self.boxes, list.len() as u32, |w| {
            let codes = list
                .iter()
                .map(|block| S::make(w, Call::Offer(*block, PEOPLE)));
            codes.filter(|code| *code == 101).count() as u32
        });
        self.times.note::<S>(SCAN_SINGLY, each);
        self.set(again);
    }

    /// Times what an import of such a list would cost, and the import itself: each block offered and landed. The box is left as it was.
    #[inline(always)]
    pub fn time_import<S: Side>(&mut self, page: &[u8]) {
        let (slots, blocks) = (self.boxes[0].record[0], self.boxes[0].record[1]);
        let (table, mut record) = (self.boxes[0].table.clone(), self.boxes[0].record.clone());
        record[HAND] = 0;
        let again = |w: &mut World| {
            w.table.copy_from_slice(&table);
            w.record.copy_from_slice(&record);
        };
        let block = |i: u32| if i < blocks - slots { slots + i } else { i };
        let list: Vec<u32> = (0..slots.min(63)).map(block).collect();
        self.set(again);
        self.time::<S>(
            IMPORT_COST,
            0,
            Call::Cost(&list, PEOPLE, 2 * slots as usize),
        );
        let each = per_call(&mut self.boxes, list.len() as u32, |w| {
            let landed = |block: &&u32| {
                S::make(w, Call::Offer(**block, PEOPLE)) == 101
                    && S::make(w, Call::Land(**block, page)) == 0
            };
            list.iter().filter(landed).count() as u32
        });
        self.times.note::<S>(IMPORT_DONE, each);
        self.set(again);
    }

    pub fn set(&mut self, change: impl Fn(&mut World)) {
        self.boxes.iter_mut().for_each(change);
    }

    /// Sets the used flags of all slots, or clears them.
    pub fn set_used(&mut self, used: bool) {
        let flag = if used { 8 } else { 0 };
        let set = |row: &mut [u32]| row[1] = row[1] % 8 + flag;
        self.set(|w| w.table.chunks_exact_mut(2).for_each(set));
    }

    /// Opens all of the open slots for writing.
    pub fn open_all(&mut self) {
        let open = self.open.clone();
        self.set(|w| {
            w.list(&open);
            open.iter().for_each(|s| w.table[2 * *s as usize + 1] |= 6);
        });
    }

    /// Closes the last of the open slots, if there is one: the next call opens a slot in its stead.
    pub fn close_last(&mut self) {
        let Some((last, others)) = self.open.split_last() else {
            return;
        };
        let (last, others) = (2 * *last as usize + 1, others.to_vec());
        self.set(|w| {
            w.list(&others);
            w.table[last] &= !6;
        });
    }

    /// The block in a slot of the first box, and so of all.
    fn block_in(&self, slot: u32) -> u32 {
        self.boxes[0].table[2 * slot as usize]
    }

    /// A block held far from the hand: the last slot's, or the first's.
    pub fn far(&self) -> u32 {
        let (slots, hand) = (self.boxes[0].record[0], self.boxes[0].record[HAND]);
        self.block_in(if hand < slots / 2 { slots - 1 } else { 0 })
    }

    /// The block in the slot that a sweep takes: the first closed one from the hand that is not used, or the first closed one.
    pub fn next_out(&self) -> u32 {
        let (slots, hand) = (self.boxes[0].record[0], self.boxes[0].record[HAND]);
        let flags = |s: &u32| self.boxes[0].table[2 * *s as usize + 1];
        let mut closed = (hand..slots).chain(0..hand).filter(|s| flags(s) & 4 == 0);
        let slot = closed.clone().find(|s| flags(s) < 8).or(closed.next());
        self.block_in(slot.unwrap())
    }
}

//! What an import would cost (document 02, N8): its blocks are found by one pass over the table, then each is offered and landed in the
//! scratch table, as by itself, with its stores counted.

use super::judge::{ready, room as has_room};
use super::list::locate;
use super::offers::{apart, slot_of};
use super::sweep::{sweep, wrapped};
use crate::image::PAGE;
use crate::world::{World, IMPORT};

/// Where the import stands: the hand, the newest stamp, and its stores by kind.
struct Run<'a> {
    table: &'a mut [u32],
    slots: u32,
    hand: u32,
    newest: u32,
    counts: [u32; 3],
}

impl Run<'_> {
    fn flags(&mut self, slot: u32) -> &mut u32 {
        &mut self.table[2 * slot as usize + 1]
    }

    /// A page lands: not writing, and used.
    fn land(&mut self, slot: u32) {
        let flags = self.flags(slot);
        *flags = (*flags & !4) | 8;
        self.counts[2] += 1;
    }

    /// A slot is opened for a block, with these flags, and its page lands.
    fn open(&mut self, block: u32, slot: u32, flags: u32, hand: u32) {
        self.table[2 * slot as usize..][..2].copy_from_slice(&[block, flags]);
        self.hand = hand;
        self.newest += 1;
        self.counts[1] += 1;
        self.land(slot);
    }

    fn clear_used(&mut self, passed: u32) {
        for k in 0..passed {
            let flags = self.flags(wrapped(self.hand + k, self.slots));
            if *flags & 4 == 0 {
                *flags &= !8;
            }
        }
    }

    fn stamp(&self) -> Result<(), u32> {
        if self.newest >= 4_294_967_232 {
            return Err(13);
        }
        Ok(())
    }

    /// A block that no slot holds.
    fn swept(&mut self, block: u32) -> Result<(), u32> {
        loop {
            let (slot, passed) = sweep(self.table, self.slots, self.hand).ok_or(12u32)?;
            let dirty = *self.flags(slot) & 2 == 2;
            if !dirty {
                self.stamp()?;
            }
            self.clear_used(passed);
            if !dirty {
                let hand = wrapped(slot + 1, self.slots);
                self.open(block, slot, 7, hand);
                return Ok(());
            }
            *self.flags(slot) -= 2;
            self.hand = slot;
            self.counts[0] += 1;
        }
    }

    /// One block, which the pass found where `word` says; `full` refuses another slot.
    fn place(&mut self, block: u32, word: u32, full: Result<(), u32>) -> Result<(), u32> {
        let at = slot_of(self.table, block, word);
        let flags = at.map_or(0, |slot| self.table[2 * slot as usize + 1]);
        match at {
            Some(_) if flags & 4 == 4 => Err(8),
            Some(slot) if flags & 2 == 2 => {
                self.land(slot);
                Ok(())
            }
            Some(slot) => {
                full?;
                self.stamp()?;
                self.open(block, slot, flags + 6, self.hand);
                Ok(())
            }
            None => {
                full?;
                self.swept(block)
            }
        }
    }
}

#[inline(never)]
pub fn cost(w: &mut World, blocks: &[u32], caller: u32, words: usize) -> Result<u32, u32> {
    let page_len = if words == w.table.len() { PAGE } else { 0 };
    let judged = ready(w, page_len, 0)?;
    if blocks.is_empty() || blocks.len() > 63 || !apart(blocks) {
        return Err(15);
    }
    if caller > IMPORT {
        return Err(18);
    }
    let full = has_room(&judged, caller);
    let r = &judged.record;
    let table = &mut w.scratch[..words];
    table.copy_from_slice(&w.table);
    let mut found = [0; 63];
    locate(table, blocks, &mut found[..blocks.len()]);
    let mut run = Run {
        table,
        slots: r.slots,
        hand: r.hand,
        newest: r.newest,
        counts: [0; 3],
    };
    for (place, (block, word)) in blocks.iter().zip(found).enumerate() {
        let met = match *block >= r.blocks {
            true => Err(7),
            false => run.place(*block, word, full),
        };
        if let Err(number) = met {
            w.counts = run.counts;
            w.met = [number, place as u32];
            return Ok(113);
        }
    }
    w.counts = run.counts;
    Ok(0)
}

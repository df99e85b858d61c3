//! What is done to table, record and images.

use super::record::{pack, Record};
use crate::image::PAGE;
use crate::world::{meta_pages, World};

/// A metadata page.
pub fn encode(stamp: u32, window: &[u32], rows: &[u32]) -> [u8; PAGE] {
    let mut page = [0u8; PAGE];
    page[0..4].copy_from_slice(&stamp.to_le_bytes());
    page[4..6].copy_from_slice(&(window.len() as u16).to_le_bytes());
    for (place, slot) in page[16..268].chunks_exact_mut(4).zip(window) {
        place.copy_from_slice(&slot.to_le_bytes());
    }
    for (entry, row) in page[512..2432]
        .chunks_exact_mut(8)
        .zip(rows.chunks_exact(2))
    {
        entry[0..4].copy_from_slice(&row[0].to_le_bytes());
        entry[4] = (row[1] % 8) as u8;
    }
    page
}

/// Stores metadata page p with this stamp, and names it.
pub fn store_stamped(w: &mut World, r: &Record, stamp: u32, p: usize) {
    let rows = &w.table[480 * p..w.table.len().min(480 * p + 480)];
    let page = encode(stamp, &r.window[..r.count], rows);
    w.ssd[PAGE * (1 + p)..PAGE * (2 + p)].copy_from_slice(&page);
    w.name(1, PAGE * (1 + p));
}

/// A metadata store: the next stamp, and nothing is unconfirmed.
pub fn store_meta(w: &mut World, r: &mut Record, p: usize) {
    r.newest += 1;
    r.unconfirmed = false;
    store_stamped(w, r, r.newest, p);
}

/// Where a slot's page begins.
pub fn data_at(r: &Record, slot: u32) -> usize {
    PAGE * (1 + meta_pages(r.slots) as usize + slot as usize)
}

/// A slot is open for a caller: row and window.
pub fn join(w: &mut World, r: &mut Record, slot: u32, block: u32, caller: u32, flags: u32) {
    w.table[2 * slot as usize] = block;
    w.table[2 * slot as usize + 1] = flags;
    r.window[r.count] = slot;
    r.callers[r.count] = caller;
    r.count += 1;
}

/// Opens a slot for a caller: row, window, metadata store.
pub fn open(w: &mut World, r: &mut Record, slot: u32, block: u32, caller: u32, flags: u32) -> u32 {
    join(w, r, slot, block, caller, flags);
    store_meta(w, r, slot as usize / 240);
    pack(&mut w.record, r);
    w.slot = slot;
    101
}

/// Closes a slot whose page has landed.
pub fn close(w: &mut World, r: &mut Record, slot: u32) {
    w.table[2 * slot as usize + 1] -= 4;
    let at = r.window[..r.count].iter().position(|s| *s == slot).unwrap();
    r.window.copy_within(at + 1..r.count, at);
    r.callers.copy_within(at + 1..r.count, at);
    r.count -= 1;
    r.window[r.count] = 0;
    r.callers[r.count] = 0;
    r.unconfirmed = true;
}

/// Copies a dirty slot's page to its block, marks it clean, and names the block's page.
pub fn copy_out(w: &mut World, r: &Record, slot: u32) {
    let (from, to) = (data_at(r, slot), PAGE * w.table[2 * slot as usize] as usize);
    w.hdd[to..to + PAGE].copy_from_slice(&w.ssd[from..from + PAGE]);
    w.table[2 * slot as usize + 1] -= 2;
    w.name(2, to);
}

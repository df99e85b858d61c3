//! Numbers 3 to 7: record, lengths, table, phase and block; 18 between 6 and 7, and 17 and 11: room for another open slot.

use super::record::{open_by_import, record_ok, unpack, Record};
use crate::image::PAGE;
use crate::world::{meta_pages, World, IMPORT, READY};

pub fn lengths_ok(w: &World, slots: u32, blocks: u32) -> bool {
    w.ssd.len() == PAGE * (1 + meta_pages(slots) as usize + slots as usize)
        && w.hdd.len() == PAGE * blocks as usize
        && w.table.len() == 2 * slots as usize
}

/// What one pass over the table finds: writing rows, rows with a block, and the lowest row of the block asked for.
struct Scan {
    writing: u32,
    busy: u32,
    at: Option<u32>,
}

fn scan(table: &[u32], blocks: u32, block: u32) -> Option<Scan> {
    let mut found = Scan {
        writing: 0,
        busy: 0,
        at: None,
    };
    for (s, row) in table.chunks_exact(2).enumerate() {
        let (b, flags) = (row[0], row[1]);
        let legal = match flags {
            0 => b == 0,
            _ => flags < 16 && flags % 2 == 1 && b < blocks,
        };
        if !legal {
            return None;
        }
        found.writing += flags / 4 % 2;
        found.busy += (flags != 0) as u32;
        if found.at.is_none() && flags % 2 == 1 && b == block {
            found.at = Some(s as u32);
        }
    }
    Some(found)
}

/// Whether rows, window and phase agree.
fn agrees(table: &[u32], r: &Record, scan: &Scan) -> bool {
    let window = &r.window[..r.count];
    let row = |s: u32| (table[2 * s as usize], table[2 * s as usize + 1]);
    match r.phase {
        0 => r.count == 0 && scan.busy == 0,
        1 => r.count != 0 && scan.writing == 0 && window.iter().all(|s| row(*s) == (0, 0)),
        _ => scan.writing as usize == r.count && window.iter().all(|s| row(*s).1 / 4 % 2 == 1),
    }
}

/// What a judged call goes on with: the record, how many rows are writing, and the block's slot.
pub struct Judged {
    pub record: Record,
    pub writing: u32,
    pub at: Option<u32>,
}

/// 3 to 5.
pub fn sound(w: &World, page_len: usize, block: u32) -> Result<Judged, u32> {
    let record = unpack(&w.record).ok_or(3u32)?;
    if !record_ok(&record) {
        return Err(3);
    }
    if !lengths_ok(w, record.slots, record.blocks) || page_len != PAGE {
        return Err(4);
    }
    let found = scan(&w.table, record.blocks, block).ok_or(5u32)?;
    if !agrees(&w.table, &record, &found) {
        return Err(5);
    }
    Ok(Judged {
        record,
        writing: found.writing,
        at: found.at,
    })
}

/// 3 to 6.
pub fn ready(w: &World, page_len: usize, block: u32) -> Result<Judged, u32> {
    let judged = sound(w, page_len, block)?;
    if judged.record.phase != READY {
        return Err(6);
    }
    Ok(judged)
}

/// 3 to 6, and 7 where a block is named.
pub fn serves(w: &World, page_len: usize, block: Option<u32>) -> Result<Judged, u32> {
    let judged = ready(w, page_len, block.unwrap_or(0))?;
    if block.is_some_and(|b| b >= judged.record.blocks) {
        return Err(7);
    }
    Ok(judged)
}

/// 3 to 6, 18 of the caller, and 7 of the block.
pub fn called(w: &World, block: u32, caller: u32) -> Result<Judged, u32> {
    let judged = ready(w, PAGE, block)?;
    if caller > IMPORT {
        return Err(18);
    }
    if block >= judged.record.blocks {
        return Err(7);
    }
    Ok(judged)
}

/// 3 to 6, where no block is looked for.
pub fn judged(w: &World) -> Result<Record, u32> {
    Ok(ready(w, PAGE, 0)?.record)
}

/// 17 and 11: whether a caller may have another slot open.
pub fn room(judged: &Judged, caller: u32) -> Result<(), u32> {
    if import_full(&judged.record, caller) {
        return Err(17);
    }
    if judged.writing >= 63 {
        return Err(11);
    }
    Ok(())
}

fn import_full(r: &Record, caller: u32) -> bool {
    caller == IMPORT && open_by_import(r) >= 8
}

/// Whether a caller may have another slot open, where so many are.
pub fn has_room(r: &Record, writing: u32, caller: u32) -> bool {
    !import_full(r, caller) && writing < 63
}

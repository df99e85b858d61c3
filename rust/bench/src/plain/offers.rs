//! A list of blocks offered as one (document 02, N3): its blocks are found by one pass over the table, then each is offered on table and
//! record as by itself, to the first that would be refused, would copy out, or would store another metadata page; one store at the end.

use super::calls::offer;
use super::judge::{has_room, judged};
use super::list::locate;
use super::moves::{join, store_meta};
use super::record::{pack, Record};
use super::sweep::{clear_used, sweep, wrapped};
use crate::world::{World, IMPORT};

/// What is done at a place: nothing, a clean block's slot is opened with these flags, or one that a sweep took after so many; or the list
/// ends before it.
enum Place {
    Overwrite,
    Clean(u32, u32),
    Swept(u32, u32),
    End,
}

pub fn apart(blocks: &[u32]) -> bool {
    let later = |(i, block): (usize, &u32)| !blocks[i + 1..].contains(block);
    blocks.iter().enumerate().all(later)
}

/// The lowest slot of a block; `word` is what the pass found before the first place, and a row that an earlier place took is no longer
/// the block's.
pub fn slot_of(table: &[u32], block: u32, word: u32) -> Option<u32> {
    let holds = |row: &[u32]| row[0] == block && row[1] % 2 == 1;
    let at = word.checked_sub(1)?;
    if holds(&table[2 * at as usize..][..2]) {
        return Some(at);
    }
    let at = table.chunks_exact(2).position(holds)?;
    Some(at as u32)
}

/// What a single offer would do, of a table and a record with stamps to spare.
fn place(table: &[u32], r: &Record, block: u32, word: u32, caller: u32) -> Place {
    if block >= r.blocks {
        return Place::End;
    }
    let at = slot_of(table, block, word);
    let flags = at.map_or(0, |slot| table[2 * slot as usize + 1]);
    if flags / 2 % 4 == 1 {
        return Place::Overwrite;
    }
    if flags / 4 % 2 == 1 || !has_room(r, r.count as u32, caller) {
        return Place::End;
    }
    if let Some(slot) = at {
        return Place::Clean(slot, flags + 6);
    }
    let is_dirty = |slot: u32| table[2 * slot as usize + 1] / 2 % 2 == 1;
    match sweep(table, r.slots, r.hand) {
        Some((slot, passed)) if !is_dirty(slot) => Place::Swept(slot, passed),
        _ => Place::End,
    }
}

#[inline(never)]
pub fn offer_list(w: &mut World, blocks: &[u32], caller: u32) -> Result<u32, u32> {
    let mut r = judged(w)?;
    if blocks.is_empty() || blocks.len() > 63 || !apart(blocks) {
        return Err(15);
    }
    if caller > IMPORT {
        return Err(18);
    }
    let mut words = [0; 63];
    locate(&w.table, blocks, &mut words[..blocks.len()]);
    let mut first = None;
    let mut dealt = 0;
    for (block, word) in blocks.iter().zip(words) {
        let (slot, flags, passed, hand) = match place(&w.table, &r, *block, word, caller) {
            Place::End => break,
            Place::Overwrite => {
                dealt += 1;
                continue;
            }
            Place::Clean(slot, flags) => (slot, flags, 0, r.hand),
            Place::Swept(slot, passed) => (slot, 7, passed, wrapped(slot + 1, r.slots)),
        };
        if first.is_some_and(|page| page != slot / 240) {
            break;
        }
        if r.newest >= 4_294_967_232 {
            return Err(13);
        }
        first = Some(slot / 240);
        clear_used(&mut w.table, &r, passed);
        r.hand = hand;
        join(w, &mut r, slot, *block, caller, flags);
        dealt += 1;
    }
    if dealt == 0 {
        return offer(w, blocks[0], caller);
    }
    w.dealt = dealt;
    match first {
        Some(page) => store_meta(w, &mut r, page as usize),
        None => w.name_none(),
    }
    pack(&mut w.record, &r);
    Ok(112)
}

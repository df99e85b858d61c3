//! An offer or a fetch that sweeps for a slot.

use super::judge::{room, Judged};
use super::moves::{copy_out, open};
use super::record::{pack, Record};
use crate::world::World;

/// The slot that a sweep takes, and how many it passed.
pub fn sweep(table: &[u32], slots: u32, hand: u32) -> Option<(u32, u32)> {
    let mut closed = None;
    for k in 0..slots {
        let s = wrapped(hand + k, slots);
        let flags = table[2 * s as usize + 1];
        if flags / 4 % 2 == 0 && flags / 8 % 2 == 0 {
            return Some((s, k));
        }
        if closed.is_none() && flags / 4 % 2 == 0 {
            closed = Some((s, slots));
        }
    }
    closed
}

pub fn wrapped(s: u32, slots: u32) -> u32 {
    if s < slots {
        s
    } else {
        s - slots
    }
}

/// Clears the used flags of the closed slots that a sweep passed.
pub fn clear_used(table: &mut [u32], r: &Record, passed: u32) {
    for k in 0..passed {
        let f = &mut table[2 * wrapped(r.hand + k, r.slots) as usize + 1];
        if *f / 4 % 2 == 0 && *f / 8 % 2 == 1 {
            *f -= 8;
        }
    }
}

/// 17, or 11 to 13, or "copied out", or the slot that is opened with these flags.
pub fn sweep_for(
    w: &mut World,
    judged: Judged,
    block: u32,
    caller: u32,
    flags: u32,
) -> Result<u32, u32> {
    room(&judged, caller)?;
    let mut r = judged.record;
    let (slot, passed) = sweep(&w.table, r.slots, r.hand).ok_or(12u32)?;
    let dirty = w.table[2 * slot as usize + 1] / 2 % 2 == 1;
    if !dirty && r.newest >= 4_294_967_232 {
        return Err(13);
    }
    clear_used(&mut w.table, &r, passed);
    if dirty {
        copy_out(w, &r, slot);
        r.hand = slot;
        pack(&mut w.record, &r);
        return Ok(103);
    }
    r.hand = wrapped(slot + 1, r.slots);
    Ok(open(w, &mut r, slot, block, caller, flags))
}

//! The calls of a ready box: the result code, or a refusal's number as the error.

use super::judge::{called, room, serves};
use super::moves::{close, copy_out, data_at, open, store_meta};
use super::record::pack;
use super::sweep::sweep_for;
use crate::image::PAGE;
use crate::world::World;

type Answer = Result<u32, u32>;

fn flags_at(w: &World, slot: u32) -> u32 {
    w.table[2 * slot as usize + 1]
}

#[inline(never)]
pub fn offer(w: &mut World, block: u32, caller: u32) -> Answer {
    let mut judged = called(w, block, caller)?;
    let Some(slot) = judged.at else {
        return sweep_for(w, judged, block, caller, 7);
    };
    let flags = flags_at(w, slot);
    if flags / 4 % 2 == 1 {
        return Err(8);
    }
    if flags / 2 % 2 == 1 {
        pack(&mut w.record, &judged.record);
        w.name_none();
        return Ok(102);
    }
    room(&judged, caller)?;
    if judged.record.newest >= 4_294_967_232 {
        return Err(13);
    }
    Ok(open(w, &mut judged.record, slot, block, caller, flags + 6))
}

#[inline(never)]
pub fn fetch(w: &mut World, block: u32, caller: u32) -> Answer {
    let judged = called(w, block, caller)?;
    match judged.at {
        None => sweep_for(w, judged, block, caller, 5),
        Some(slot) if flags_at(w, slot) / 2 % 4 == 3 => Err(8),
        Some(_) => Err(10),
    }
}

#[inline(never)]
pub fn land(w: &mut World, block: u32, page: &[u8]) -> Answer {
    let judged = serves(w, page.len(), Some(block))?;
    let (mut r, slot) = (judged.record, judged.at.ok_or(9u32)?);
    let flags = flags_at(w, slot);
    if flags / 2 % 2 == 0 {
        return Err(9);
    }
    let to = data_at(&r, slot);
    w.ssd[to..to + PAGE].copy_from_slice(page);
    w.name(1, to);
    if flags / 4 % 2 == 1 {
        close(w, &mut r, slot);
    }
    w.table[2 * slot as usize + 1] |= 8;
    pack(&mut w.record, &r);
    Ok(0)
}

#[inline(never)]
pub fn land_fetch(w: &mut World, block: u32) -> Answer {
    let judged = serves(w, PAGE, Some(block))?;
    let (mut r, slot) = (judged.record, judged.at.ok_or(9u32)?);
    let flags = flags_at(w, slot);
    if flags / 4 % 2 == 0 || flags / 2 % 2 == 1 {
        return Err(9);
    }
    let (to, from) = (data_at(&r, slot), PAGE * block as usize);
    w.ssd[to..to + PAGE].copy_from_slice(&w.hdd[from..from + PAGE]);
    w.name(1, to);
    close(w, &mut r, slot);
    pack(&mut w.record, &r);
    Ok(0)
}

#[inline(never)]
pub fn look_up(w: &mut World, block: u32) -> Answer {
    let Some(slot) = serves(w, PAGE, Some(block))?.at else {
        return Ok(107);
    };
    w.slot = slot;
    let flags = &mut w.table[2 * slot as usize + 1];
    match *flags / 2 % 4 {
        2 => Ok(111),
        3 => Ok(110),
        dirty => {
            *flags |= 8;
            Ok(108 + dirty)
        }
    }
}

#[inline(never)]
pub fn view(w: &mut World, block: u32) -> Answer {
    let judged = serves(w, PAGE, Some(block))?;
    match judged.at {
        Some(slot) if flags_at(w, slot) / 4 % 2 == 0 => w.name(1, data_at(&judged.record, slot)),
        _ => w.name(2, PAGE * block as usize),
    }
    Ok(0)
}

#[inline(never)]
pub fn write_back(w: &mut World, block: u32) -> Answer {
    let judged = serves(w, PAGE, Some(block))?;
    let flags = judged.at.map_or(0, |slot| flags_at(w, slot));
    if flags / 4 % 2 == 1 {
        return Err(8);
    }
    pack(&mut w.record, &judged.record);
    match judged.at {
        Some(slot) if flags / 2 % 2 == 1 => {
            copy_out(w, &judged.record, slot);
            Ok(0)
        }
        _ => {
            w.name_none();
            Ok(106)
        }
    }
}

#[inline(never)]
pub fn flush(w: &mut World) -> Answer {
    let mut r = serves(w, PAGE, None)?.record;
    if !r.unconfirmed {
        pack(&mut w.record, &r);
        w.name_none();
        return Ok(106);
    }
    if r.newest == u32::MAX {
        return Err(13);
    }
    store_meta(w, &mut r, 0);
    pack(&mut w.record, &r);
    Ok(0)
}

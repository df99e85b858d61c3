//! Format, and the steps of a format and of a recovery.

use super::judge::{lengths_ok, sound};
use super::moves::{store_meta, store_stamped};
use super::record::{begun, pack, within, Record};
use crate::image::PAGE;
use crate::world::{meta_pages, World, READY, RECORD, RECOVERING};
use std::io::Write;

#[inline(never)]
pub fn format(w: &mut World, slots: u32, blocks: u32) -> Result<u32, u32> {
    if !within(slots, blocks) {
        return Err(1);
    }
    if w.record.len() != RECORD {
        return Err(3);
    }
    if !lengths_ok(w, slots, blocks) {
        return Err(4);
    }
    w.table.fill(0);
    pack(&mut w.record, &begun(slots, blocks, 0, 0));
    Ok(0)
}

#[inline(never)]
pub fn step(w: &mut World) -> Result<u32, u32> {
    let mut r = sound(w, PAGE, 0)?.record;
    match r.phase {
        READY => return Err(6),
        RECOVERING if r.newest == u32::MAX => return Err(13),
        RECOVERING => recover(w, &mut r),
        _ => format_on(w, &mut r),
    }
    pack(&mut w.record, &r);
    Ok(0)
}

/// A zero label page, the metadata pages with stamp 0, the label.
fn format_on(w: &mut World, r: &mut Record) {
    let pages = meta_pages(r.slots);
    if r.steps == 0 {
        w.ssd[..PAGE].fill(0);
        w.name(1, 0);
    } else if r.steps <= pages {
        store_stamped(w, r, 0, r.steps as usize - 1);
    } else {
        let mut page = [0u8; PAGE];
        let (slots, blocks) = (r.slots, r.blocks);
        write!(
            &mut page[..],
            "cache=lufuw\nlayout=1\nslots={slots}\nblocks={blocks}\n"
        )
        .unwrap();
        w.ssd[..PAGE].copy_from_slice(&page);
        w.name(1, 0);
        *r = begun(slots, blocks, 0, READY);
        return;
    }
    r.steps += 1;
}

/// Stores the lowest page with a pending slot; the slots of other pages stay pending.
fn recover(w: &mut World, r: &mut Record) {
    let page = r.window[..r.count].iter().map(|s| s / 240).min().unwrap();
    let mut left = [0; 63];
    let mut count = 0;
    for s in r.window[..r.count].iter().filter(|s| *s / 240 != page) {
        left[count] = *s;
        count += 1;
    }
    (r.window, r.count) = (left, count);
    store_meta(w, r, page as usize);
    if count == 0 {
        r.phase = READY;
    }
}

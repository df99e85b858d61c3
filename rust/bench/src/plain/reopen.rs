//! Reopening: the label, the rule of each metadata page, the rules between pages, and the table that is filled from them.

use super::judge::lengths_ok;
use super::record::{begun, pack, within, Record};
use crate::image::PAGE;
use crate::world::{meta_pages, World, READY, RECORD, RECOVERING};

/// A number of a label's line, and what comes after it.
fn number(bytes: &[u8]) -> Option<(u32, &[u8])> {
    let end = bytes.iter().take(9).position(|b| *b == b'\n')?;
    let digits = &bytes[..end];
    if end == 0 || digits[0] == b'0' || !digits.iter().all(u8::is_ascii_digit) {
        return None;
    }
    let value = digits.iter().fold(0, |n, d| 10 * n + (d - b'0') as u32);
    Some((value, &bytes[end + 1..]))
}

fn label(ssd: &[u8]) -> Option<(u32, u32)> {
    let page = ssd.get(..PAGE)?;
    let (slots, rest) = number(page.strip_prefix(b"cache=lufuw\nlayout=1\nslots=")?)?;
    let (blocks, rest) = number(rest.strip_prefix(b"blocks=")?)?;
    (within(slots, blocks) && zero(rest)).then_some((slots, blocks))
}

fn word(bytes: &[u8]) -> u32 {
    u32::from_le_bytes(bytes.try_into().unwrap())
}

fn zero(bytes: &[u8]) -> bool {
    bytes.iter().all(|b| *b == 0)
}

fn meta(ssd: &[u8], p: usize) -> &[u8] {
    &ssd[PAGE * (1 + p)..PAGE * (2 + p)]
}

/// The 240 entries of a metadata page: block and flags, and whether the rest is zero.
fn entries(page: &[u8]) -> impl Iterator<Item = (u32, u8, bool)> + '_ {
    page[512..2432]
        .chunks_exact(8)
        .map(|e| (word(&e[0..4]), e[4], zero(&e[5..8])))
}

/// The rule of a single metadata page, its fields in the order of the page table.
fn page_ok(page: &[u8], p: u32, slots: u32, blocks: u32) -> bool {
    let count = page[4] as usize + 256 * page[5] as usize;
    if count > 63 || (word(&page[0..4]) == 0 && count != 0) || !zero(&page[6..16]) {
        return false;
    }
    let slot = |k: usize| word(&page[16 + 4 * k..20 + 4 * k]);
    if !(0..count).all(|k| slot(k) < slots && (k + 1..count).all(|m| slot(k) != slot(m))) {
        return false;
    }
    if !zero(&page[16 + 4 * count..512]) {
        return false;
    }
    let legal = |(i, (block, flags, rest)): (usize, (u32, u8, bool))| {
        let pair = match flags {
            0 => block == 0,
            _ => flags <= 7 && flags % 2 == 1 && block < blocks,
        };
        pair && rest && (240 * p + (i as u32) < slots || flags == 0)
    };
    entries(page).enumerate().all(legal) && zero(&page[2432..])
}

/// Whether no block is in two valid entries: a bit for each block, over ranges of 524,288 blocks, page by page.
fn none_twice(ssd: &[u8], slots: u32, blocks: u32) -> bool {
    for from in (0..blocks).step_by(524_288) {
        let mut seen = [0u32; 16_384];
        for p in 0..meta_pages(slots) as usize {
            for (block, flags, _) in entries(meta(ssd, p)) {
                if flags % 2 == 1 && block >= from && block - from < 524_288 {
                    let k = (block - from) as usize;
                    if seen[k / 32] >> (k % 32) & 1 == 1 {
                        return false;
                    }
                    seen[k / 32] |= 1 << (k % 32);
                }
            }
        }
    }
    true
}

/// The page with the newest stamp, if the pages keep every rule.
fn newest_page(ssd: &[u8], slots: u32, blocks: u32) -> Option<usize> {
    let pages = meta_pages(slots) as usize;
    let stamp = |p: usize| word(&meta(ssd, p)[0..4]);
    let apart = |p: usize| stamp(p) == 0 || (p + 1..pages).all(|q| stamp(p) != stamp(q));
    let legal = (0..pages).all(|p| page_ok(meta(ssd, p), p as u32, slots, blocks))
        && (0..pages).all(apart)
        && none_twice(ssd, slots, blocks);
    let newest = (0..pages).max_by_key(|p| (stamp(*p), usize::MAX - p))?;
    legal.then_some(newest)
}

/// Fills the table; false if a slot of the window has no valid, writing entry.
fn fill(table: &mut [u32], ssd: &[u8], r: &Record) -> bool {
    let window = &r.window[..r.count];
    let entry = |s: u32| {
        entries(meta(ssd, s as usize / 240))
            .nth(s as usize % 240)
            .unwrap()
    };
    if !window
        .iter()
        .all(|s| entry(*s).1 % 2 == 1 && entry(*s).1 / 4 % 2 == 1)
    {
        return false;
    }
    for (p, rows) in table.chunks_mut(480).enumerate() {
        for (i, (row, (block, flags, _))) in rows
            .chunks_exact_mut(2)
            .zip(entries(meta(ssd, p)))
            .enumerate()
        {
            let slot = (240 * p + i) as u32;
            let dropped = flags % 2 == 0 || (flags / 4 % 2 == 1 && window.contains(&slot));
            let kept = if dropped {
                [0, 0]
            } else {
                [block, flags as u32 % 4]
            };
            row.copy_from_slice(&kept);
        }
    }
    true
}

#[inline(never)]
pub fn reopen(w: &mut World) -> Result<u32, u32> {
    let (slots, blocks) = label(&w.ssd).ok_or(2u32)?;
    if w.record.len() != RECORD {
        return Err(3);
    }
    if !lengths_ok(w, slots, blocks) {
        return Err(4);
    }
    let newest = newest_page(&w.ssd, slots, blocks).ok_or(5u32)?;
    let page = meta(&w.ssd, newest);
    let count = page[4] as usize;
    let phase = if count == 0 { READY } else { RECOVERING };
    let mut r = begun(slots, blocks, word(&page[0..4]), phase);
    r.count = count;
    for (s, bytes) in r.window[..count]
        .iter_mut()
        .zip(page[16..268].chunks_exact(4))
    {
        *s = word(bytes);
    }
    if !fill(&mut w.table, &w.ssd, &r) {
        return Err(5);
    }
    pack(&mut w.record, &r);
    Ok(0)
}

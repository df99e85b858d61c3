//! The record as a struct, its 134 words, and number 3.

use crate::world::{meta_pages, CALLERS, IMPORT, RECORD, RECOVERING, WINDOW};

pub struct Record {
    pub slots: u32,
    pub blocks: u32,
    pub hand: u32,
    pub newest: u32,
    pub phase: u32,
    pub steps: u32,
    pub unconfirmed: bool,
    pub window: [u32; 63],
    pub count: usize,
    pub callers: [u32; 63],
}

/// A record with an empty window.
pub fn begun(slots: u32, blocks: u32, newest: u32, phase: u32) -> Record {
    Record {
        slots,
        blocks,
        hand: 0,
        newest,
        phase,
        steps: 0,
        unconfirmed: false,
        window: [0; 63],
        count: 0,
        callers: [0; 63],
    }
}

pub fn unpack(words: &[u32]) -> Option<Record> {
    let words: &[u32; RECORD] = words.try_into().ok()?;
    let (phase, steps) = (words[4], words[5]);
    if phase > 2 || (phase != 0 && steps != 0) || words[6] > 1 {
        return None;
    }
    let mut window = [0; 63];
    window.copy_from_slice(&words[WINDOW..CALLERS]);
    let mut callers = [0; 63];
    callers.copy_from_slice(&words[CALLERS..]);
    Some(Record {
        slots: words[0],
        blocks: words[1],
        hand: words[2],
        newest: words[3],
        phase,
        steps,
        unconfirmed: words[6] == 1,
        window,
        count: words[7] as usize,
        callers,
    })
}

pub fn pack(words: &mut [u32], r: &Record) {
    words[..8].copy_from_slice(&[
        r.slots,
        r.blocks,
        r.hand,
        r.newest,
        r.phase,
        r.steps,
        r.unconfirmed as u32,
        r.count as u32,
    ]);
    words[WINDOW..CALLERS].copy_from_slice(&r.window);
    words[CALLERS..].copy_from_slice(&r.callers);
}

pub fn within(slots: u32, blocks: u32) -> bool {
    (1..=57_600).contains(&slots) && (1..=16_777_216).contains(&blocks)
}

/// Whether every number of the record is in its range.
pub fn record_ok(r: &Record) -> bool {
    if !within(r.slots, r.blocks) || r.hand >= r.slots || r.count > 63 {
        return false;
    }
    if r.phase == 0 && r.steps > meta_pages(r.slots) + 1 {
        return false;
    }
    let (window, past) = r.window.split_at(r.count);
    let apart = |(i, s): (usize, &u32)| *s < r.slots && !window[i + 1..].contains(s);
    window.iter().enumerate().all(apart) && past.iter().all(|s| *s == 0) && callers_ok(r)
}

/// Whether each place's caller is known, and 0 where it is pending or past the length.
fn callers_ok(r: &Record) -> bool {
    let named = if r.phase == RECOVERING { 0 } else { r.count };
    let (callers, past) = r.callers.split_at(named);
    callers.iter().all(|c| *c <= IMPORT) && past.iter().all(|c| *c == 0)
}

/// How many places are the import's.
pub fn open_by_import(r: &Record) -> usize {
    let callers = r.callers[..r.count].iter();
    callers.filter(|c| **c == IMPORT).count()
}

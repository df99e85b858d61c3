//! A long list of calls that a seed makes, on a box of 4 slots and 8 blocks: every block is read after each, and answers are
//! counted.

use crate::listed::Listed;
use crate::rig::Call;
use crate::say;
use crate::stored::named;
use ferjulm::{Block, Caller};
use std::collections::BTreeMap;

/// The next number of a linear congruential generator.
fn next(x: u64) -> u64 {
    (x % 2147483648 * 1103515245 + 12345) % 2147483648
}

/// The call that a number stands for: offers and landings are the most frequent.
fn picked(x: u64) -> Call {
    let block = Block((x / 65536 % 6) as u32);
    let name = (b'a' + (x / 256 % 26) as u8) as char;
    match x / 524288 % 16 {
        0..=3 => Call::Offer(block, Caller::People),
        4..=7 => Call::Land(block, named(&name.to_string())),
        8..=9 => Call::Fetch(block, Caller::People),
        10..=11 => Call::LandFetch(block),
        12..=13 => Call::LookUp(block),
        14 => Call::WriteBack(block),
        _ => Call::Flush,
    }
}

pub fn lines() -> Vec<String> {
    let mut list = Listed::formatted("2000 generated calls", 4, 8);
    let mut counts: BTreeMap<String, u32> = BTreeMap::new();
    let mut x = 1;
    for _ in 0..2000 {
        x = next(x);
        let said = say::said(list.b.make(&picked(x)));
        let answer = said.trim_end_matches(|c: char| c == ' ' || c.is_numeric());
        *counts.entry(answer.to_string()).or_default() += 1;
        list.b.check_reads();
    }
    let answers = [
        "announced",
        "overwrite",
        "copied out",
        "not cached",
        "clean in slot",
        "dirty in slot",
        "open for writing in slot",
        "open for fetch in slot",
        "done",
    ];
    let counts = answers.map(|answer| format!("{answer} {}", counts[answer]));
    list.lines.push(format!("{}; reads=ok", counts.join(", ")));
    list.lines
}

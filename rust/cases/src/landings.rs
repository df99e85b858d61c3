//! Document 02, N2: landing a write sets the used flag, landing a fetch does not; and what a file keeps by it that is saved every
//! minute among scans.

use crate::beside::Beside;
use crate::rig::{Answer, Call};
use crate::say;
use crate::stored::named;
use ferjulm::{Block, Caller, Geometry};

pub fn lines() -> Vec<String> {
    let title = [String::new(), "landings".to_string()].to_vec();
    [title, flags(), vec![saved(true), saved(false)]].concat()
}

/// Where the table has the flags of a block's row.
fn flags_at(b: &Beside, block: Block) -> usize {
    2 * b.rig.slot_of(block).expect("a block that has a slot").0 as usize + 1
}

/// A landing, with the flags before and after it.
fn landing(b: &mut Beside, text: &str) -> String {
    let call = Call::of(text);
    let (Call::Land(block, _) | Call::LandFetch(block)) = call else {
        panic!("no landing: {text}");
    };
    let at = flags_at(b, block);
    let before = b.rig.table[at];
    let said = say::said(b.make(&call));
    b.check_reads();
    let (after, left) = (b.rig.table[at], say::record(&b.rig.record));
    format!("flags {before}: {text} -> {said}, flags {after}; {left}; reads=ok")
}

/// Of a write: 7, 11, 15 and 3; of a fetch: 5, and 13, which no call leaves.
fn flags() -> Vec<String> {
    let mut b = Beside::formatted(Geometry::new(4, 8));
    let make = |b: &mut Beside, texts: &str| {
        texts.split(", ").for_each(|text| {
            b.make(&Call::of(text)).expect("a call that is served");
        })
    };
    let mut lines = Vec::new();
    make(&mut b, "offer 5");
    lines.push(landing(&mut b, "land 5 A"));
    lines.push(landing(&mut b, "land 5 B"));
    make(&mut b, "write back 5, offer 5");
    lines.push(landing(&mut b, "land 5 C"));
    make(&mut b, "flush");
    b.cut(|| 0xffff_ffff);
    make(&mut b, "reopen");
    lines.push(landing(&mut b, "land 5 D"));
    make(&mut b, "fetch 2");
    lines.push(landing(&mut b, "land fetch 2"));
    make(&mut b, "fetch 3");
    let at = flags_at(&b, Block(3));
    b.rig.table[at] |= 8;
    lines.push(landing(&mut b, "land fetch 3"));
    lines
}

/// Blocks 0 and 1 are saved 30 times, and after each time the next 3 of the other blocks are fetched. How often the file was
/// announced, overwritten and copied out, and where it is at the end: as the calls are, or, for the order before, with each
/// used flag put back that a landing has set.
fn saved(as_is: bool) -> String {
    let mut b = Beside::formatted(Geometry::new(8, 40));
    let (mut announced, mut overwritten, mut copied_out) = (0, 0, 0);
    for minute in 0..30 {
        for block in [0, 1].map(Block) {
            copied_out += opened(&mut b, &Call::Offer(block, Caller::People));
            let at = flags_at(&b, block);
            let flags = b.rig.table[at];
            announced += flags / 4 % 2;
            overwritten += 1 - flags / 4 % 2;
            b.make(&Call::Land(block, named("A"))).expect("a landing");
            if !as_is {
                b.rig.table[at] = 3 + flags / 8 % 2 * 8;
            }
        }
        for scanned in 0..3 {
            let block = Block(2 + (3 * minute + scanned) % 38);
            copied_out += opened(&mut b, &Call::Fetch(block, Caller::People));
            b.make(&Call::LandFetch(block)).expect("a landing");
        }
        b.check_reads();
    }
    let order = if as_is {
        ""
    } else {
        ", used by look-ups alone"
    };
    let slots = [0, 1].map(|block| b.rig.slot_of(Block(block)));
    let slots = say::list(slots.iter().flatten().map(|slot| slot.0.to_string()));
    format!(
        "a file of 2 blocks saved 30 times among scans of 3, 8 slots{order}: announced {announced}, overwritten {overwritten}, \
         copied out {copied_out}, in slots {slots}; reads=ok"
    )
}

/// Makes an offer or a fetch, again after each copy-out: how many there were.
fn opened(b: &mut Beside, call: &Call) -> u32 {
    let mut copied_out = 0;
    while b.make(call) == Ok(Answer::CopiedOut) {
        copied_out += 1;
    }
    copied_out
}

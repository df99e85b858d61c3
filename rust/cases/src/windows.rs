//! Boxes of 62, 63 and 64 slots, with as many of them open as a window can hold.

use crate::listed::Listed;
use crate::rig::{Answer, Call};
use crate::say;
use ferjulm::{Block, Caller, Slot};

pub fn lines() -> Vec<String> {
    [filled(62).lines, filled(63).lines, all_open()].concat()
}

/// Blocks 0 to 61 offered, one after the other.
fn opened(slots: u32) -> Listed {
    let mut list = Listed::formatted(&format!("window, {slots} slots"), slots, 70);
    let mut announced = 0;
    for block in 0..62 {
        let said = list.b.make(&Call::Offer(Block(block), Caller::People));
        announced += (said == Ok(Answer::Announced(Slot(block)))) as u32;
        list.b.check_reads();
    }
    let record = say::record(&list.b.rig.record);
    list.lines.push(format!(
        "offer 0 to 61 -> announced 0 to 61, reads=ok: {announced}; {record}"
    ));
    list
}

/// With 62 open, one more is opened where there is a slot, and is refused by 12 where not; with 63 open, by 11, even where a
/// dirty block could be copied out.
fn filled(slots: u32) -> Listed {
    opened(slots)
        .run("offer 62, offer 63, fetch 63, land 0 x, offer 63, offer 63, offer 64, look up 0")
}

/// A dirty block beside 63 open slots is written over; clean, it is not opened. Then 64 rows are open: no window can list
/// them, so it does not agree.
fn all_open() -> Vec<String> {
    let mut list = filled(64)
        .run("offer 0, land 0 y, write back 0, offer 0, fetch 0, land 62 z, offer 0, flush");
    list.lines.push("row 62 block 62 flags 7".to_string());
    list.spoilt("", "offer 64", |rig| {
        rig.table[124..126].copy_from_slice(&[62, 7])
    });
    list.lines
}

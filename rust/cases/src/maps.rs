//! Slot maps (document 02, N1): of 1, 59, 60 and 61 slots, of every flag, into buffers of several lengths, and before a box is ready.

use crate::listed::{refused, Listed};
use crate::mapped;
use crate::rig::word::{COUNT, WINDOW};
use crate::rig::{Call, Rig};
use ferjulm::Geometry;

pub fn lines() -> Vec<String> {
    [
        sized(1, "map 0, map 66, map 67, map 68"),
        sized(59, "map 66, map 67, map 68"),
        sized(60, "map 66, map 67, map 68"),
        sized(61, "map 67, map 133, map 134, map 135"),
        worked(),
        flags(),
        early(),
    ]
    .concat()
}

/// The map of a box, a line in bars for each of its own.
fn shown(rig: &Rig) -> impl Iterator<Item = String> {
    mapped::lines(&rig.table)
        .into_iter()
        .map(|line| format!("|{line}|"))
}

/// A box with a block in its first slot and one in its last, and its map into several buffers.
fn sized(slots: u32, maps: &str) -> Vec<String> {
    let mut list = Listed::formatted(&format!("map, {slots} slots"), slots, 70).run("offer 5");
    list.b.rig.set(crate::rig::word::HAND, slots - 1);
    let mut list = list.run("fetch 6").run(maps);
    list.lines.extend(shown(&list.b.rig));
    list.lines
}

/// All five letters by calls, on 61 slots: the map changes nothing between them.
fn worked() -> Vec<String> {
    let mut list = Listed::formatted("map, worked", 61, 70)
        .run("offer 1, land 1 A, map 134, fetch 2, land fetch 2, offer 3, fetch 4, look up 2, map 134, flush, map 133");
    list.lines.extend(shown(&list.b.rig));
    list.lines
}

/// Every legal sum of flags, used or not; those that no call leaves too.
fn flags() -> Vec<String> {
    const FLAGS: [u32; 9] = [0, 1, 3, 5, 7, 9, 11, 13, 15];
    let mut list = Listed::formatted("map, every flag", 9, 9);
    let mut rig = list.b.rig.clone();
    let mut open = 0;
    for (slot, flags) in FLAGS.into_iter().enumerate() {
        rig.table[2 * slot..][..2].copy_from_slice(&[slot as u32, flags]);
        if flags & 4 == 4 {
            rig.set(WINDOW + open, slot as u32);
            open += 1;
        }
    }
    rig.set(COUNT, open as u32);
    let said = crate::say::said(rig.make(&Call::Map(67)).said);
    list.lines
        .push(format!("flags {FLAGS:?}: map 67 -> {said}"));
    list.lines.extend(shown(&rig));
    list.lines
}

/// While formatting and while mending it is 6, however long the buffer; and 3, 4 and 5 come before 14.
fn early() -> Vec<String> {
    let geometry = Geometry::new(4, 8);
    let mut rig = Rig::unformatted(geometry);
    let mut lines = vec![String::new(), "map, refused".to_string()];
    rig.make(&Call::Format(geometry)).said.expect("a format");
    for room in ["map 67", "map 0"] {
        lines.push(format!(
            "formatting: {}",
            refused(rig.clone(), room, &Call::of(room))
        ));
    }
    rig.finish();
    rig.make(&Call::of("offer 5")).said.expect("an offer");
    let mut mending = rig.clone();
    mending.forget(|| 7);
    mending.make(&Call::Reopen).said.expect("a reopening");
    for room in ["map 67", "map 0"] {
        lines.push(format!(
            "mending: {}",
            refused(mending.clone(), room, &Call::of(room))
        ));
    }
    let mut spoilt = |name: &str, spoil: fn(&mut Rig)| {
        let mut rig = rig.clone();
        spoil(&mut rig);
        lines.push(format!(
            "{name}: {}",
            refused(rig, "map 66", &Call::of("map 66"))
        ));
    };
    spoilt("window 2", |rig| rig.set(COUNT, 2));
    spoilt("no HDD", |rig| rig.images.hdd.clear());
    spoilt("flags 2", |rig| rig.table[3] = 2);
    spoilt("as it was", |_| ());
    lines
}

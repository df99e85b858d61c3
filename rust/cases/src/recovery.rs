//! Recovery over two and three metadata pages, cut before and after each of its stores.

use crate::beside::Beside;
use crate::rig::Call;
use crate::say;
use crate::stored::{page, LANDED_PAGES};
use ferjulm::{Block, Caller, Geometry};

pub fn lines() -> Vec<String> {
    let two = Geometry::new(241, 250);
    let three = Geometry::new(481, 490);
    let mut lines = cuts(two, &[3, 7], 2);
    lines.extend(cuts(three, &[3, 250], 3));
    lines
}

/// A box with every slot offered in turn: block s in slot s, all landed but `open` and the last; the last but one is landed
/// after the last was offered, so that no metadata store has followed. Then power fails.
fn broken(geometry: Geometry, open: &[u32]) -> Beside {
    let mut b = Beside::formatted(geometry);
    let last = geometry.slots - 1;
    for block in 0..=last {
        b.make(&Call::Offer(Block(block), Caller::People))
            .expect("an offer");
        if block < last - 1 && !open.contains(&block) {
            land(&mut b, block);
        }
    }
    land(&mut b, last - 1);
    b.cut(|| 0xffff_ffff);
    b
}

fn land(b: &mut Beside, block: u32) {
    b.make(&Call::Land(Block(block), page(LANDED_PAGES + block as u64)))
        .expect("a landing");
}

/// A line for each store of the recovery and for each side of it.
fn cuts(geometry: Geometry, open: &[u32], steps: u32) -> Vec<String> {
    let mut lines = Vec::new();
    for step in 1..=steps {
        for arrives in [false, true] {
            let mut b = broken(geometry, open);
            let first = reopened(&mut b);
            for _ in 1..step {
                b.make(&Call::Step).expect("a step");
            }
            b.cut_in(&Call::Step, arrives, || 0);
            let side = if arrives { "after" } else { "before" };
            let second = reopened(&mut b);
            let (took, newest) = (b.recover(), b.rig.record.newest());
            lines.push(format!(
                "mending {} slots: {first}; cut {side} store {step}: {second}, steps {took}, newest {newest}",
                geometry.slots
            ));
        }
    }
    lines
}

/// Reopens: what is pending, and the newest stamp.
fn reopened(b: &mut Beside) -> String {
    b.make(&Call::Reopen).expect("no reopening is refused");
    let pending = say::slots(b.rig.record.window());
    format!("pending {pending} at stamp {}", b.rig.record.newest())
}

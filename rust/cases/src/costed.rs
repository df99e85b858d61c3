//! What an import would cost (document 02, N8), against really doing it on a copy of the box: single offers, each repeated after a
//! copy-out and landed directly.

use crate::call::{Answer, Call, Made};
use crate::place::Memory;
use crate::rig::Rig;
use crate::stored::page;
use ferjulm::{Block, Caller, Cost, Counts, Geometry, Image, Place, Refusal, PAGE};

/// What stands in a scratch table before.
const UNWRITTEN: u32 = 0xa5a5_a5a5;

/// The largest SSD image that is compared whole after each call of an import.
const COMPARED: usize = 1 << 20;

/// Asks with a scratch table of so many words more than the table. The answer is what really doing it stores and meets, and the scratch
/// table its table; a refusal writes no word.
pub fn cost(rig: &mut Rig, blocks: &[Block], caller: Caller, more: isize) -> Result<(), Refusal> {
    let words = rig
        .table
        .len()
        .checked_add_signed(more)
        .expect("a length of a scratch table");
    let mut scratch = vec![UNWRITTEN; words];
    match rig.cache().cost(blocks, caller, &mut scratch) {
        Ok(cost) => {
            let (done, table) = really(rig, blocks, caller);
            assert_eq!(cost, done, "{blocks:?} by {caller:?}");
            assert!(
                scratch == table,
                "the scratch table of {blocks:?} by {caller:?}"
            );
            Ok(())
        }
        Err(refusal) => {
            assert!(
                scratch.iter().all(|word| *word == UNWRITTEN),
                "{refusal}: the scratch table"
            );
            Err(refusal)
        }
    }
}

/// An import really made, on a copy: its stores by kind, the refusal that it meets, and the table that it leaves.
pub fn really(rig: &Rig, blocks: &[Block], caller: Caller) -> (Cost, Vec<u32>) {
    let mut copy = rig.clone();
    let mut counts = Counts::default();
    for (place, block) in blocks.iter().enumerate() {
        if let Err(refusal) = import(&mut copy, *block, caller, &mut counts) {
            let met = Cost::Met {
                refusal,
                place,
                counts,
            };
            return (met, copy.table);
        }
    }
    (Cost::Counted(counts), copy.table)
}

/// One block: offered, once more after "copied out", and landed.
fn import(rig: &mut Rig, block: Block, caller: Caller, counts: &mut Counts) -> Result<(), Refusal> {
    let offer = Call::Offer(block, caller);
    let first = made(rig, &offer, counts);
    if first.said? == Answer::CopiedOut {
        made(rig, &offer, counts).said?;
    }
    let land = Call::Land(block, page(u64::from(block.0) + 900_000));
    let landed = made(rig, &land, counts).said;
    landed.expect("a landing after an offer");
    Ok(())
}

/// Makes a call, and counts the page that it stored by where that is.
fn made(rig: &mut Rig, call: &Call, counts: &mut Counts) -> Made {
    let made = if rig.images.ssd.len() <= COMPARED {
        rig.make(call)
    } else {
        rig.make_told(call)
    };
    if let Some(stored) = made.stored {
        *kind(counts, rig.record.geometry(), stored) += 1;
    }
    made
}

/// The count that a page belongs to: of the HDD copy-outs, of the SSD's first pages metadata, else data.
fn kind(counts: &mut Counts, geometry: Geometry, stored: Place) -> &mut u32 {
    let page = stored.offset / PAGE as u64;
    match stored.image {
        Image::Hdd => &mut counts.copy_outs,
        Image::Ssd if page <= u64::from(geometry.slots.div_ceil(240)) => &mut counts.metadata,
        Image::Ssd => &mut counts.data,
    }
}

/// It changes nothing in memory.
pub fn check(before: &Memory, after: &Rig, call: &Call) {
    if let Call::Cost(..) = call {
        let same = before.table == after.table && before.record == after.record;
        assert!(same, "{call:?} changed memory");
    }
}

//! What a cut takes from no block outside the newest stored window: its slot and its page.

use crate::rig::Rig;
use crate::stored::Metas;
use ferjulm::{Block, Geometry, Images, Slot, PAGE};

/// A block's slot and page just before a cut.
#[derive(Clone)]
pub struct Kept {
    block: Block,
    slot: Option<Slot>,
    page: Vec<u8>,
}

/// Slot and page of every block outside the newest stored window. A box that serves has them in memory; from a cut till a
/// reopening is finished they are "those of its valid entry if it is outside and has one, else none and its HDD page".
pub fn outside(rig: &mut Rig, geometry: Geometry, serves: bool) -> Vec<Kept> {
    let metas = Metas::read(geometry, &rig.images.ssd);
    let blocks = (0..geometry.blocks).map(Block);
    let outside = blocks.filter(|&block| metas.outside(block));
    outside
        .map(|block| {
            if serves {
                in_memory(rig, block)
            } else {
                by_entry(&rig.images, geometry, &metas, block)
            }
        })
        .collect()
}

fn in_memory(rig: &mut Rig, block: Block) -> Kept {
    let slot = rig.slot_of(block);
    let cache = rig.cache();
    let view = cache.view(block).expect("a view of a ready box");
    let page = view.page.to_vec();
    Kept { block, slot, page }
}

fn by_entry(images: &Images<Vec<u8>>, geometry: Geometry, metas: &Metas, block: Block) -> Kept {
    let slot = metas.slot_of(block);
    let page = match slot {
        Some(slot) => &images.ssd[geometry.slot_at(slot)..],
        None => &images.hdd[geometry.block_at(block)..],
    };
    Kept {
        block,
        slot,
        page: page[..PAGE].to_vec(),
    }
}

impl Kept {
    /// "that reopening puts its row, if any, back at once": valid, not writing, with the stored dirty flag.
    pub fn check_row(&self, rig: &Rig, metas: &Metas) {
        if let Some(slot) = self.slot {
            let row = &rig.table[2 * slot.0 as usize..][..2];
            let (block, flags) = metas.entry(slot);
            assert_eq!(block, self.block.0, "the entry of {slot:?}");
            assert_eq!(row, [block, flags as u32 & 3], "the row of {slot:?}");
        }
    }

    /// "are also those when a reopening is next finished"
    pub fn check(&self, rig: &mut Rig) {
        let block = self.block;
        assert_eq!(rig.slot_of(block), self.slot, "the slot of {block:?}");
        let cache = rig.cache();
        let view = cache.view(block).expect("a view of a ready box");
        assert!(view.page == &self.page[..], "the page of {block:?}");
    }
}

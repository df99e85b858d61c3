//! Slot and block numbers, the lengths of what a box is lent, and its two images.

use crate::calls;
#[cfg(feature = "std")]
use std::{vec, vec::Vec};

/// Bytes of a page.
pub const PAGE: usize = 4096;

/// A slot number, counted from 0: a page of the SSD.
#[derive(Clone, Copy, Debug, PartialEq, Eq, PartialOrd, Ord, Hash)]
pub struct Slot(pub u32);

/// A block number, counted from 0: a page of the HDD.
#[derive(Clone, Copy, Debug, PartialEq, Eq, PartialOrd, Ord, Hash)]
#[repr(transparent)]
pub struct Block(pub u32);

impl Block {
    /// A list of blocks as the numbers that they are.
    pub(crate) fn numbers(blocks: &[Block]) -> &[u32] {
        // sound: a block is its number and nothing else
        unsafe { core::slice::from_raw_parts(blocks.as_ptr().cast(), blocks.len()) }
    }
}

/// How many slots and blocks a box has. Format refuses numbers outside the limits: 1 to 57,600 slots, 1 to 16,777,216 blocks.
#[derive(Clone, Copy, Debug, PartialEq, Eq)]
#[non_exhaustive]
pub struct Geometry {
    pub slots: u32,
    pub blocks: u32,
}

impl Geometry {
    /// A geometry of any numbers.
    pub const fn new(slots: u32, blocks: u32) -> Self {
        Geometry { slots, blocks }
    }

    /// The geometry that an SSD image's label tells, for images whose size is not known; none where reopening them would be
    /// refused by 2. Only the first page is read.
    pub fn of_label(ssd: &[u8]) -> Option<Self> {
        let (mut slots, mut blocks) = (0, 0);
        let code = calls::label(ssd, &mut slots, &mut blocks);
        (code == 0).then_some(Geometry::new(slots, blocks))
    }

    /// The number of metadata pages: slots / 240 rounded up.
    pub fn metadata_pages(self) -> usize {
        (self.slots as usize).div_ceil(240)
    }

    /// Bytes of the SSD image: a label page, the metadata pages, and a page for each slot.
    pub fn ssd_bytes(self) -> usize {
        self.slot_at(Slot(self.slots))
    }

    /// Bytes of the HDD image.
    pub fn hdd_bytes(self) -> usize {
        self.block_at(Block(self.blocks))
    }

    /// Words of the table: two for each slot.
    pub fn table_words(self) -> usize {
        2 * self.slots as usize
    }

    /// Bytes of a slot map: a line of 67 for each 60 slots.
    pub fn map_bytes(self) -> usize {
        67 * (self.slots as usize).div_ceil(60)
    }

    /// Where a slot's page begins in the SSD image.
    pub fn slot_at(self, slot: Slot) -> usize {
        (1 + self.metadata_pages() + slot.0 as usize) * PAGE
    }

    /// Where a block's page begins in the HDD image.
    pub fn block_at(self, block: Block) -> usize {
        block.0 as usize * PAGE
    }
}

/// The SSD image and the HDD image: lent (`Images<&mut [u8]>`), or owned (`Images<Vec<u8>>`, with the feature `std`).
#[derive(Clone, Debug, PartialEq, Eq)]
pub struct Images<B> {
    pub ssd: B,
    pub hdd: B,
}

#[cfg(feature = "std")]
impl Images<Vec<u8>> {
    /// Zero images of the lengths that a geometry asks for.
    pub fn zeroed(geometry: Geometry) -> Self {
        Images {
            ssd: vec![0; geometry.ssd_bytes()],
            hdd: vec![0; geometry.hdd_bytes()],
        }
    }

    /// Lends both.
    pub fn lend(&mut self) -> Images<&mut [u8]> {
        Images {
            ssd: &mut self.ssd,
            hdd: &mut self.hdd,
        }
    }
}

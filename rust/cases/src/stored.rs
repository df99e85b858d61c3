//! What an SSD image holds, written and read by hand from document 01's tables.

use ferjulm::{Block, Geometry, Slot, PAGE};

/// Entries of a metadata page.
pub const ENTRIES: usize = 240;

/// A metadata page: stamp, window, and block and flags of each entry.
#[derive(Clone, Debug, PartialEq)]
pub struct Meta {
    pub stamp: u32,
    pub window: Vec<u32>,
    pub entries: [(u32, u8); ENTRIES],
}

impl Meta {
    /// As a format leaves it.
    pub fn empty() -> Self {
        Meta {
            stamp: 0,
            window: Vec::new(),
            entries: [(0, 0); ENTRIES],
        }
    }

    /// Stamp, window and the first entries; the rest zero.
    pub fn with(stamp: u32, window: &[u32], entries: &[(u32, u8)]) -> Self {
        let mut meta = Meta::empty();
        meta.stamp = stamp;
        meta.window = window.to_vec();
        meta.entries[..entries.len()].copy_from_slice(entries);
        meta
    }

    /// Its page.
    pub fn bytes(&self) -> Vec<u8> {
        let mut page = vec![0; PAGE];
        page[0..4].copy_from_slice(&self.stamp.to_le_bytes());
        page[4..6].copy_from_slice(&(self.window.len() as u16).to_le_bytes());
        for (place, slot) in page[16..268].chunks_mut(4).zip(&self.window) {
            place.copy_from_slice(&slot.to_le_bytes());
        }
        for (place, (block, flags)) in page[512..2432].chunks_mut(8).zip(&self.entries) {
            place[..4].copy_from_slice(&block.to_le_bytes());
            place[4] = *flags;
        }
        page
    }

    /// What a page holds.
    pub fn read(page: &[u8]) -> Self {
        let length = u16::from_le_bytes([page[4], page[5]]) as usize;
        let mut meta = Meta::empty();
        meta.stamp = word(page);
        meta.window = page[16..268].chunks(4).take(length).map(word).collect();
        for (entry, place) in meta.entries.iter_mut().zip(page[512..2432].chunks(8)) {
            *entry = (word(place), place[4]);
        }
        meta
    }
}

fn word(bytes: &[u8]) -> u32 {
    u32::from_le_bytes([bytes[0], bytes[1], bytes[2], bytes[3]])
}

/// The metadata pages of an SSD image.
#[derive(Clone, Debug, PartialEq)]
pub struct Metas(pub Vec<Meta>);

impl Metas {
    pub fn read(geometry: Geometry, ssd: &[u8]) -> Self {
        let pages = ssd.chunks(PAGE).skip(1).take(geometry.metadata_pages());
        Metas(pages.map(Meta::read).collect())
    }

    /// A slot's entry.
    pub fn entry(&self, slot: Slot) -> (u32, u8) {
        self.0[slot.0 as usize / ENTRIES].entries[slot.0 as usize % ENTRIES]
    }

    /// The page with the newest stamp.
    pub fn newest(&self) -> &Meta {
        self.0.iter().max_by_key(|meta| meta.stamp).expect("a page")
    }

    /// The slot of a block's valid entry.
    pub fn slot_of(&self, block: Block) -> Option<Slot> {
        let mut entries = self.0.iter().flat_map(|meta| meta.entries);
        let at = entries.position(|entry| entry.1 & 1 == 1 && entry.0 == block.0)?;
        Some(Slot(at as u32))
    }

    /// "A block is outside the newest stored window if no slot in it has an entry for that block."
    pub fn outside(&self, block: Block) -> bool {
        let mut window = self.newest().window.iter();
        !window.any(|&slot| {
            let (of, flags) = self.entry(Slot(slot));
            flags & 1 == 1 && of == block.0
        })
    }
}

/// A label page of this text.
pub fn label_page(text: &str) -> Vec<u8> {
    let mut page = vec![0; PAGE];
    page[..text.len()].copy_from_slice(text.as_bytes());
    page
}

/// The text of a label.
pub fn label(geometry: Geometry) -> String {
    let Geometry { slots, blocks, .. } = geometry;
    format!("cache=lufuw\nlayout=1\nslots={slots}\nblocks={blocks}\n")
}

/// An SSD image of a legal label and these metadata pages; slot s holds a page of its own.
pub fn ssd_of(geometry: Geometry, metas: &[Meta]) -> Vec<u8> {
    let mut ssd = label_page(&label(geometry));
    ssd.extend(metas.iter().flat_map(Meta::bytes));
    ssd.extend((0..geometry.slots).flat_map(|slot| page(SLOT_PAGES + slot as u64)));
    ssd
}

/// The first number of the pages that `ssd_of` puts in slots.
pub const SLOT_PAGES: u64 = 1 << 40;

/// The first number of the pages to be landed; below are those that the HDD has at first.
pub const LANDED_PAGES: u64 = 1 << 41;

/// The page to be landed that has a name: one character.
pub fn named(name: &str) -> Vec<u8> {
    let name: char = name.parse().expect("one character");
    page(LANDED_PAGES + name as u64)
}

/// A page for each number, no two alike.
pub fn page(number: u64) -> Vec<u8> {
    let mut bytes = Vec::with_capacity(PAGE);
    let mut state = number;
    while bytes.len() < PAGE {
        bytes.extend_from_slice(&state.to_le_bytes());
        state = state
            .wrapping_mul(0x5851_f42d_4c95_7f2d)
            .wrapping_add(0x1405_7b7e_f767_814f);
    }
    bytes
}

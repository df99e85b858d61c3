//! The page that a call stores: what document 01 says, which pages of the images changed, and that the page named is both.

use crate::call::{Answer, Call, Made};
use crate::offered;
use crate::rig::Rig;
use ferjulm::{Block, Geometry, Image, Images, Phase, Place, Record, Slot, PAGE};

/// A page of the SSD by its index.
pub fn ssd(at: usize) -> Place {
    let offset = (at * PAGE) as u64;
    Place {
        image: Image::Ssd,
        offset,
    }
}

/// A page of the HDD by its index.
pub fn hdd(at: usize) -> Place {
    let offset = (at * PAGE) as u64;
    Place {
        image: Image::Hdd,
        offset,
    }
}

/// The image that a place is in.
pub fn image_of(images: &Images<Vec<u8>>, place: Place) -> &[u8] {
    match place.image {
        Image::Ssd => &images.ssd,
        Image::Hdd => &images.hdd,
    }
}

/// The page at a place.
pub fn page_of(images: &Images<Vec<u8>>, place: Place) -> &[u8] {
    &image_of(images, place)[place.offset as usize..][..PAGE]
}

/// Copies the page at a place from a pair of images to another.
pub fn copy(place: Place, from: &Images<Vec<u8>>, to: &mut Images<Vec<u8>>) {
    let of = match place.image {
        Image::Ssd => &mut to.ssd,
        Image::Hdd => &mut to.hdd,
    };
    of[place.offset as usize..][..PAGE].copy_from_slice(page_of(from, place));
}

/// The pages in which two pairs of images differ.
pub fn differing(a: &Images<Vec<u8>>, b: &Images<Vec<u8>>) -> Vec<Place> {
    let in_ssd = changed(&a.ssd, &b.ssd).into_iter().map(ssd);
    in_ssd
        .chain(changed(&a.hdd, &b.hdd).into_iter().map(hdd))
        .collect()
}

fn changed(a: &[u8], b: &[u8]) -> Vec<usize> {
    assert_eq!(a.len(), b.len());
    let pages = a.chunks(PAGE).zip(b.chunks(PAGE)).enumerate();
    pages
        .filter(|(_, (x, y))| x != y)
        .map(|(at, _)| at)
        .collect()
}

/// What a call finds in memory.
#[derive(Clone, PartialEq)]
pub struct Memory {
    pub table: Vec<u32>,
    pub record: Record,
}

impl Memory {
    pub fn of(rig: &Rig) -> Self {
        Memory {
            table: rig.table.clone(),
            record: rig.record,
        }
    }

    fn row(&self, slot: Slot) -> (u32, u32) {
        let at = 2 * slot.0 as usize;
        (self.table[at], self.table[at + 1])
    }

    /// A block's slot: the lowest valid row that names it.
    fn slot_of(&self, block: Block) -> Slot {
        let mut slots = (0..self.record.geometry().slots).map(Slot);
        let held = |slot: &Slot| {
            let (of, flags) = self.row(*slot);
            flags & 1 == 1 && of == block.0
        };
        slots.find(held).expect("a block that has a slot")
    }

    /// The slot that a sweep takes: from the hand on, the first not open and not used, or else the first not open.
    fn swept(&self) -> Slot {
        let (slots, hand) = (self.record.geometry().slots, self.record.hand().0);
        let closed = (hand..slots).chain(0..hand).map(Slot);
        let mut closed = closed.filter(|slot| self.row(*slot).1 & 4 == 0);
        let unused = closed.clone().find(|slot| self.row(*slot).1 & 8 == 0);
        unused.or(closed.next()).expect("a slot that is not open")
    }
}

/// The page that a step stores.
fn of_step(record: &Record) -> Place {
    let metadata = record.geometry().metadata_pages();
    match record.phase() {
        // zero bytes, the metadata pages in order, the label
        Some(Phase::Formatting(done)) if done as usize <= metadata => ssd(done as usize),
        Some(Phase::Formatting(_)) => ssd(0),
        _ => metadata_page(record.window().min().expect("a pending slot")),
    }
}

/// The metadata page that has a slot's entry.
pub fn metadata_page(slot: Slot) -> Place {
    ssd(1 + slot.0 as usize / 240)
}

/// The page that a call stores which finds this in memory and answers so: document 01's arithmetic.
pub fn told(before: &Memory, call: &Call, answer: Answer) -> Option<Place> {
    let in_slot = |block| {
        let geometry: Geometry = before.record.geometry();
        let slot = before.slot_of(block);
        ssd(1 + geometry.metadata_pages() + slot.0 as usize)
    };
    match (call, answer) {
        (Call::Step, _) => Some(of_step(&before.record)),
        (Call::Offer(..) | Call::Fetch(..), Answer::Announced(slot)) => Some(metadata_page(slot)),
        (Call::Offer(..) | Call::Fetch(..), Answer::CopiedOut) => {
            Some(hdd(before.row(before.swept()).0 as usize))
        }
        (Call::OfferList(blocks, caller), _) => {
            let offered = offered::list(before, blocks, *caller);
            offered.ok().and_then(|offered| offered.stored)
        }
        (Call::Land(block, _) | Call::LandFetch(block), _) => Some(in_slot(*block)),
        (Call::WriteBack(block), Answer::Done) => Some(hdd(block.0 as usize)),
        (Call::Flush, Answer::Done) => Some(ssd(1)),
        _ => None,
    }
}

/// What a call names is the page that document 01 says it stores, whether or not its bytes are others now.
pub fn check_told(before: &Memory, call: &Call, made: &Made) {
    let told = made.said.ok().and_then(|said| told(before, call, said));
    assert_eq!(
        made.stored, told,
        "{call:?}: named, and told by document 01"
    );
}

/// The page that a call names lies in its image, and no other differs from the images before.
pub fn check_alone(before: &Images<Vec<u8>>, after: &Images<Vec<u8>>, call: &Call, made: &Made) {
    if let Some(place) = made.stored {
        let end = place.offset + PAGE as u64;
        let within = end <= image_of(after, place).len() as u64;
        assert!(
            within && place.offset % PAGE as u64 == 0,
            "{call:?} named {place:?}, which is no page"
        );
    }
    let differing = differing(before, after);
    let others = differing
        .iter()
        .filter(|&&place| Some(place) != made.stored);
    let others: Vec<_> = others.collect();
    assert!(
        others.is_empty(),
        "{call:?} named {:?} and stored {others:?}",
        made.stored
    );
}

//! What a call is lent, and the two sides that make calls on it.

use crate::image::{Image, PAGE};

/// Words of a record.
pub const RECORD: usize = 134;

/// Words that can be lent for the answer of a list look-up, which fills at most 64.
pub const WORDS: usize = 66;

/// The places in a record of what is read or set here.
pub const HAND: usize = 2;
pub const NEWEST: usize = 3;
pub const PHASE: usize = 4;
pub const STEPS: usize = 5;
pub const COUNT: usize = 7;
pub const WINDOW: usize = 8;
pub const CALLERS: usize = 71;

/// The callers: people, and the import.
pub const PEOPLE: u32 = 0;
pub const IMPORT: u32 = 1;

pub const RECOVERING: u32 = 1;
pub const READY: u32 = 2;

pub fn meta_pages(slots: u32) -> u32 {
    slots.div_ceil(240)
}

/// The length of a slot map.
pub fn map_bytes(slots: u32) -> usize {
    67 * slots.div_ceil(60) as usize
}

/// What a call is lent, the sheet of a slot map among it, and what it sets besides: a slot, the words of a list or how many
/// places of one were dealt with, the scratch table of an import, its stores and what it meets, and the page that it stored or that a view found. A refusal leaves them as they were.
#[derive(PartialEq)]
pub struct World {
    pub ssd: Image,
    pub hdd: Image,
    pub table: Vec<u32>,
    pub record: Vec<u32>,
    pub sheet: Vec<u8>,
    pub slot: u32,
    pub dealt: u32,
    pub words: Vec<u32>,
    pub scratch: Vec<u32>,
    pub counts: [u32; 3],
    pub met: [u32; 2],
    pub image: u32,
    pub offset: u64,
}

impl World {
    /// Images and table of the right length and all zero, and a record in the ready phase.
    pub fn empty(slots: u32, blocks: u32) -> World {
        let mut record = vec![0; RECORD];
        record[0] = slots;
        record[1] = blocks;
        record[PHASE] = READY;
        World {
            ssd: Image::new((1 + meta_pages(slots) + slots) as usize),
            hdd: Image::new(blocks as usize),
            table: vec![0; 2 * slots as usize],
            record,
            sheet: vec![0xa5; map_bytes(slots) + 67],
            slot: 0,
            dealt: 0,
            words: vec![0; WORDS],
            scratch: vec![0xa5; 2 * slots as usize + 2],
            counts: [0; 3],
            met: [0; 2],
            image: 0,
            offset: 0,
        }
    }

    /// Names the page that a call stored or found: its image, 1 for the SSD or 2 for the HDD, and its first byte there.
    #[inline(always)]
    pub fn name(&mut self, image: u32, offset: usize) {
        (self.image, self.offset) = (image, offset as u64);
    }

    /// Names no page: nothing was stored.
    #[inline(always)]
    pub fn name_none(&mut self) {
        self.name(0, 0);
    }

    /// A ready box whose slots all hold a block, clean: slot s holds block s.
    pub fn full(slots: u32, blocks: u32) -> World {
        let mut w = World::empty(slots, blocks);
        w.ssd.touch();
        w.hdd.touch();
        w.table = (0..slots).flat_map(|s| [s, 1]).collect();
        w
    }

    /// Puts slots into the record's window, and no others; all are people's.
    pub fn list(&mut self, slots: &[u32]) {
        self.record[COUNT] = slots.len() as u32;
        self.record[WINDOW..].fill(0);
        self.record[WINDOW..][..slots.len()].copy_from_slice(slots);
    }

    /// A box to be reopened: entries that are all valid and closed, clean and dirty by turns, slot s holding `block_of(s)`.
    pub fn stored(slots: u32, blocks: u32, block_of: impl Fn(u32) -> u32) -> World {
        let mut w = World::empty(slots, blocks);
        let text = format!("cache=lufuw\nlayout=1\nslots={slots}\nblocks={blocks}\n");
        w.ssd[..text.len()].copy_from_slice(text.as_bytes());
        for s in 0..slots {
            let page = PAGE * (1 + s as usize / 240);
            w.ssd[page..page + 4].copy_from_slice(&(s / 240).to_le_bytes());
            let at = page + 512 + 8 * (s as usize % 240);
            w.ssd[at..at + 4].copy_from_slice(&block_of(s).to_le_bytes());
            w.ssd[at + 4] = 1 + 2 * (s % 2) as u8;
        }
        w
    }
}

/// A call with its arguments.
#[derive(Clone, Copy)]
pub enum Call<'a> {
    Format(u32, u32),
    Step,
    /// A block, and its caller.
    Offer(u32, u32),
    /// A list of blocks, and its caller.
    OfferList(&'a [u32], u32),
    Fetch(u32, u32),
    Land(u32, &'a [u8]),
    LandFetch(u32),
    LookUp(u32),
    /// A list of blocks, and how many words are lent for the answer.
    LookUpList(&'a [u32], usize),
    View(u32),
    /// A slot map into so many bytes of the sheet.
    Map(usize),
    /// What an import of a list of blocks by a caller would cost, over so many words of the scratch table.
    Cost(&'a [u32], u32, usize),
    WriteBack(u32),
    Flush,
    Reopen,
}

/// One of the two programs that are compared.
pub trait Side {
    /// Its place where both sides' figures stand together.
    const INDEX: usize;
    /// Makes the call and gives its result code.
    fn make(w: &mut World, call: Call) -> u32;
}

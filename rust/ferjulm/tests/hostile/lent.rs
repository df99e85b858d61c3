//! What a call is lent, between guards.

use crate::input::Input;
use crate::kinds::Kind;
use ferjulm::{calls, PAGE};

/// A buffer with guards on both sides.
#[derive(Clone, PartialEq)]
pub struct Guarded<T>(Vec<T>);

/// Elements of a guard.
const GUARD: usize = 16;

impl<T: Copy + PartialEq> Guarded<T> {
    fn new(inner: &[T], guard: T) -> Self {
        let guard = vec![guard; GUARD];
        Guarded([&guard, inner, &guard].concat())
    }

    pub fn lent(&mut self) -> &mut [T] {
        let end = self.0.len() - GUARD;
        &mut self.0[GUARD..end]
    }

    fn same_guards(&self, other: &Self) -> bool {
        let end = self.0.len() - GUARD;
        self.0[..GUARD] == other.0[..GUARD] && self.0[end..] == other.0[end..]
    }
}

/// Everything that a call can be lent.
#[derive(Clone, PartialEq)]
pub struct Lent {
    ssd: Guarded<u8>,
    hdd: Guarded<u8>,
    page: Guarded<u8>,
    pub sheet: Guarded<u8>,
    pub table: Guarded<u32>,
    pub record: Guarded<u32>,
    pub slot: Guarded<u32>,
    pub image: Guarded<u32>,
    pub offset: Guarded<u64>,
    list: Guarded<u32>,
    pub dealt: Guarded<u32>,
    pub words: Guarded<u32>,
    pub scratch: Guarded<u32>,
    pub counts: Guarded<u32>,
    pub met: Guarded<u32>,
    pub slots: Guarded<u32>,
    pub blocks: Guarded<u32>,
}

/// What stands in an out-parameter before a call.
pub const UNSET: u32 = 77;

impl Lent {
    pub fn new(input: &Input) -> Self {
        Lent {
            ssd: Guarded::new(&input.ssd, 0xc3),
            hdd: Guarded::new(&input.hdd, 0xc3),
            page: Guarded::new(&input.page, 0xc3),
            sheet: Guarded::new(&input.sheet, 0xc3),
            table: Guarded::new(&input.table, 0xc3c3_c3c3),
            record: Guarded::new(&input.record, 0xc3c3_c3c3),
            slot: Guarded::new(&[UNSET], 0xc3c3_c3c3),
            image: Guarded::new(&[UNSET], 0xc3c3_c3c3),
            offset: Guarded::new(&[UNSET as u64], 0xc3c3_c3c3),
            list: Guarded::new(&input.list, 0xc3c3_c3c3),
            dealt: Guarded::new(&[UNSET], 0xc3c3_c3c3),
            words: Guarded::new(&vec![UNSET; input.room], 0xc3c3_c3c3),
            scratch: Guarded::new(&input.scratch, 0xc3c3_c3c3),
            counts: Guarded::new(&[UNSET; 3], 0xc3c3_c3c3),
            met: Guarded::new(&[UNSET; 2], 0xc3c3_c3c3),
            slots: Guarded::new(&[UNSET], 0xc3c3_c3c3),
            blocks: Guarded::new(&[UNSET], 0xc3c3_c3c3),
        }
    }

    pub fn same_guards(&self, other: &Lent) -> bool {
        let bytes = [
            (&self.ssd, &other.ssd),
            (&self.hdd, &other.hdd),
            (&self.page, &other.page),
            (&self.sheet, &other.sheet),
        ];
        let words = [
            (&self.table, &other.table),
            (&self.record, &other.record),
            (&self.slot, &other.slot),
            (&self.image, &other.image),
            (&self.list, &other.list),
            (&self.dealt, &other.dealt),
            (&self.words, &other.words),
            (&self.scratch, &other.scratch),
            (&self.counts, &other.counts),
            (&self.met, &other.met),
            (&self.slots, &other.slots),
            (&self.blocks, &other.blocks),
        ];
        bytes.iter().all(|(a, b)| a.same_guards(b))
            && words.iter().all(|(a, b)| a.same_guards(b))
            && self.offset.same_guards(&other.offset)
    }

    /// What differs, by name.
    pub fn changes(&self, other: &Lent) -> Vec<&'static str> {
        let parts = [
            ("ssd", self.ssd == other.ssd),
            ("hdd", self.hdd == other.hdd),
            ("page", self.page == other.page),
            ("sheet", self.sheet == other.sheet),
            ("table", self.table == other.table),
            ("record", self.record == other.record),
            ("slot", self.slot == other.slot),
            ("list", self.list == other.list),
            ("dealt", self.dealt == other.dealt),
            ("words", self.words == other.words),
            ("scratch", self.scratch == other.scratch),
            ("counts", self.counts == other.counts),
            ("met", self.met == other.met),
            (
                "place",
                self.image == other.image && self.offset == other.offset,
            ),
            (
                "label",
                self.slots == other.slots && self.blocks == other.blocks,
            ),
        ];
        parts
            .iter()
            .filter(|part| !part.1)
            .map(|part| part.0)
            .collect()
    }

    /// The pages of the images that differ: image and offset.
    pub fn pages_changed(&self, other: &Lent) -> Vec<(u32, u64)> {
        let changed = |image: u32, a: &Guarded<u8>, b: &Guarded<u8>| {
            let pages = a.0[GUARD..].chunks(PAGE).zip(b.0[GUARD..].chunks(PAGE));
            let pages = pages.enumerate().filter(|(_, (x, y))| x != y);
            let pages = pages.map(|(at, _)| (image, (at * PAGE) as u64));
            pages.collect::<Vec<_>>()
        };
        [
            changed(1, &self.ssd, &other.ssd),
            changed(2, &self.hdd, &other.hdd),
        ]
        .concat()
    }

    /// Makes the call: its result code.
    pub fn call(&mut self, kind: &Kind, input: &Input) -> u32 {
        let (ssd, hdd, table) = (self.ssd.lent(), self.hdd.lent(), self.table.lent());
        let (record, slot) = (self.record.lent(), &mut self.slot.lent()[0]);
        let (image, offset) = (&mut self.image.lent()[0], &mut self.offset.lent()[0]);
        let (block, caller, page) = (input.block, input.caller, self.page.lent());
        match kind.name {
            "format" => calls::format(ssd, hdd, table, record, input.slots, input.blocks),
            "step" => calls::step(ssd, hdd, table, record, image, offset),
            "reopen" => calls::reopen(ssd, hdd, table, record),
            "offer" => calls::offer(ssd, hdd, table, record, block, caller, slot, image, offset),
            "offer a list" => {
                let (list, dealt) = (self.list.lent(), &mut self.dealt.lent()[0]);
                calls::offer_list(ssd, hdd, table, record, list, caller, dealt, image, offset)
            }
            "land" => calls::land(ssd, hdd, table, record, block, page, image, offset),
            "fetch" => calls::fetch(ssd, hdd, table, record, block, caller, slot, image, offset),
            "land a fetch" => calls::land_fetch(ssd, hdd, table, record, block, image, offset),
            "look up" => calls::look_up(ssd, hdd, table, record, block, slot),
            "look up a list" => {
                let (list, words) = (self.list.lent(), self.words.lent());
                calls::look_up_list(ssd, hdd, table, record, list, words)
            }
            "view" => calls::view(ssd, hdd, table, record, block, image, offset),
            "write back" => calls::write_back(ssd, hdd, table, record, block, image, offset),
            "map" => calls::map(ssd, hdd, table, record, self.sheet.lent()),
            "cost" => {
                let (list, scratch) = (self.list.lent(), self.scratch.lent());
                let counts = self.counts.lent().try_into().expect("three counts");
                let met = self.met.lent().try_into().expect("number and place");
                calls::cost(ssd, hdd, table, record, list, caller, scratch, counts, met)
            }
            "flush" => calls::flush(ssd, hdd, table, record, image, offset),
            _ => calls::label(ssd, &mut self.slots.lent()[0], &mut self.blocks.lent()[0]),
        }
    }
}

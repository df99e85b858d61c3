//! What a call is given: boxes in every phase, spoilt at random.

use cases::random::Random;
use cases::rig::{word, Call, Rig};
use cases::stored::page;
use ferjulm::{Block, Caller, Geometry, PAGE};

/// A box, and a call's arguments.
#[derive(Clone)]
pub struct Input {
    pub ssd: Vec<u8>,
    pub hdd: Vec<u8>,
    pub page: Vec<u8>,
    pub sheet: Vec<u8>,
    pub table: Vec<u32>,
    pub scratch: Vec<u32>,
    pub record: Vec<u32>,
    pub slots: u32,
    pub blocks: u32,
    pub block: u32,
    pub caller: u32,
    pub list: Vec<u32>,
    pub room: usize,
}

impl Input {
    pub fn of(rig: Rig, geometry: Geometry) -> Self {
        Input {
            ssd: rig.images.ssd,
            hdd: rig.images.hdd,
            page: page(1 << 50),
            sheet: vec![0x5a; geometry.map_bytes()],
            scratch: vec![0x5a5a; rig.table.len()],
            table: rig.table,
            record: rig.record.words().to_vec(),
            slots: geometry.slots,
            blocks: geometry.blocks,
            block: 0,
            caller: 0,
            list: vec![0],
            room: 1,
        }
    }

    /// Another list: mostly of few blocks, now and then all different, and with room for as many words.
    pub fn list_anew(&mut self, random: &mut Random) {
        let high = random.once_in(4);
        let n: u32 = random.of(&[0, 1, 2, 3, 63, 64, 65]);
        let first = random.of(&[0, 1, 2, 3, 7, 63, 64]);
        let apart = random.once_in(2);
        let any = |at| match (apart, high) {
            (true, _) => first + at,
            (_, true) => random.of(&[0, 1, 4, 8, 66, u32::MAX]),
            (_, false) => random.below(4),
        };
        self.list = (0..n).map(any).collect();
        let n = n as usize;
        self.room = if random.once_in(4) { n + 1 } else { n };
    }

    /// Spoils one thing.
    pub fn spoil(&mut self, random: &mut Random) {
        match random.below(17) {
            0 => resize(&mut self.ssd, PAGE, random),
            1 => resize(&mut self.hdd, PAGE, random),
            2 => resize(&mut self.page, PAGE, random),
            3 => resize(&mut self.table, 2, random),
            4 => resize(&mut self.record, 1, random),
            5..=7 => spoil_word(&mut self.record, random),
            8 => self
                .record
                .iter_mut()
                .for_each(|word| *word = random.word()),
            9 | 10 => spoil_word(&mut self.table, random),
            11 => self.table.iter_mut().for_each(|word| *word = random.word()),
            12 => self.spoil_ssd(random),
            13 => self.double(random),
            14 => resize(&mut self.sheet, 67, random),
            15 => resize(&mut self.scratch, 2, random),
            _ => self
                .ssd
                .iter_mut()
                .for_each(|byte| *byte = random.word() as u8),
        }
    }

    /// Puts a row's block into another row too.
    fn double(&mut self, random: &mut Random) {
        let rows = self.table.len() as u32 / 2;
        if rows > 0 {
            let (from, to) = (random.below(rows) as usize, random.below(rows) as usize);
            self.table[2 * to] = self.table[2 * from];
            self.table[2 * to + 1] |= 1;
        }
    }

    /// Changes one byte of the label's text or of the first metadata page.
    fn spoil_ssd(&mut self, random: &mut Random) {
        let fields = [
            0,
            PAGE,
            PAGE + 4,
            PAGE + 16,
            PAGE + 268,
            PAGE + 512,
            PAGE + 2432,
        ];
        let at = random.of(&fields) + random.below(24) as usize;
        if let Some(byte) = self.ssd.get_mut(at) {
            *byte = random.of(&[0, 1, 2, 5, 7, 255, b'0']);
        }
    }
}

/// Another length: about the old one, or nothing.
fn resize<T: Copy + Default>(list: &mut Vec<T>, unit: usize, random: &mut Random) {
    let length = list.len();
    let (page_less, one_less) = (length.saturating_sub(unit), length.saturating_sub(1));
    let lengths = [0, 1, page_less, one_less, length + 1, length + unit];
    list.resize(random.of(&lengths), T::default());
}

/// Another word at any place, or at one of the first 12: a record's numbers, a table's first rows.
fn spoil_word(list: &mut [u32], random: &mut Random) {
    if list.is_empty() {
        return;
    }
    let end = if random.once_in(2) {
        list.len()
    } else {
        list.len().min(12)
    };
    let at = random.below(end as u32);
    let any = random.word();
    let words = [
        0,
        1,
        2,
        3,
        5,
        7,
        9,
        15,
        63,
        64,
        57_601,
        u32::MAX - 63,
        u32::MAX,
        any,
    ];
    list[at as usize] = random.of(&words);
}

/// Boxes in every phase: a format begun, one with a step done, ready and empty, ready with slots open for writing and for
/// fetch, dirty and clean, and recovering.
pub fn boxes(geometry: Geometry) -> Vec<Input> {
    let mut rig = Rig::unformatted(geometry);
    rig.make(&Call::Format(geometry)).said.expect("a format");
    let mut boxes = vec![rig.clone()];
    rig.make(&Call::Step).said.expect("a step");
    boxes.push(rig.clone());
    rig.finish();
    boxes.push(rig.clone());
    for call in [
        Call::Offer(Block(0), Caller::People),
        Call::Land(Block(0), page(1 << 51)),
        Call::Fetch(Block(1), Caller::People),
        Call::LandFetch(Block(1)),
        Call::LookUp(Block(1)),
        Call::Offer(Block(2), Caller::People),
        Call::Fetch(Block(3), Caller::People),
    ] {
        // a box of one slot refuses some of these
        let _ = rig.make(&call);
        boxes.push(rig.clone());
    }
    rig.forget(|| 5);
    rig.make(&Call::Reopen).said.expect("a reopening");
    boxes.push(rig);
    boxes
        .into_iter()
        .map(|rig| Input::of(rig, geometry))
        .collect()
}

/// So many open slots of a caller: 63 are the box of number 11, 8 of the import that of 17.
pub fn opened(count: u32, caller: Caller) -> Input {
    let geometry = Geometry::new(64, 66);
    let mut rig = Rig::formatted(geometry);
    for block in 0..count {
        let offer = Call::Offer(Block(block), caller);
        rig.make(&offer).said.expect("an offer");
    }
    Input::of(rig, geometry)
}

/// The box with its newest stamp near the last.
pub fn late(input: &Input, stamp: u32) -> Input {
    let mut input = input.clone();
    input.record[word::NEWEST] = stamp;
    input
}

//! A box with everything that it is lent, owned.

pub use crate::call::{Answer, Call, Made, Said};
use crate::called;
use crate::costed;
use crate::looked;
use crate::mapped;
use crate::offered;
use crate::place::{check_alone, check_told, Memory};
use crate::stored::page;
use ferjulm::{calls, Block, Cache, Geometry, Images, Phase, Record, Refusal, Slot, PAGE};

/// A box: both images, the table and the record.
#[derive(Clone, PartialEq)]
pub struct Rig {
    pub images: Images<Vec<u8>>,
    pub table: Vec<u32>,
    pub record: Record,
}

impl Rig {
    /// A box of these images that has lost table and record.
    pub fn of(geometry: Geometry, images: Images<Vec<u8>>) -> Self {
        let mut rig = Rig {
            images,
            table: vec![0; geometry.table_words()],
            record: Record::default(),
        };
        rig.forget(|| 0xaaaa_aaaa);
        rig
    }

    /// A box before its format: the HDD's pages differ, the SSD has been something else.
    pub fn unformatted(geometry: Geometry) -> Self {
        let images = Images {
            ssd: vec![0xaa; geometry.ssd_bytes()],
            hdd: (0..geometry.blocks as u64).flat_map(page).collect(),
        };
        Rig::of(geometry, images)
    }

    /// A ready box, as the last step of a format left it.
    pub fn formatted(geometry: Geometry) -> Self {
        let mut rig = Rig::unformatted(geometry);
        rig.cache().format(geometry).expect("a format");
        rig.finish();
        rig
    }

    /// Steps until the box is ready: how many.
    pub fn finish(&mut self) -> u32 {
        let mut steps = 0;
        while !self.ready() {
            self.make(&Call::Step).said.expect("a step");
            steps += 1;
        }
        steps
    }

    /// Lends everything.
    pub fn cache(&mut self) -> Cache<'_> {
        Cache::new(self.images.lend(), &mut self.table, &mut self.record)
    }

    /// Makes a call, and compares the whole images before and after: the page that it names is the one that document 01 says,
    /// and nothing else differs. A refused call names none.
    pub fn make(&mut self, call: &Call) -> Made {
        let before = self.images.clone();
        let made = self.make_told(call);
        check_alone(&before, &self.images, call, &made);
        made
    }

    /// Makes a call, and checks the page that it names by document 01 alone, what an offer or a look-up answers and leaves, what a map
    /// writes, and what an import would cost: for a caller that compares images itself.
    pub fn make_told(&mut self, call: &Call) -> Made {
        let before = Memory::of(self);
        let made = self.call(call);
        check_told(&before, call, &made);
        mapped::check(&before, self, call);
        costed::check(&before, self, call);
        called::check(&before, self, call, &made);
        offered::check(&before, self, call, &made);
        looked::check(before, self, call, &made);
        made
    }

    fn call(&mut self, call: &Call) -> Made {
        let mut cache = self.cache();
        match call {
            Call::Format(geometry) => cache.format(*geometry).map(Made::from),
            Call::Step => cache.step().map(Made::from),
            Call::Reopen => cache.reopen().map(Made::from),
            Call::Offer(block, caller) => cache.offer(*block, *caller).map(Made::from),
            Call::OfferList(blocks, caller) => cache.offer_list(blocks, *caller).map(Made::from),
            Call::Land(block, page) => match page.as_slice().try_into() {
                Ok(page) => cache.land(*block, page).map(Made::from),
                Err(_) => Err(self.land_other(*block, page)),
            },
            Call::Fetch(block, caller) => cache.fetch(*block, *caller).map(Made::from),
            Call::LandFetch(block) => cache.land_fetch(*block).map(Made::from),
            Call::LookUp(block) => cache.look_up(*block).map(Made::from),
            Call::LookUpList(blocks, room) => self.look_up_list(blocks, *room).map(Made::from),
            Call::View(block) => cache.view(*block).map(|_| Made::from(())),
            Call::Map(room) => mapped::map(self, *room).map(Made::from),
            Call::Cost(blocks, caller, more) => {
                costed::cost(self, blocks, *caller, *more).map(Made::from)
            }
            Call::WriteBack(block) => cache.write_back(*block).map(Made::from),
            Call::Flush => cache.flush().map(Made::from),
        }
        .unwrap_or_else(Made::from)
    }

    /// Looks a list up: its words and the table after it are those of the single look-ups, and a refusal writes no word.
    fn look_up_list(&mut self, blocks: &[Block], room: usize) -> Result<(), Refusal> {
        let (words, table) = looked::singles(self, blocks);
        let mut filled = vec![77; room];
        let said = self.cache().look_up_list(blocks, &mut filled);
        match said {
            Ok(()) => assert!(filled == words && self.table == table, "{blocks:?}"),
            Err(refusal) => assert_eq!(filled, vec![77; room], "{refusal}: a word was written"),
        }
        said
    }

    /// Lands bytes that are no page, as C may: the refusal, with both out-parameters as they were.
    fn land_other(&mut self, block: Block, page: &[u8]) -> Refusal {
        let mut words = *self.record.words();
        let Images { ssd, hdd } = &mut self.images;
        let (mut image, mut offset) = (77, 77);
        let (table, b) = (&mut self.table, block.0);
        let code = calls::land(
            ssd,
            hdd,
            table,
            &mut words,
            b,
            page,
            &mut image,
            &mut offset,
        );
        assert_eq!((image, offset), (77, 77), "set by a call that was refused");
        assert_eq!(&words, self.record.words(), "the record of a refused call");
        Refusal::of_code(code).expect("a landing of no page is refused")
    }

    /// Loses record and table: any words stand in them.
    pub fn forget(&mut self, mut word: impl FnMut() -> u32) {
        self.table.iter_mut().for_each(|place| *place = word());
        self.record = Record::from_words(std::array::from_fn(|_| word()));
    }

    /// Puts another number into the record, at one of the places of [`word`].
    pub fn set(&mut self, place: usize, number: u32) {
        let mut words = *self.record.words();
        words[place] = number;
        self.record = Record::from_words(words);
    }

    pub fn ready(&self) -> bool {
        self.record.phase() == Some(Phase::Ready)
    }

    pub fn recovering(&self) -> bool {
        self.record.phase() == Some(Phase::Recovering)
    }

    /// A block's slot by the table: the lowest valid row that names it.
    pub fn slot_of(&self, block: Block) -> Option<Slot> {
        let mut rows = self.table.chunks(2);
        let at = rows.position(|row| row[1] & 1 == 1 && row[0] == block.0)?;
        Some(Slot(at as u32))
    }

    /// A slot's page on the SSD.
    pub fn slot_page(&self, geometry: Geometry, slot: Slot) -> &[u8] {
        &self.images.ssd[geometry.slot_at(slot)..][..PAGE]
    }
}

/// The places of a record's numbers among its words.
pub mod word {
    pub const SLOTS: usize = 0;
    pub const HAND: usize = 2;
    pub const NEWEST: usize = 3;
    pub const PHASE: usize = 4;
    pub const STEPS: usize = 5;
    pub const UNSETTLED: usize = 6;
    pub const COUNT: usize = 7;
    pub const WINDOW: usize = 8;
    pub const CALLERS: usize = 71;
}

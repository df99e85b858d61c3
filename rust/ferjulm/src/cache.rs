//! The calls, with names and types.

use crate::place::{page_at, Out};
use crate::refusal::judged;
use crate::{
    calls, Block, Caller, Condition, Cost, Fetched, Geometry, Image, Images, Lent, Offered,
    OfferedList, Phase, Place, Record, Refusal, Saved, View,
};
use crate::{WrongLength, PAGE};

/// A box, lent: both images, the table and the record. Every call stores at most one page and names it; a refused call changes
/// nothing. A box begins by [`format`](Cache::format) or [`reopen`](Cache::reopen), each followed by
/// [`finish`](Cache::finish), or by as many steps.
///
/// # Drives
/// The calls change the images, in memory. Where these are kept on drives, the page that a call names
/// ([`page`](Cache::page) lends it) has to be on its drive, whole, before the page of the next call. A drive that fails to
/// store it is as good as cut off: reopen what the drives have.
///
/// # Threads
/// A box is `Send` and `Sync`. One thread at a time makes calls, since they take `&mut self`; but [`view`](Cache::view),
/// [`map`](Cache::map) and [`cost`](Cache::cost) take `&self`, so that several threads may view at once, and read the pages that they were lent.
///
/// # Errors
/// Every call but format and reopen may be refused by 3 (the record), 4 (a length), 5 (the table) and 6 (the phase). The
/// numbers that a call may be refused by besides are told at each.
#[derive(Debug)]
pub struct Cache<'a> {
    images: Images<&'a mut [u8]>,
    table: &'a mut [u32],
    record: &'a mut Record,
}

/// Makes a call on what is lent: its result code.
macro_rules! call {
    ($cache:ident.$name:ident($($argument:expr),*)) => {{
        let Cache { images, table, record } = &mut *$cache;
        calls::$name(images.ssd, images.hdd, table, &mut record.0, $($argument),*)
    }};
}

impl<'a> Cache<'a> {
    /// A box of what is lent. Nothing is judged yet: each call judges for itself.
    pub fn new(images: Images<&'a mut [u8]>, table: &'a mut [u32], record: &'a mut Record) -> Self {
        Cache {
            images,
            table,
            record,
        }
    }

    /// The record.
    pub fn record(&self) -> &Record {
        self.record
    }

    /// The table: two words for each slot, block and flags.
    pub fn table(&self) -> &[u32] {
        self.table
    }

    /// A page of an image, as that which a call has named.
    ///
    /// # Panics
    /// Where the image does not have all of it.
    pub fn page(&self, place: Place) -> &[u8; PAGE] {
        match place.image {
            Image::Ssd => page_at(self.images.ssd, place.offset),
            Image::Hdd => page_at(self.images.hdd, place.offset),
        }
    }

    /// Begins a format. Stores nothing; the steps that follow do. May be called in any phase.
    ///
    /// # Errors
    /// 1 (the geometry is outside the limits) and 4, and no other number.
    pub fn format(&mut self, geometry: Geometry) -> Result<(), Refusal> {
        let Geometry { slots, blocks } = geometry;
        let code = call!(self.format(slots, blocks));
        judged(code, || self.wrong_length(geometry)).map(|_| ())
    }

    /// One step of a format or of a recovery: the page of the SSD that it stored. The record's phase tells whether it was the
    /// last.
    ///
    /// # Errors
    /// 3, 4, 5, 6 (the box is ready), and 13 while recovering.
    pub fn step(&mut self) -> Result<Place, Refusal> {
        let mut out = Out::default();
        let code = call!(self.step(&mut out.image, &mut out.offset));
        self.judged(code).map(|_| out.stored())
    }

    /// Steps until the box is ready: how many it took, 0 if it was ready before. Each stored page is handed to `store` before
    /// the next step; where that fails no further step is made, and the box is to be reopened from its drives.
    ///
    /// # Errors
    /// What `store` fails with, or the refusal of a step.
    pub fn finish<E: From<Refusal>>(
        &mut self,
        mut store: impl FnMut(Place, &[u8; PAGE]) -> Result<(), E>,
    ) -> Result<u32, E> {
        let mut steps = 0;
        while self.record.phase() != Some(Phase::Ready) {
            let stored = self.step()?;
            store(stored, self.page(stored))?;
            steps += 1;
        }
        Ok(steps)
    }

    /// Fills table and record from the SSD: then ready, or recovering. Stores nothing. May be called in any phase.
    ///
    /// # Errors
    /// 2 (no legal label), 4 and 5, and no other number.
    pub fn reopen(&mut self) -> Result<(), Refusal> {
        let code = call!(self.reopen());
        let length = || self.wrong_length(Geometry::of_label(self.images.ssd)?);
        judged(code, length).map(|_| ())
    }

    /// Offers a write of a block, for a caller: announced or overwrite, then land; or copied out, then offer again. Anyone may land.
    ///
    /// # Errors
    /// 3 to 6, 7 (the block), 8 (its slot is open), 17 (the import has 8 slots open), 11, 12 (no slot to be had) and 13 (stamps).
    pub fn offer(&mut self, block: Block, caller: Caller) -> Result<Offered, Refusal> {
        let mut out = Out::default();
        let code = call!(self.offer(
            block.0,
            caller as u32,
            &mut out.slot,
            &mut out.image,
            &mut out.offset
        ));
        self.judged(code).map(|code| Offered::of(code, out))
    }

    /// Offers a list of up to 63 blocks as one, for a caller: as offers one after another, with one metadata page stored for all that
    /// they announce. The answer is how many places of the list were dealt with, announced or overwrites: land these, then offer the rest.
    /// The list ends before the first place that would be refused, would copy out, or has its slot on another metadata page than the
    /// first one announced. Where the first place would copy out, it does, and the whole list is offered again.
    ///
    /// ```
    /// use ferjulm::{Block, Cache, Caller, Geometry, Images, OfferedList, Record, Refusal, PAGE};
    ///
    /// let geometry = Geometry::new(4, 8);
    /// let (mut images, mut record) = (Images::zeroed(geometry), Record::default());
    /// let mut table = vec![0; geometry.table_words()];
    /// let mut cache = Cache::new(images.lend(), &mut table, &mut record);
    /// cache.format(geometry)?;
    /// cache.finish(|_, _| Ok::<(), Refusal>(()))?;
    ///
    /// // six blocks in four slots: four are announced by one store, and the first of the others is copied out for
    /// let scan = [0, 1, 2, 3, 4, 5].map(Block);
    /// let (mut left, mut stores) = (&scan[..], 0);
    /// while !left.is_empty() {
    ///     let offered = cache.offer_list(left, Caller::Import)?;
    ///     // where the images are kept on drives, `offered.stored()` is written to its drive here
    ///     stores += offered.stored().is_some() as u32;
    ///     let (dealt, rest) = left.split_at(offered.places());
    ///     for block in dealt {
    ///         cache.land(*block, &[7; PAGE])?;
    ///     }
    ///     left = rest;
    /// }
    /// assert_eq!((stores, cache.record().newest()), (5, 3));
    /// assert_eq!(cache.offer_list(&[Block(4)], Caller::People)?, OfferedList::Dealt { places: 1, stored: None });
    /// assert_eq!(cache.offer_list(&[Block(5), Block(5)], Caller::People).unwrap_err().number(), 15);
    /// # Ok::<(), Refusal>(())
    /// ```
    ///
    /// # Errors
    /// 3 to 6, 15 (the list is empty, over 63, or names a block twice), then of the first block 7, 8 (its slot is open), 17 (the import
    /// has 8 slots open), 11, 12 (no slot to be had), and 13 (no stamp for the one store).
    pub fn offer_list(&mut self, blocks: &[Block], caller: Caller) -> Result<OfferedList, Refusal> {
        let mut out = Out::default();
        let caller = caller as u32;
        let code = call!(self.offer_list(
            Block::numbers(blocks),
            caller,
            &mut out.dealt,
            &mut out.image,
            &mut out.offset
        ));
        self.judged(code).map(|code| OfferedList::of(code, out))
    }

    /// Lands a page for a block that is open for writing, or dirty and not open: the slot's page, which it stored. The slot counts as
    /// used, as after a look-up: a sweep passes it once before it takes it.
    ///
    /// # Errors
    /// 3 to 6, 7 (the block) and 9 (it is neither).
    pub fn land(&mut self, block: Block, page: &[u8; PAGE]) -> Result<Place, Refusal> {
        let mut out = Out::default();
        let code = call!(self.land(block.0, page, &mut out.image, &mut out.offset));
        self.judged(code).map(|_| out.stored())
    }

    /// Fetches a block that is not cached, for a caller: announced, then land the fetch; or copied out, then fetch again.
    ///
    /// ```
    /// use ferjulm::{Block, Cache, Caller, Geometry, Images, Record, Refusal};
    ///
    /// let geometry = Geometry::new(16, 32);
    /// let (mut images, mut record) = (Images::zeroed(geometry), Record::default());
    /// let mut table = vec![0; geometry.table_words()];
    /// let mut cache = Cache::new(images.lend(), &mut table, &mut record);
    /// cache.format(geometry)?;
    /// cache.finish(|_, _| Ok::<(), Refusal>(()))?;
    ///
    /// for block in 0..8 {
    ///     cache.fetch(Block(block), Caller::Import)?;
    /// }
    /// assert_eq!(cache.fetch(Block(8), Caller::Import).unwrap_err().number(), 17);
    /// cache.fetch(Block(8), Caller::People)?;
    /// cache.land_fetch(Block(0))?;
    /// cache.fetch(Block(9), Caller::Import)?;
    /// # Ok::<(), Refusal>(())
    /// ```
    ///
    /// # Errors
    /// 3 to 6, 7 (the block), 8 (it is open for writing), 10 (it is cached, or being fetched), 17 (the import has 8 slots open), 11, 12 (no
    /// slot to be had) and 13 (stamps).
    pub fn fetch(&mut self, block: Block, caller: Caller) -> Result<Fetched, Refusal> {
        let mut out = Out::default();
        let code = call!(self.fetch(
            block.0,
            caller as u32,
            &mut out.slot,
            &mut out.image,
            &mut out.offset
        ));
        self.judged(code).map(|code| Fetched::of(code, out))
    }

    /// Lands a fetch: copies the HDD page into the slot that the fetch opened: the slot's page, which it stored. The slot does not count
    /// as used by it.
    ///
    /// # Errors
    /// 3 to 6, 7 (the block) and 9 (it is not open for fetch).
    pub fn land_fetch(&mut self, block: Block) -> Result<Place, Refusal> {
        let mut out = Out::default();
        let code = call!(self.land_fetch(block.0, &mut out.image, &mut out.offset));
        self.judged(code).map(|_| out.stored())
    }

    /// Looks a block up: its condition, with its slot. Where it is clean or dirty its used flag is set. Stores nothing.
    ///
    /// ```
    /// use ferjulm::{Block, Cache, Caller, Condition, Geometry, Images, Record, Refusal, Slot, PAGE};
    ///
    /// let geometry = Geometry::new(4, 8);
    /// let (mut images, mut record) = (Images::zeroed(geometry), Record::default());
    /// let mut table = vec![0; geometry.table_words()];
    /// let mut cache = Cache::new(images.lend(), &mut table, &mut record);
    /// cache.format(geometry)?;
    /// cache.finish(|_, _| Ok::<(), Refusal>(()))?;
    ///
    /// assert_eq!(cache.look_up(Block(5))?, Condition::NotCached);
    /// cache.fetch(Block(5), Caller::People)?;
    /// assert_eq!(cache.look_up(Block(5))?, Condition::OpenFetch(Slot(0)));
    /// cache.land_fetch(Block(5))?;
    /// assert_eq!(cache.look_up(Block(5))?, Condition::Clean(Slot(0)));
    /// cache.offer(Block(5), Caller::People)?;
    /// assert_eq!(cache.look_up(Block(5))?, Condition::OpenWrite(Slot(0)));
    /// cache.land(Block(5), &[7; PAGE])?;
    /// assert_eq!(cache.look_up(Block(5))?, Condition::Dirty(Slot(0)));
    /// assert_eq!(cache.look_up(Block(5))?.closed(), Some(Slot(0)));
    /// # Ok::<(), Refusal>(())
    /// ```
    ///
    /// # Errors
    /// 3 to 6, and 7 (the block).
    pub fn look_up(&mut self, block: Block) -> Result<Condition, Refusal> {
        let mut slot = 0;
        let code = call!(self.look_up(block.0, &mut slot));
        self.judged(code).map(|code| Condition::of(code, slot))
    }

    /// Looks up to 64 blocks up, by one pass over the table for the whole list: `words`, as long as the list, becomes the slot plus 1 of
    /// each, or 0 where it is open or not cached. Words and used flags are those of the single look-ups in list order; a block may be
    /// listed twice. Stores nothing.
    ///
    /// ```
    /// use ferjulm::{Block, Cache, Caller, Geometry, Images, Record, Refusal};
    ///
    /// let geometry = Geometry::new(4, 8);
    /// let (mut images, mut record) = (Images::zeroed(geometry), Record::default());
    /// let mut table = vec![0; geometry.table_words()];
    /// let mut cache = Cache::new(images.lend(), &mut table, &mut record);
    /// cache.format(geometry)?;
    /// cache.finish(|_, _| Ok::<(), Refusal>(()))?;
    /// cache.fetch(Block(5), Caller::People)?;
    /// cache.land_fetch(Block(5))?;
    /// cache.fetch(Block(6), Caller::People)?;
    ///
    /// // 5 is in slot 0, 6 is open, 7 is not cached
    /// let mut words = [0; 4];
    /// cache.look_up_list(&[Block(6), Block(5), Block(7), Block(5)], &mut words)?;
    /// assert_eq!(words, [0, 1, 0, 1]);
    /// assert_eq!(cache.look_up_list(&[Block(5)], &mut words).unwrap_err().number(), 16);
    /// # Ok::<(), Refusal>(())
    /// ```
    ///
    /// # Errors
    /// 3 to 6, 16 (the list is empty, over 64, or not as long as `words`), and 7 (a block). No refusal writes a word.
    pub fn look_up_list(&mut self, blocks: &[Block], words: &mut [u32]) -> Result<(), Refusal> {
        let code = call!(self.look_up_list(Block::numbers(blocks), words));
        self.judged(code).map(|_| ())
    }

    /// Views a block: that page of the SSD image itself if it is cached and not open, else of the HDD image. Changes nothing.
    ///
    /// # Errors
    /// 3 to 6, and 7 (the block).
    pub fn view(&self, block: Block) -> Result<View<'_>, Refusal> {
        let mut out = Out::default();
        let (ssd, hdd, words) = (&*self.images.ssd, &*self.images.hdd, &self.record.0);
        let (image, offset) = (&mut out.image, &mut out.offset);
        let code = calls::view(ssd, hdd, self.table, words, block.0, image, offset);
        self.judged(code)?;
        let place = out.stored();
        let page = self.page(place);
        Ok(View { place, page })
    }

    /// The slot map: the whole cache as text, over the first [`map_bytes`](Geometry::map_bytes) bytes of a buffer; those after them
    /// stay. Each line covers 60 slots: the first slot's number in 5 columns, a space, and a letter for each: `.` free, `c` clean, `d`
    /// dirty, `w` open for writing, `f` open for fetch; past the last slot spaces. Changes nothing else.
    ///
    /// ```
    /// use ferjulm::{Block, Cache, Caller, Geometry, Images, Record, Refusal, PAGE};
    ///
    /// let geometry = Geometry::new(62, 99);
    /// let (mut images, mut record) = (Images::zeroed(geometry), Record::default());
    /// let mut table = vec![0; geometry.table_words()];
    /// let mut cache = Cache::new(images.lend(), &mut table, &mut record);
    /// cache.format(geometry)?;
    /// cache.finish(|_, _| Ok::<(), Refusal>(()))?;
    /// cache.offer(Block(5), Caller::People)?;
    /// cache.land(Block(5), &[7; PAGE])?;
    /// cache.fetch(Block(6), Caller::People)?;
    /// cache.land_fetch(Block(6))?;
    /// cache.fetch(Block(7), Caller::People)?;
    /// cache.offer(Block(8), Caller::People)?;
    ///
    /// let mut sheet = vec![0; geometry.map_bytes()];
    /// cache.map(&mut sheet)?;
    /// let text = String::from_utf8(sheet).unwrap();
    /// let lines: Vec<&str> = text.lines().collect();
    /// assert_eq!(lines[0], format!("    0 dcfw{}", ".".repeat(56)));
    /// assert_eq!(lines[1], format!("   60 ..{}", " ".repeat(58)));
    /// assert_eq!(cache.map(&mut [0; 133]).unwrap_err().number(), 14);
    /// # Ok::<(), Refusal>(())
    /// ```
    ///
    /// # Errors
    /// 3 to 6, and 14 (the buffer is too short).
    pub fn map(&self, sheet: &mut [u8]) -> Result<(), Refusal> {
        let (ssd, hdd, words) = (&*self.images.ssd, &*self.images.hdd, &self.record.0);
        let code = calls::map(ssd, hdd, self.table, words, sheet);
        self.judged(code).map(|_| ())
    }

    /// What an import of a list of up to 63 blocks by a caller would cost: the stores that it would make, each block offered by itself,
    /// once more after a copy-out, and landed. Nothing changes but the scratch table, which becomes what the import would leave of the
    /// table. Where the import would meet a refusal, the answer has it, its place and the stores up to there.
    ///
    /// ```
    /// use ferjulm::{Block, Cache, Caller, Cost, Counts, Geometry, Images, Record, Refusal, PAGE};
    ///
    /// let geometry = Geometry::new(1, 2);
    /// let (mut images, mut record) = (Images::zeroed(geometry), Record::default());
    /// let mut table = vec![0; geometry.table_words()];
    /// let mut cache = Cache::new(images.lend(), &mut table, &mut record);
    /// cache.format(geometry)?;
    /// cache.finish(|_, _| Ok::<(), Refusal>(()))?;
    /// cache.offer(Block(0), Caller::People)?;
    /// cache.land(Block(0), &[7; PAGE])?;
    ///
    /// // block 0 is an overwrite; for block 1 its page is copied out
    /// let mut scratch = vec![0; geometry.table_words()];
    /// let cost = cache.cost(&[Block(0), Block(1)], Caller::People, &mut scratch)?;
    /// assert_eq!(cost, Cost::Counted(Counts { copy_outs: 1, metadata: 1, data: 2 }));
    /// assert_eq!(scratch, [1, 11]);
    ///
    /// let Cost::Met { refusal, place, counts } = cache.cost(&[Block(0), Block(2)], Caller::People, &mut scratch)? else {
    ///     panic!("block 2 of 2");
    /// };
    /// assert_eq!((refusal.number(), place, counts.stores()), (7, 1, 1));
    /// assert_eq!(cache.cost(&[], Caller::People, &mut scratch).unwrap_err().number(), 15);
    /// # Ok::<(), Refusal>(())
    /// ```
    ///
    /// # Errors
    /// 3 to 6 (4 of a scratch table, too, that is not as long as the table), and 15 (the list is empty, over 63, or names a block
    /// twice).
    pub fn cost(
        &self,
        blocks: &[Block],
        caller: Caller,
        scratch: &mut [u32],
    ) -> Result<Cost, Refusal> {
        let (ssd, hdd, words) = (&*self.images.ssd, &*self.images.hdd, &self.record.0);
        let (blocks, caller) = (Block::numbers(blocks), caller as u32);
        let (mut counts, mut met) = ([0; 3], [0; 2]);
        let code = calls::cost(
            ssd,
            hdd,
            self.table,
            words,
            blocks,
            caller,
            scratch,
            &mut counts,
            &mut met,
        );
        self.judged(code).map(|code| Cost::of(code, counts, met))
    }

    /// Writes a block back: stored if it was dirty, its page on the HDD; else nothing to do.
    ///
    /// # Errors
    /// 3 to 6, 7 (the block) and 8 (its slot is open).
    pub fn write_back(&mut self, block: Block) -> Result<Saved, Refusal> {
        let mut out = Out::default();
        let code = call!(self.write_back(block.0, &mut out.image, &mut out.offset));
        self.judged(code).map(|code| Saved::of(code, out))
    }

    /// Makes everything landed last: stored if something was unconfirmed, a metadata page; else nothing to do.
    ///
    /// # Errors
    /// 3 to 6, and 13 (stamps).
    pub fn flush(&mut self) -> Result<Saved, Refusal> {
        let mut out = Out::default();
        let code = call!(self.flush(&mut out.image, &mut out.offset));
        self.judged(code).map(|code| Saved::of(code, out))
    }

    /// A code that is no refusal, of a call that judges by the record.
    fn judged(&self, code: u32) -> Result<u32, Refusal> {
        judged(code, || self.wrong_length(self.record.geometry()))
    }

    /// The first wrong length.
    fn wrong_length(&self, geometry: Geometry) -> Option<WrongLength> {
        let lengths = [
            (Lent::Ssd, self.images.ssd.len(), geometry.ssd_bytes()),
            (Lent::Hdd, self.images.hdd.len(), geometry.hdd_bytes()),
            (Lent::Table, self.table.len(), geometry.table_words()),
        ];
        let wrong = lengths
            .into_iter()
            .find(|(_, has, expected)| has != expected);
        wrong.map(|(of, has, expected)| WrongLength { of, has, expected })
    }
}

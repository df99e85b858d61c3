//! A random list: which call comes next, when power fails, and how the box is reopened.

use cases::beside::Beside;
use cases::looked::condition;
use cases::random::Random;
use cases::rig::{Answer, Call, Said};
use cases::stored::{page, LANDED_PAGES};
use ferjulm::{Block, Caller, Condition, Geometry, Slot, PAGE};
use std::collections::{BTreeMap, BTreeSet};

/// How often each call is made, in hundredths: offer, also of a list, land, fetch, land a fetch, look up, view or map, write back, flush;
/// the rest are calls that must be refused.
type Weights = [u32; 8];

/// What a list does for a while: opens many slots, lands them, or does a bit of everything.
const MOODS: [Weights; 3] = [
    [56, 0, 16, 0, 4, 1, 19, 0],
    [20, 40, 5, 15, 5, 3, 5, 2],
    [25, 20, 8, 10, 10, 4, 15, 3],
];

/// A cut comes as often as this, for a while.
const CUT_ONCE_IN: [u32; 4] = [10, 30, 100, 300];

/// What happened, over all lists.
#[derive(Default)]
pub struct Counts {
    pub events: u32,
    pub cuts: u32,
    pub cuts_while_recovering: u32,
    pub copied_out: u32,
    pub most_open: usize,
    /// Reopenings with so many metadata pages to store.
    pub recovered: [u32; 4],
    pub refused: BTreeMap<u32, u32>,
    /// Fetches of a block that was open for writing, open for fetch, cached and not open.
    pub fetched_again: [u32; 3],
    /// How often several open blocks were landed in two orders.
    pub landed_twice: u32,
    /// Lists that were looked up.
    pub looked_up_lists: u32,
    /// Lists that were offered and not refused: the whole list, a part of it, no place but a copy-out; and by one store so many slots
    /// at most.
    pub offered_lists: [u32; 3],
    pub most_announced: usize,
    /// Cuts in a list that was offered and stored a page, the page old or new.
    pub cut_lists: u32,
    /// Look-ups of a block that was not cached, clean, dirty, open for writing, open for fetch.
    pub looked_up: [u32; 5],
    /// Slot maps that were not refused.
    pub mapped: u32,
    /// Costs of imports that were not refused.
    pub costed: u32,
}

/// A list in the making.
pub struct List<'a> {
    b: Beside,
    random: Random,
    /// For what is asked beside the list.
    aside: Random,
    mood: Weights,
    cut_once_in: u32,
    landed: u64,
    last: Option<(Call, Said)>,
    counts: &'a mut Counts,
}

impl<'a> List<'a> {
    /// A list on a ready box: its slots are filled, every other one clean.
    pub fn new(geometry: Geometry, seed: u64, counts: &'a mut Counts) -> Self {
        let mut random = Random(seed);
        let mut list = List {
            b: Beside::formatted(geometry),
            cut_once_in: random.of(&CUT_ONCE_IN),
            random,
            aside: Random(!seed),
            mood: MOODS[0],
            landed: 0,
            last: None,
            counts,
        };
        for block in (0..filled(geometry, &mut list.random)).map(Block) {
            let page = list.new_page();
            let (open, land) = match block.0 % 2 {
                0 => (Call::Offer(block, Caller::People), Call::Land(block, page)),
                _ => (Call::Fetch(block, Caller::People), Call::LandFetch(block)),
            };
            list.must(open);
            list.must(land);
        }
        list
    }

    /// So many events, or a few more.
    pub fn run(mut self, events: u32) {
        let end = self.counts.events + events;
        while self.counts.events < end {
            self.event();
        }
        self.b.check_reads();
    }

    /// Any block; one that was not cached at first; or the block of a slot, which is any or an end of a metadata page.
    fn block(&mut self) -> Block {
        let Geometry { slots, blocks, .. } = self.b.geometry;
        let slot = match self.random.below(10) {
            0..=2 => return Block(self.random.below(blocks)),
            3..=5 => return Block(slots + self.random.below(blocks - slots)),
            6..=8 => self.random.below(slots),
            _ => self.random.of(&[239, 240, 479, 480]) % slots,
        };
        Block(self.b.rig.table[2 * slot as usize])
    }

    /// The block of an open slot, if there is one; now and then any block.
    fn open_block(&mut self) -> Block {
        let open: Vec<_> = self.b.rig.record.window().collect();
        if open.is_empty() || self.random.once_in(5) {
            return self.block();
        }
        let slot = self.random.of(&open);
        Block(self.b.rig.table[2 * slot.0 as usize])
    }

    /// People, or now and then the import.
    fn caller(&mut self) -> Caller {
        match self.random.once_in(3) {
            true => Caller::Import,
            false => Caller::People,
        }
    }

    fn new_page(&mut self) -> Vec<u8> {
        self.landed += 1;
        page(LANDED_PAGES + self.landed)
    }

    /// What a caller would mostly do after the last call: try again what was copied out, write what was written back.
    fn next_of(&mut self) -> Option<Call> {
        if self.random.once_in(4) {
            return None;
        }
        match self.last.take()? {
            (call, Ok(Answer::CopiedOut)) => Some(call),
            (Call::WriteBack(block), Ok(Answer::Done)) => Some(Call::Offer(block, Caller::People)),
            _ => None,
        }
    }

    /// The next call.
    fn call(&mut self) -> Call {
        if let Some(call) = self.next_of() {
            return call;
        }
        let mut at = self.random.below(100);
        let mut kind = 0;
        while kind < self.mood.len() && at >= self.mood[kind] {
            at -= self.mood[kind];
            kind += 1;
        }
        match kind {
            0 if self.random.once_in(5) => self.offer_list(),
            0 => Call::Offer(self.block(), self.caller()),
            1 => Call::Land(self.open_block(), self.new_page()),
            2 => Call::Fetch(self.block(), self.caller()),
            3 => Call::LandFetch(self.open_block()),
            4 if self.random.once_in(3) => self.list(),
            4 => Call::LookUp(self.block()),
            5 if self.random.once_in(3) => {
                Call::Map(self.b.geometry.map_bytes() + self.random.below(3) as usize)
            }
            5 => Call::View(self.block()),
            6 => Call::WriteBack(self.block()),
            7 => Call::Flush,
            _ => self.refused_call(),
        }
    }

    /// A list look-up of a few blocks, or of 64: a block may come twice.
    fn list(&mut self) -> Call {
        let n = self.random.of(&[1, 2, 5, 64]);
        Call::list((0..n).map(|_| self.block()).collect::<Vec<_>>().into_iter())
    }

    /// Now and then, what an import of such a list as is offered would cost, or with another scratch table. It changes nothing, and has random
    /// numbers of its own, so that the list is the same without it.
    fn ask_cost(&mut self) {
        std::mem::swap(&mut self.random, &mut self.aside);
        if self.b.serves() && self.random.once_in(100) {
            let Call::OfferList(blocks, caller) = self.offer_list() else {
                panic!("a list that is offered");
            };
            let more = match self.random.once_in(20) {
                true => self.random.of(&[-2, -1, 1, 2]),
                false => 0,
            };
            let said = self.b.rig.make(&Call::Cost(blocks, caller, more)).said;
            self.counts.costed += said.is_ok() as u32;
        }
        std::mem::swap(&mut self.random, &mut self.aside);
    }

    /// A list of a few blocks, or of any number up to 65, is offered: half of them have no open block, and now and then one comes twice.
    fn offer_list(&mut self) -> Call {
        let n = match self.random.once_in(3) {
            true => self.random.below(66),
            false => 1 + self.random.below(6),
        };
        let mut blocks: Vec<Block> = (0..n).map(|_| self.block()).collect();
        if !self.random.once_in(10) {
            let mut seen = BTreeSet::new();
            blocks.retain(|block| seen.insert(block.0));
        }
        if self.random.once_in(2) {
            let table = &self.b.rig.table;
            let is_open =
                |condition| matches!(condition, Condition::OpenWrite(_) | Condition::OpenFetch(_));
            blocks.retain(|block| !is_open(condition(table, *block)));
        }
        Call::OfferList(blocks, self.caller())
    }

    /// A call that a ready box refuses.
    fn refused_call(&mut self) -> Call {
        let Geometry { slots, blocks, .. } = self.b.geometry;
        let high = Block(blocks + self.random.below(3));
        match self.random.below(10) {
            6 => Call::list([self.block(), high].into_iter()),
            7 => Call::LookUpList(
                vec![high; self.random.of(&[0, 2, 65])],
                65 - 64 * self.random.below(2) as usize,
            ),
            0 => Call::Offer(high, Caller::People),
            1 => Call::View(high),
            2 => Call::Land(self.open_block(), vec![0; PAGE - 1]),
            3 => Call::Step,
            4 => Call::Format(Geometry::new(0, blocks)),
            5 => Call::Map(self.b.geometry.map_bytes() - 1),
            8 => Call::OfferList(
                self.random.of(&[&[][..], &[high, high], &[high]]).to_vec(),
                Caller::Import,
            ),
            _ => Call::Format(Geometry::new(slots + 1, blocks)),
        }
    }

    /// Which of `fetched_again` a fetch of a ready box will be, and the number that refuses it: 8 where the block is open for
    /// writing, else 10 (document 02, N9).
    fn fetched_again(&self, call: &Call) -> Option<(usize, u32)> {
        let Call::Fetch(block, _) = call else {
            return None;
        };
        let slot = self.b.rig.slot_of(*block).filter(|_| self.b.rig.ready())?;
        match self.b.rig.table[2 * slot.0 as usize + 1] & 6 {
            6 => Some((0, 8)),
            4 => Some((1, 10)),
            _ => Some((2, 10)),
        }
    }

    /// Counts a list that was offered and answered so, with so many slots open before it.
    fn count_list(&mut self, blocks: &[Block], answer: Answer, open: usize) {
        let kind = match answer {
            Answer::Dealt(places) if places == blocks.len() => 0,
            Answer::Dealt(_) => 1,
            _ => 2,
        };
        self.counts.offered_lists[kind] += 1;
        let announced = self.b.rig.record.window().count() - open;
        self.counts.most_announced = self.counts.most_announced.max(announced);
    }

    fn make(&mut self, call: Call) {
        self.counts.events += 1;
        let again = self.fetched_again(&call);
        let open = self.b.rig.record.window().count();
        let said = self.b.make(&call);
        if let (Call::OfferList(blocks, _), Ok(answer)) = (&call, said) {
            self.count_list(blocks, answer, open);
        }
        if let Some((which, number)) = again {
            assert_eq!(
                said.map_err(|refusal| refusal.number()),
                Err(number),
                "{call:?}"
            );
            self.counts.fetched_again[which] += 1;
        }
        match said {
            Ok(Answer::CopiedOut) => self.counts.copied_out += 1,
            Ok(_) if matches!(call, Call::Map(_)) => self.counts.mapped += 1,
            Ok(Answer::Looked(condition)) => self.counts.looked_up[kind_of(condition)] += 1,
            Ok(_) if matches!(call, Call::LookUpList(..)) => self.counts.looked_up_lists += 1,
            Ok(_) => {}
            Err(refusal) => *self.counts.refused.entry(refusal.number()).or_default() += 1,
        }
        let open = self.b.rig.record.window().count();
        self.counts.most_open = self.counts.most_open.max(open);
        self.last = Some((call, said));
        self.ask_cost();
    }

    /// Makes a call that must be refused.
    fn make_refused(&mut self) {
        let call = self.refused_call();
        self.make(call);
        let refused = matches!(self.last, Some((_, Err(_))));
        assert!(refused, "not refused: {:?}", self.last);
    }

    /// Makes a call that may not be refused.
    fn must(&mut self, call: Call) {
        self.make(call);
        let made = matches!(self.last, Some((_, Ok(_))));
        assert!(made, "refused: {:?}", self.last);
    }

    /// Cuts power, in a call or between two; any words stand in record and table then.
    fn cut(&mut self, call: Option<Call>) {
        self.counts.events += 1;
        self.counts.cuts += 1;
        self.counts.cuts_while_recovering += self.b.recovering() as u32;
        let mask = self.random.of(&[u32::MAX, 15, 0]);
        let arrives = self.random.once_in(2);
        let random = &mut self.random;
        let word = || random.word() & mask;
        match &call {
            Some(call) => self.b.cut_in(call, arrives, word),
            None => self.b.cut(word),
        }
        let stored = self.b.stored.is_some();
        self.counts.cut_lists += (stored && matches!(call, Some(Call::OfferList(..)))) as u32;
        self.last = None;
    }

    /// Reopens till a reopening is finished; most are cut while recovering.
    fn reopen(&mut self) {
        self.must(Call::Reopen);
        let steps = self.pending_pages();
        self.counts.recovered[steps] += 1;
        let uncut = self.random.once_in(15);
        while self.b.recovering() {
            match self.random.below(20) {
                0 => self.make(Call::Offer(Block(0), Caller::People)),
                1..=3 => self.must(Call::Step),
                _ if uncut => self.must(Call::Step),
                4..=6 => return self.cut_and_reopen(None),
                _ => return self.cut_and_reopen(Some(Call::Step)),
            }
        }
        let made = self.b.recover() as usize;
        assert_eq!(made, steps, "a step for each page with a pending slot");
    }

    /// How many metadata pages have a pending slot.
    fn pending_pages(&self) -> usize {
        if !self.b.recovering() {
            return 0;
        }
        let pending = self.b.rig.record.window();
        let pages: BTreeSet<u32> = pending.map(|slot| slot.0 / 240).collect();
        pages.len()
    }

    fn cut_and_reopen(&mut self, call: Option<Call>) {
        self.cut(call);
        if self.random.once_in(30) {
            self.cut(Some(Call::Reopen));
        }
        self.reopen();
    }

    /// A reopening with a table that is a word short is refused by 4.
    fn reopen_short(&mut self) {
        let word = self.b.rig.table.pop().expect("a word");
        let said = self.b.attempt(&Call::Reopen);
        assert_eq!(said.map_err(|refusal| refusal.number()), Err(4));
        self.b.rig.table.push(word);
        self.counts.events += 1;
    }

    /// Lands all open blocks in one order and in the reverse of it, on copies of the box: both leave the same (document 02, N11).
    fn land_twice(&mut self) {
        let mut calls: Vec<Call> = self
            .b
            .rig
            .record
            .window()
            .map(|slot| self.landing(slot))
            .collect();
        let landed = |calls: &[Call]| {
            let mut rig = self.b.rig.clone();
            calls.iter().for_each(|call| {
                rig.make_told(call)
                    .said
                    .expect("a landing of an open block");
            });
            rig
        };
        let one = landed(&calls);
        calls.reverse();
        assert!(
            one == landed(&calls),
            "another order leaves another box: {calls:?}"
        );
        self.counts.landed_twice += (calls.len() > 1) as u32;
    }

    /// The landing of an open slot.
    fn landing(&self, slot: Slot) -> Call {
        let at = 2 * slot.0 as usize;
        let block = Block(self.b.rig.table[at]);
        match self.b.rig.table[at + 1] & 2 {
            0 => Call::LandFetch(block),
            _ => Call::Land(block, page(LANDED_PAGES + at as u64)),
        }
    }

    /// One event of a ready box; it is ready again afterwards.
    fn event(&mut self) {
        if self.counts.events % 100 == 0 {
            self.land_twice();
        }
        if self.random.once_in(300) {
            self.mood = self.random.of(&MOODS);
            self.cut_once_in = self.random.of(&CUT_ONCE_IN);
        }
        if self.random.once_in(self.cut_once_in) {
            let call = (!self.random.once_in(8)).then(|| self.call());
            self.cut_and_reopen(call);
        } else if self.random.once_in(200) {
            self.reopen();
        } else if self.random.once_in(200) {
            self.reopen_short();
        } else if self.random.once_in(20) {
            self.make_refused();
        } else {
            let call = self.call();
            self.make(call);
        }
    }
}

/// Which of `looked_up` a look-up is.
fn kind_of(condition: Condition) -> usize {
    match condition {
        Condition::NotCached => 0,
        Condition::Clean(_) => 1,
        Condition::Dirty(_) => 2,
        Condition::OpenWrite(_) => 3,
        Condition::OpenFetch(_) => 4,
    }
}

/// How many slots a list fills before its first event: where there are several metadata pages, up to a few before the last
/// page, so that the next sweeps open slots in that page and, wrapping, in the first. A reopening sets the hand to 0, and
/// sweeps seldom come as far again.
fn filled(geometry: Geometry, random: &mut Random) -> u32 {
    match geometry.metadata_pages() as u32 {
        1 => geometry.slots,
        pages => 240 * (pages - 1) - random.below(6),
    }
}

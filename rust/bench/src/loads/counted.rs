//! A box whose stores are counted by what changed in its images.

use crate::image::PAGE;
use crate::proved::Proved;
use crate::world::{meta_pages, Call, Side, World, PHASE, READY, RECORD};

/// Pages stored, by where they lie.
#[derive(Clone, Copy, Default)]
pub struct Stores {
    pub metadata: u64,
    pub data: u64,
    pub copy_outs: u64,
}

/// A page landed or first on the disk repeats a number of 8 bytes that no other has, so a store shows in a page's first bytes, as
/// it does in a metadata page's stamp.
pub struct Counted {
    pub world: World,
    pub stores: Stores,
    heads: Vec<u64>,
    calls: u64,
}

pub fn fill(page: &mut [u8], number: u64) {
    page.chunks_exact_mut(8)
        .for_each(|part| part.copy_from_slice(&number.to_le_bytes()));
}

fn head(page: &[u8]) -> u64 {
    u64::from_le_bytes(page[..8].try_into().unwrap())
}

impl Counted {
    /// A formatted box; block b's page repeats b + 1.
    pub fn new(slots: u32, blocks: u32) -> Counted {
        let mut world = World::empty(slots, blocks);
        for (b, page) in world.hdd.chunks_exact_mut(PAGE).enumerate() {
            fill(page, b as u64 + 1);
        }
        assert!(Proved::make(&mut world, Call::Format(slots, blocks)) == 0);
        while world.record[PHASE] != READY {
            assert!(Proved::make(&mut world, Call::Step) == 0);
        }
        let mut counted = Counted {
            world,
            stores: Stores::default(),
            heads: Vec::new(),
            calls: 0,
        };
        counted.heads = counted.pages().map(head).collect();
        counted
    }

    fn pages(&self) -> impl Iterator<Item = &[u8]> {
        self.world
            .ssd
            .chunks_exact(PAGE)
            .chain(self.world.hdd.chunks_exact(PAGE))
    }

    /// Makes a call and counts the page that it changed, if any.
    pub fn call(&mut self, call: Call) -> u32 {
        let answer = Proved::make(&mut self.world, call);
        let now: Vec<u64> = self.pages().map(head).collect();
        let changed = (0..now.len()).filter(|i| now[*i] != self.heads[*i]);
        let places: Vec<usize> = changed.collect();
        assert!(places.len() <= 1, "a call stores at most one page");
        let (first_data, first_hdd) = self.borders();
        match places.first() {
            Some(i) if *i >= first_hdd => self.stores.copy_outs += 1,
            Some(i) if *i >= first_data => self.stores.data += 1,
            Some(_) => self.stores.metadata += 1,
            None => {}
        }
        self.heads = now;
        self.calls += 1;
        if self.calls % 1_024 == 0 {
            self.check_whole();
        }
        answer
    }

    /// The places of the first data page and of the HDD's first page.
    fn borders(&self) -> (usize, usize) {
        (
            1 + meta_pages(self.world.record[0]) as usize,
            self.world.ssd.len() / PAGE,
        )
    }

    /// Every data page is one that was landed as a whole: what its first bytes show holds of all of it.
    fn check_whole(&self) {
        let whole = |page: &[u8]| page.chunks_exact(8).all(|part| part == &page[..8]);
        assert!(
            self.pages().skip(self.borders().0).all(whole),
            "pages are stored whole"
        );
    }

    /// Slots with a block after a cut at this moment. Reopening reads the images alone, so the box can go on.
    pub fn kept_after_cut(&mut self) -> usize {
        let w = &mut self.world;
        let lost = vec![0xffff_ffff; w.table.len()];
        let table = std::mem::replace(&mut w.table, lost);
        let record = std::mem::replace(&mut w.record, vec![0xffff_ffff; RECORD]);
        assert!(
            Proved::make(w, Call::Reopen) == 0,
            "a box that was cut reopens"
        );
        let kept = w.table.chunks_exact(2).filter(|row| row[1] != 0).count();
        (w.table, w.record) = (table, record);
        kept
    }

    /// The number that a block reads as.
    pub fn read(&mut self, block: u32) -> u64 {
        assert!(self.call(Call::View(block)) == 0);
        let image = if self.world.image == 1 {
            &self.world.ssd
        } else {
            &self.world.hdd
        };
        head(&image[self.world.offset as usize..])
    }
}

//! A box beside the plain disk: every call is made on the one and fed to the other, and what document 01 promises of both is
//! checked at every cut and at every finished reopening.

use crate::disk::PlainDisk;
use crate::kept::{outside, Kept};
use crate::place::{check_alone, copy, Memory};
use crate::rig::{Answer, Call, Rig, Said};
use crate::stored::Metas;
use ferjulm::{Geometry, Image, Images, Place};

/// A list of calls and cuts in the making.
#[derive(Clone)]
pub struct Beside {
    pub geometry: Geometry,
    pub rig: Rig,
    /// The page that the last call named as stored.
    pub stored: Option<Place>,
    disk: PlainDisk,
    /// The images as all stores done have left them: what a cut finds.
    drives: Images<Vec<u8>>,
    /// What no reopening may take, from the first cut till a reopening is finished.
    kept: Vec<Kept>,
    /// Whether record and table are lost.
    lost: bool,
    /// Steps of recovery since the last reopening.
    steps: u32,
    /// The call before, if it was answered "copied out".
    copied_out: Option<Call>,
}

impl Beside {
    pub fn formatted(geometry: Geometry) -> Self {
        Beside::of(geometry, Rig::formatted(geometry))
    }

    /// "what a format's last step left"
    pub fn of(geometry: Geometry, rig: Rig) -> Self {
        Beside {
            geometry,
            disk: PlainDisk::new(&rig.images.hdd),
            drives: rig.images.clone(),
            rig,
            stored: None,
            kept: Vec::new(),
            lost: false,
            steps: 0,
            copied_out: None,
        }
    }

    /// Makes a call.
    pub fn make(&mut self, call: &Call) -> Said {
        let promised = match call {
            Call::Reopen => self.outside(),
            _ => Vec::new(),
        };
        let stamps_left = self.rig.record.newest() < u32::MAX;
        let flushes = self.serves() && stamps_left && *call == Call::Flush;
        let said = self.attempt(call);
        assert!(
            said.is_ok() || !flushes,
            "a flush of a ready box was refused"
        );
        if said.is_ok() {
            self.kept.extend(promised);
            self.carry();
            self.feed(call);
        }
        said
    }

    /// Power fails in a call: its page, if it stores one, arrives or not, and the call counts as made exactly if it did. Then
    /// record and table are lost, and any words stand in them.
    pub fn cut_in(&mut self, call: &Call, arrives: bool, word: impl FnMut() -> u32) {
        let before = self.memory();
        let said = self.attempt(call);
        if said.is_ok() && arrives && self.stored.is_some() {
            self.carry();
            self.feed(call);
        } else {
            self.take_back();
            self.recall(before);
        }
        self.cut(word);
    }

    /// Power fails between two calls.
    pub fn cut(&mut self, word: impl FnMut() -> u32) {
        if self.serves() {
            self.check_reads();
        }
        let promised = self.outside();
        self.kept.extend(promised);
        self.rig.forget(word);
        self.lost = true;
        self.copied_out = None;
    }

    /// Steps until the box is ready: how many.
    pub fn recover(&mut self) -> u32 {
        while self.recovering() {
            self.make(&Call::Step)
                .expect("no step of a recovery is refused");
        }
        self.steps
    }

    /// Whether it is ready, with record and table at hand.
    pub fn serves(&self) -> bool {
        !self.lost && self.rig.ready()
    }

    /// Whether it is recovering, with record and table at hand.
    pub fn recovering(&self) -> bool {
        !self.lost && self.rig.recovering()
    }

    /// Makes a call on the images in memory: the page that it names is the one that document 01 says, no other changes, and
    /// nothing at all if it is refused.
    pub fn attempt(&mut self, call: &Call) -> Said {
        let before = self.memory();
        let made = self.rig.make_told(call);
        check_alone(&self.drives, &self.rig.images, call, &made);
        let said = made.said;
        self.stored = made.stored;
        if said.is_err() {
            let same = self.stored.is_none() && before == self.memory();
            assert!(same, "{call:?} was refused and changed something");
        }
        let copied_out = said == Ok(Answer::CopiedOut);
        let again = copied_out && self.copied_out.as_ref() == Some(call);
        assert!(!again, "{call:?} was copied out twice running");
        self.copied_out = copied_out.then(|| call.clone());
        said
    }

    /// What a reopening that begins now, or after a cut now, may not take.
    fn outside(&mut self) -> Vec<Kept> {
        let serves = self.serves();
        outside(&mut self.rig, self.geometry, serves)
    }

    /// What a cut loses.
    fn memory(&self) -> Memory {
        Memory::of(&self.rig)
    }

    /// Puts back what a cut loses.
    fn recall(&mut self, memory: Memory) {
        (self.rig.table, self.rig.record) = (memory.table, memory.record);
    }

    /// The page that was named reaches its drive: that page, and nothing else.
    fn carry(&mut self) {
        if let Some(place) = self.stored {
            copy(place, &self.rig.images, &mut self.drives);
        }
    }

    /// It does not, and memory is read again from the drive.
    fn take_back(&mut self) {
        if let Some(place) = self.stored {
            copy(place, &self.drives, &mut self.rig.images);
        }
    }

    /// Tells the plain disk of a call that was made.
    fn feed(&mut self, call: &Call) {
        match call {
            Call::Land(block, page) => self.disk.landed(*block, page),
            Call::Flush => self.disk.flushed(),
            Call::Reopen => self.reopened(),
            Call::Step => {
                self.steps += 1;
                assert!(self.steps <= 63, "mending takes at most 63 steps");
                self.finished();
            }
            _ => {}
        }
    }

    fn reopened(&mut self) {
        (self.steps, self.lost) = (0, false);
        let metas = Metas::read(self.geometry, &self.drives.ssd);
        self.kept
            .iter()
            .for_each(|kept| kept.check_row(&self.rig, &metas));
        self.finished();
    }

    /// Where a reopening is finished, what it promises.
    fn finished(&mut self) {
        if !self.rig.ready() {
            return;
        }
        let cache = self.rig.cache();
        for block in self.disk.blocks() {
            let view = cache
                .view(block)
                .expect("no view of a ready box is refused");
            self.disk.reopened(block, view.page);
        }
        for kept in self.kept.drain(..) {
            kept.check(&mut self.rig);
        }
        self.check_reads();
    }

    /// A ready box reads as the plain disk; a closed slot named by a look-up holds the same, and is where a view finds the block.
    /// A block that is open or not cached lies on the HDD. None of these calls stores anything.
    pub fn check_reads(&mut self) {
        let before = self.memory();
        for block in self.disk.blocks() {
            let page = self.disk.page(block);
            let cache = self.rig.cache();
            let view = cache
                .view(block)
                .expect("no view of a ready box is refused");
            assert!(view.page == page, "{block:?} reads as something else");
            assert!(cache.page(view.place) == page, "{block:?} lies elsewhere");
            let place = view.place;
            let said = self.rig.make_told(&Call::LookUp(block)).said;
            let Ok(Answer::Looked(condition)) = said else {
                panic!("{block:?} is looked up: {said:?}");
            };
            let expected = match condition.closed() {
                Some(slot) => (Image::Ssd, self.geometry.slot_at(slot)),
                None => (Image::Hdd, self.geometry.block_at(block)),
            };
            assert_eq!((place.image, place.offset as usize), expected, "{block:?}");
        }
        assert!(self.rig.images == self.drives, "a read stored something");
        self.recall(before);
    }
}

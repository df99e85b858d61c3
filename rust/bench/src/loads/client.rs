//! A client of the box that reads and writes through it, with up to `depth` slots open, and flushes now and then.

use super::counted::{fill, Counted};
use super::orders::Events;
use super::trace::Request;
use crate::image::PAGE;
use crate::world::{Call, PEOPLE};
use std::collections::VecDeque;

/// An open slot's block, and the number to land for a write.
type Open = (u32, Option<u64>);

#[derive(Clone, Copy)]
pub struct How {
    /// How many slots are open at most.
    pub depth: usize,
    /// After how many landed writes it flushes; 0: never.
    pub flush_every: u64,
    /// Whether landing a write sets the used flag (document 02, N2). If not, the table gets it back as it was, after each landing:
    /// the slots that are taken are then those of the order before.
    pub landing_uses: bool,
}

pub struct Client {
    pub cache: Counted,
    pub events: Events,
    pub hits: u64,
    open: VecDeque<Open>,
    how: How,
    since_flush: u64,
    /// What each block should read as.
    wanted: Vec<u64>,
    next: u64,
    page: Vec<u8>,
}

impl Client {
    pub fn new(slots: u32, blocks: u32, how: How) -> Client {
        Client {
            cache: Counted::new(slots, blocks),
            events: Events::default(),
            hits: 0,
            open: VecDeque::new(),
            how,
            since_flush: 0,
            wanted: (1..=blocks as u64).collect(),
            next: blocks as u64,
            page: vec![0; PAGE],
        }
    }

    pub fn serve(&mut self, request: Request) {
        match request {
            Request::Read(block) => self.read(block),
            Request::Write(block) => self.write(block),
        }
    }

    /// Lands an open slot's page.
    fn finish(&mut self, at: usize) {
        let (block, number) = self.open.remove(at).unwrap();
        match number {
            Some(number) => {
                self.land(block, number);
                self.events.landed_write += 1;
            }
            None => {
                assert!(self.cache.call(Call::LandFetch(block)) == 0);
                self.events.landed_fetch += 1;
            }
        }
    }

    fn land(&mut self, block: u32, number: u64) {
        fill(&mut self.page, number);
        let at = self.flags_at(block).unwrap();
        let used = self.cache.world.table[at] & 8;
        assert!(self.cache.call(Call::Land(block, &self.page)) == 0);
        if !self.how.landing_uses {
            self.cache.world.table[at] = 3 + used;
        }
        self.wanted[block as usize] = number;
        self.since_flush += 1;
        if self.since_flush == self.how.flush_every {
            self.since_flush = 0;
            assert!([0, 106].contains(&self.cache.call(Call::Flush)));
        }
    }

    /// Where the table has the flags of the block's row, if it has one.
    fn flags_at(&self, block: u32) -> Option<usize> {
        let mut rows = self.cache.world.table.chunks_exact(2);
        let row = rows.position(|row| row[0] == block && row[1] != 0)?;
        Some(2 * row + 1)
    }

    /// Lands what is open for the block, and makes room for one more.
    fn make_room(&mut self, block: u32) {
        if let Some(at) = self.open.iter().position(|(b, _)| *b == block) {
            self.finish(at);
        }
        if self.open.len() == self.how.depth {
            self.finish(0);
        }
    }

    /// Offers or fetches until the block is announced or an overwrite; true if announced.
    fn announce(&mut self, call: Call) -> bool {
        loop {
            match self.cache.call(call) {
                101 => {
                    self.events.announced += 1;
                    return true;
                }
                102 => return false,
                103 => self.events.copied_out += 1,
                code => panic!("result code {code}"),
            }
        }
    }

    fn write(&mut self, block: u32) {
        self.make_room(block);
        self.hits += self.flags_at(block).is_some() as u64;
        self.next += 1;
        let number = self.next;
        if self.announce(Call::Offer(block, PEOPLE)) {
            self.open.push_back((block, Some(number)));
        } else {
            self.land(block, number);
            self.events.overwritten += 1;
        }
    }

    fn read(&mut self, block: u32) {
        self.make_room(block);
        if [108, 109].contains(&self.cache.call(Call::LookUp(block))) {
            self.hits += 1;
        } else {
            self.announce(Call::Fetch(block, PEOPLE));
            self.open.push_back((block, None));
        }
        assert!(
            self.cache.read(block) == self.wanted[block as usize],
            "a block reads as it was written"
        );
    }
}

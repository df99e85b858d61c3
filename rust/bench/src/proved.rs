//! The proved calls, by their C functions.

use crate::world::{Call, Side, World};
use ferjulm::calls;

pub struct Proved;

/// Lends a world's box to a call, and then what it sets besides: those of the world's parts that are named last.
macro_rules! lend {
    ($name:ident, $w:ident, ($($argument:expr),*), $($out:ident)*) => {
        calls::$name(&mut $w.ssd, &mut $w.hdd, &mut $w.table, &mut $w.record, $($argument,)* $(&mut $w.$out),*)
    };
}

impl Side for Proved {
    const INDEX: usize = 0;

    #[inline(always)]
    fn make(w: &mut World, call: Call) -> u32 {
        match call {
            Call::Format(slots, blocks) => lend!(format, w, (slots, blocks),),
            Call::Step => lend!(step, w, (), image offset),
            Call::Offer(block, caller) => lend!(offer, w, (block, caller), slot image offset),
            Call::OfferList(blocks, caller) => {
                lend!(offer_list, w, (blocks, caller), dealt image offset)
            }
            Call::Fetch(block, caller) => lend!(fetch, w, (block, caller), slot image offset),
            Call::Land(block, page) => lend!(land, w, (block, page), image offset),
            Call::LandFetch(block) => lend!(land_fetch, w, (block), image offset),
            Call::LookUp(block) => lend!(look_up, w, (block), slot),
            Call::LookUpList(blocks, room) => {
                let words = &mut w.words[..room];
                calls::look_up_list(&w.ssd, &w.hdd, &mut w.table, &w.record, blocks, words)
            }
            Call::View(block) => lend!(view, w, (block), image offset),
            Call::Map(room) => {
                calls::map(&w.ssd, &w.hdd, &w.table, &w.record, &mut w.sheet[..room])
            }
            Call::Cost(blocks, caller, words) => {
                let scratch = &mut w.scratch[..words];
                let (counts, met) = (&mut w.counts, &mut w.met);
                calls::cost(
                    &w.ssd, &w.hdd, &w.table, &w.record, blocks, caller, scratch, counts, met,
                )
            }
            Call::WriteBack(block) => lend!(write_back, w, (block), image offset),
            Call::Flush => lend!(flush, w, (), image offset),
            Call::Reopen => lend!(reopen, w, (),),
        }
    }
}

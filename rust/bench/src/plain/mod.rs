//! The same calls in plain safe Rust, written from the documents, with the same checks in the same order.

mod calls;
mod import;
mod judge;
mod list;
mod map;
mod moves;
mod offers;
pub mod record;
mod reopen;
mod steps;
mod sweep;

use crate::world::{Call, Side, World};
pub use moves::encode;

pub struct Plain;

impl Side for Plain {
    const INDEX: usize = 1;

    #[inline(always)]
    fn make(w: &mut World, call: Call) -> u32 {
        let answer = match call {
            Call::Format(slots, blocks) => steps::format(w, slots, blocks),
            Call::Step => steps::step(w),
            Call::Offer(block, caller) => calls::offer(w, block, caller),
            Call::OfferList(blocks, caller) => offers::offer_list(w, blocks, caller),
            Call::Fetch(block, caller) => calls::fetch(w, block, caller),
            Call::Land(block, page) => calls::land(w, block, page),
            Call::LandFetch(block) => calls::land_fetch(w, block),
            Call::LookUp(block) => calls::look_up(w, block),
            Call::LookUpList(blocks, room) => list::look_up_list(w, blocks, room),
            Call::View(block) => calls::view(w, block),
            Call::Map(room) => map::map(w, room),
            Call::Cost(blocks, caller, words) => import::cost(w, blocks, caller, words),
            Call::WriteBack(block) => calls::write_back(w, block),
            Call::Flush => calls::flush(w),
            Call::Reopen => reopen::reopen(w),
        };
        answer.unwrap_or_else(|number| number)
    }
}

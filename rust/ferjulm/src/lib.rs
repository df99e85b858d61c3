//! An SSD as read and write cache of a slow disk, of which nothing that was flushed is lost by a power cut.
//!
//! The calls are proved code behind C functions (`include/ferjulm.h`, linked from `crates/ferjulm/out`); this crate lends them
//! images, table and record safely. "Document 01" is the specification; its words are used as they are. The crate needs no
//! standard library: the feature `std`, a default one, adds images on the heap and a refusal as an `std::io::Error`.
//!
//! ```
//! use ferjulm::{Block, Cache, Caller, Condition, Geometry, Images, Offered, Place, Record, Refusal, PAGE};
//!
//! // where the images are kept on drives, a stored page is written to its drive here, and synced
//! let store = |_: Place, _: &[u8; PAGE]| Ok::<(), Refusal>(());
//!
//! let geometry = Geometry::new(4, 8);
//! let mut images = Images::zeroed(geometry);
//! let mut table = vec![0; geometry.table_words()];
//! let mut record = Record::default();
//!
//! let mut cache = Cache::new(images.lend(), &mut table, &mut record);
//! cache.format(geometry)?;
//! assert_eq!(cache.finish(store)?, 3);
//! let offered = cache.offer(Block(5), Caller::People)?;
//! if let Some(place) = offered.stored() {
//!     store(place, cache.page(place))?;
//! }
//! assert!(matches!(offered, Offered::Announced { .. }));
//! let place = cache.land(Block(5), &[7; PAGE])?;
//! store(place, cache.page(place))?;
//! if let Some(place) = cache.flush()?.stored() {
//!     store(place, cache.page(place))?;
//! }
//!
//! // another write is announced, and power fails: table and record are lost
//! cache.offer(Block(6), Caller::People)?;
//! table.fill(0);
//! record = Record::default();
//! assert_eq!(Geometry::of_label(&images.ssd), Some(geometry));
//! let mut cache = Cache::new(images.lend(), &mut table, &mut record);
//! cache.reopen()?;
//! assert_eq!(cache.finish(store)?, 1);
//! assert_eq!(cache.view(Block(5))?.page, &[7; PAGE]);
//! assert_eq!(cache.look_up(Block(6))?, Condition::NotCached);
//! assert_eq!(cache.land(Block(6), &[8; PAGE]).unwrap_err().number(), 9);
//! # Ok::<(), Refusal>(())
//! ```
#![no_std]

#[cfg(feature = "std")]
extern crate std;

mod answer;
mod cache;
pub mod calls;
mod ffi;
mod geometry;
mod place;
mod record;
mod refusal;

pub use answer::{Condition, Cost, Counts, Fetched, Offered, OfferedList, Saved, View};
pub use cache::Cache;
pub use geometry::{Block, Geometry, Images, Slot, PAGE};
pub use place::{Image, Place};
pub use record::{Caller, Phase, Record, RECORD_WORDS};
pub use refusal::{Lent, Refusal, WrongLength};

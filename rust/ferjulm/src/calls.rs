//! The calls as C has them, over slices of any length and any words: they return the result code. Out-parameters are as the
//! header tells: `slot` and `dealt` are set exactly where the answer carries one; where a call is not refused, `image` becomes 0 (nothing
//! stored), 1 (SSD) or 2 (HDD), and `offset` the first byte of the page that was stored there. [`Cache`](crate::Cache) is the
//! same with names and types.
#![allow(clippy::too_many_arguments)]

use crate::ffi;

/// A lent slice as C takes it.
trait Lent {
    type Pointer;
    fn lent(self) -> (Self::Pointer, usize);
}

impl<T> Lent for &[T] {
    type Pointer = *const T;
    fn lent(self) -> (*const T, usize) {
        (self.as_ptr(), self.len())
    }
}

impl<T> Lent for &mut [T] {
    type Pointer = *mut T;
    fn lent(self) -> (*mut T, usize) {
        (self.as_mut_ptr(), self.len())
    }
}

/// Calls a C function with pointer and length of each slice, then the arguments. Sound for any slices: no reference is null,
/// `&mut` overlaps with nothing, and the C functions are proved to stay within the lengths that they are told.
macro_rules! lend {
    ($name:ident($($slice:ident),*; $($argument:expr),*)) => {{
        $(let $slice = $slice.lent();)*
        lend!(@ $name ($($slice)*) ($($argument),*))
    }};
    (@ $name:ident ($ssd:ident) ($($argument:expr),*)) => {
        unsafe { ffi::$name($ssd.0, $ssd.1, $($argument),*) }
    };
    (@ $name:ident ($ssd:ident $hdd:ident $table:ident $record:ident) ($($argument:expr),*)) => {
        unsafe { ffi::$name($ssd.0, $ssd.1, $hdd.0, $hdd.1, $table.0, $table.1, $record.0, $record.1, $($argument),*) }
    };
}

macro_rules! calls {
    ($($(#[$doc:meta])* $name:ident, $c:ident($ssd:ty, $hdd:ty, $table:ty, $record:ty; $($argument:ident: $kind:ty),*);)*) => {$(
        $(#[$doc])*
        #[inline]
        pub fn $name(ssd: $ssd, hdd: $hdd, table: $table, record: $record, $($argument: $kind),*) -> u32 {
            lend!($c(ssd, hdd, table, record; $($argument),*))
        }
    )*};
}

calls! {
    /// Begins a format.
    format, ferjulm_format(&[u8], &[u8], &mut [u32], &mut [u32]; slots: u32, blocks: u32);
    /// Makes one step of a format or of a recovery.
    step, ferjulm_step(&mut [u8], &[u8], &[u32], &mut [u32]; image: &mut u32, offset: &mut u64);
    /// Fills table and record from the SSD.
    reopen, ferjulm_reopen(&[u8], &[u8], &mut [u32], &mut [u32];);
    /// Offers a write of a block, for a caller.
    offer, ferjulm_offer(&mut [u8], &mut [u8], &mut [u32], &mut [u32];
        block: u32, caller: u32, slot: &mut u32, image: &mut u32, offset: &mut u64);
    /// Finds and opens a slot for a block that is not cached, for a caller.
    fetch, ferjulm_fetch(&mut [u8], &mut [u8], &mut [u32], &mut [u32];
        block: u32, caller: u32, slot: &mut u32, image: &mut u32, offset: &mut u64);
    /// Copies the HDD page into the slot that a fetch opened.
    land_fetch, ferjulm_land_fetch(&mut [u8], &[u8], &mut [u32], &mut [u32]; block: u32, image: &mut u32, offset: &mut u64);
    /// Looks a block up.
    look_up, ferjulm_look_up(&[u8], &[u8], &mut [u32], &[u32]; block: u32, slot: &mut u32);
    /// Views a block: `image` becomes 1 for the SSD or 2 for the HDD, `offset` the page's first byte in it.
    view, ferjulm_view(&[u8], &[u8], &[u32], &[u32]; block: u32, image: &mut u32, offset: &mut u64);
    /// Writes a block back.
    write_back, ferjulm_write_back(&[u8], &mut [u8], &mut [u32], &mut [u32]; block: u32, image: &mut u32, offset: &mut u64);
    /// Stores metadata page 0 if unconfirmed.
    flush, ferjulm_flush(&mut [u8], &[u8], &[u32], &mut [u32]; image: &mut u32, offset: &mut u64);
}

/// Offers a list of blocks as one, for a caller: where the code is 112, `dealt` becomes how many of its places were dealt with.
#[inline]
pub fn offer_list(
    ssd: &mut [u8],
    hdd: &mut [u8],
    table: &mut [u32],
    record: &mut [u32],
    blocks: &[u32],
    caller: u32,
    dealt: &mut u32,
    image: &mut u32,
    offset: &mut u64,
) -> u32 {
    let (blocks, blocks_len) = blocks.lent();
    lend!(ferjulm_offer_list(ssd, hdd, table, record; blocks, blocks_len, caller, dealt, image, offset))
}

/// Lands a page for a block.
#[inline]
pub fn land(
    ssd: &mut [u8],
    hdd: &[u8],
    table: &mut [u32],
    record: &mut [u32],
    block: u32,
    page: &[u8],
    image: &mut u32,
    offset: &mut u64,
) -> u32 {
    let (page, page_len) = page.lent();
    lend!(ferjulm_land(ssd, hdd, table, record; block, page, page_len, image, offset))
}

/// Writes the slot map over the first bytes of a sheet.
#[inline]
pub fn map(ssd: &[u8], hdd: &[u8], table: &[u32], record: &[u32], sheet: &mut [u8]) -> u32 {
    let (sheet, sheet_len) = sheet.lent();
    lend!(ferjulm_map(ssd, hdd, table, record; sheet, sheet_len))
}

/// Looks a list of blocks up: `words` becomes the slot plus 1 of each, or 0 where it is open or not cached.
#[inline]
pub fn look_up_list(
    ssd: &[u8],
    hdd: &[u8],
    table: &mut [u32],
    record: &[u32],
    blocks: &[u32],
    words: &mut [u32],
) -> u32 {
    let (blocks, blocks_len) = blocks.lent();
    let (words, words_len) = words.lent();
    lend!(ferjulm_look_up_list(ssd, hdd, table, record; blocks, blocks_len, words, words_len))
}

/// Counts the stores of an import: `counts` becomes its copy-outs, metadata stores and data stores, and where the code is 113 `met` the
/// number and the list place of the refusal that it would meet. `scratch` becomes what it would leave of the table.
#[inline]
pub fn cost(
    ssd: &[u8],
    hdd: &[u8],
    table: &[u32],
    record: &[u32],
    blocks: &[u32],
    caller: u32,
    scratch: &mut [u32],
    counts: &mut [u32; 3],
    met: &mut [u32; 2],
) -> u32 {
    let (blocks, blocks_len) = blocks.lent();
    let (scratch, scratch_len) = scratch.lent();
    let [copy_outs, metadata, data] = counts;
    let [number, place] = met;
    lend!(ferjulm_cost(ssd, hdd, table, record; blocks, blocks_len, caller, scratch, scratch_len, copy_outs, metadata, data, number, place))
}

/// Reads the label page of an SSD image: 0 with `slots` and `blocks` set, or 2.
#[inline]
pub fn label(ssd: &[u8], slots: &mut u32, blocks: &mut u32) -> u32 {
    lend!(ferjulm_label(ssd; slots, blocks))
}

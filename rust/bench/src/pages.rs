//! Storing a page, and encoding a full metadata page, with neither box nor checks around them.

use crate::image::{Image, PAGE};
use crate::plain::{encode, Plain};
use crate::proved::Proved;
use crate::report::Table;
use crate::timing::{alternate, Times};
use crate::world::Side;
use std::hint::black_box;
use std::time::Instant;

const PAGES: usize = 64;
const CALLS: usize = 2_048;
const TURNS: usize = 600;
const SLOT: u32 = 56_789;

extern "C" {
    fn bench_store(image: *mut u8, len: usize, index: usize, page: *const u8, page_len: usize);
    fn bench_encode(
        out: *mut u8,
        len: usize,
        stamp: u32,
        slot: u32,
        rows: *const u32,
        rows_len: usize,
    );
}

trait Pages: Side {
    fn store(image: &mut [u8], index: usize, page: &[u8]);
    /// Encodes a page whose window names one slot 63 times, and copies it out.
    fn encode(out: &mut [u8], stamp: u32, rows: &[u32]);
}

impl Pages for Proved {
    #[inline(always)]
    fn store(image: &mut [u8], index: usize, page: &[u8]) {
        assert!(page.len() == PAGE && (index + 1) * PAGE <= image.len());
        unsafe {
            bench_store(
                image.as_mut_ptr(),
                image.len(),
                index,
                page.as_ptr(),
                page.len(),
            )
        }
    }

    #[inline(always)]
    fn encode(out: &mut [u8], stamp: u32, rows: &[u32]) {
        assert!(out.len() == PAGE && rows.len() <= 480 && rows.len() % 2 == 0);
        let (rows, len) = (rows.as_ptr(), rows.len());
        unsafe { bench_encode(out.as_mut_ptr(), out.len(), stamp, SLOT, rows, len) }
    }
}

impl Pages for Plain {
    #[inline(never)]
    fn store(image: &mut [u8], index: usize, page: &[u8]) {
        image[index * PAGE..(index + 1) * PAGE].copy_from_slice(page);
    }

    #[inline(never)]
    fn encode(out: &mut [u8], stamp: u32, rows: &[u32]) {
        out.copy_from_slice(&encode(stamp, &[SLOT; 63], rows));
    }
}

/// An image and a page for each side, the rows of a full metadata page, and what was timed.
struct Bench {
    images: [Image; 2],
    encoded: [Image; 2],
    page: Vec<u8>,
    rows: Vec<u32>,
    times: Times,
}

fn turn<S: Pages>(b: &mut Bench) {
    let start = Instant::now();
    for i in 0..CALLS {
        S::store(
            black_box(&mut b.images[S::INDEX]),
            i % PAGES,
            black_box(&b.page),
        );
    }
    let stored = Instant::now();
    for i in 0..CALLS {
        S::encode(
            black_box(&mut b.encoded[S::INDEX]),
            i as u32,
            black_box(&b.rows),
        );
    }
    let encoded = stored.elapsed();
    let each = |time: std::time::Duration| time.as_nanos() as f64 / CALLS as f64;
    b.times.note::<S>("store a page", each(stored - start));
    b.times.note::<S>(
        "encode a metadata page of 240 rows and 63 window slots",
        each(encoded),
    );
}

pub fn table() -> String {
    let flags = [1, 3, 5, 7, 9, 11, 13, 15];
    let mut b = Bench {
        images: [Image::new(PAGES), Image::new(PAGES)],
        encoded: [Image::new(1), Image::new(1)],
        page: (0..PAGE).map(|k| (k % 251) as u8).collect(),
        rows: (0..240)
            .flat_map(|k| [70_001 * k, flags[k as usize % 8]])
            .collect(),
        times: Times::default(),
    };
    alternate(TURNS, &mut b, [turn::<Proved>, turn::<Plain>]);
    assert!(
        b.images[0] == b.images[1] && b.encoded[0] == b.encoded[1],
        "both left the same"
    );
    assert!(
        b.images[0][..PAGE] == b.page[..] && b.encoded[0][4] == 63,
        "the pages are stored"
    );
    let mut table = Table::new(&["", "ratio (proved / plain)"]);
    b.times.rows().for_each(|row| table.row(row));
    table.text()
}

//! The slot map, line by line into the lent sheet.

use super::judge::serves;
use crate::image::PAGE;
use crate::world::{map_bytes, World};

/// A row's letter.
fn letter(flags: u32) -> u8 {
    match flags % 8 {
        0 => b'.',
        1 => b'c',
        3 => b'd',
        5 => b'f',
        _ => b'w',
    }
}

/// A number, right-aligned.
fn put_number(columns: &mut [u8], mut n: usize) {
    columns.fill(b' ');
    for column in columns.iter_mut().rev() {
        *column = b'0' + (n % 10) as u8;
        n /= 10;
        if n == 0 {
            break;
        }
    }
}

#[inline(never)]
pub fn map(w: &mut World, room: usize) -> Result<u32, u32> {
    let slots = serves(w, PAGE, None)?.record.slots;
    if room < map_bytes(slots) {
        return Err(14);
    }
    let lines = w.sheet[..room].chunks_exact_mut(67);
    for (k, (line, rows)) in lines.zip(w.table.chunks(120)).enumerate() {
        put_number(&mut line[..5], 60 * k);
        line[5..66].fill(b' ');
        let rows = rows.chunks_exact(2);
        for (place, row) in line[6..66].iter_mut().zip(rows) {
            *place = letter(row[1]);
        }
        line[66] = b'\n';
    }
    Ok(0)
}

//! What a slot map writes, by the table alone (document 02, N1).

use crate::call::Call;
use crate::place::Memory;
use crate::rig::Rig;
use ferjulm::Refusal;

/// What stands in a buffer before.
const UNWRITTEN: u8 = 0xa5;

fn letter(flags: u32) -> char {
    match flags & 7 {
        0 => '.',
        1 => 'c',
        3 => 'd',
        5 => 'f',
        7 => 'w',
        _ => panic!("flags {flags} of a box that is not refused"),
    }
}

/// The lines of a table's map, without the byte that ends each.
pub fn lines(table: &[u32]) -> Vec<String> {
    let lines = table.chunks(120).enumerate();
    lines
        .map(|(k, rows)| {
            let letters: String = rows.chunks(2).map(|row| letter(row[1])).collect();
            format!("{:>5} {letters:60}", 60 * k)
        })
        .collect()
}

/// The text of a table's map.
pub fn text(table: &[u32]) -> String {
    let lines = lines(table).into_iter();
    lines.map(|line| line + "\n").collect()
}

/// Makes a map into a buffer of so many bytes. It begins with the map's lines, and bytes after the last stay; all stay where it is
/// refused.
pub fn map(rig: &mut Rig, room: usize) -> Result<(), Refusal> {
    let mut sheet = vec![UNWRITTEN; room];
    let said = rig.cache().map(&mut sheet);
    let text = match said {
        Ok(()) => text(&rig.table),
        Err(_) => String::new(),
    };
    assert!(sheet.starts_with(text.as_bytes()), "a map of {room} bytes");
    let rest = &sheet[text.len()..];
    assert!(
        rest.iter().all(|&byte| byte == UNWRITTEN),
        "bytes after the map"
    );
    said
}

/// A map changes nothing in memory.
pub fn check(before: &Memory, after: &Rig, call: &Call) {
    if let Call::Map(_) = call {
        let same = before.table == after.table && before.record == after.record;
        assert!(same, "{call:?} changed something");
    }
}

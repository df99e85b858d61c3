//! A load of document 02, N10, by plain Rust's calls with the same checks: what the program `load` is timed beside (`loads/time`).

use crate::image::PAGE;
use crate::plain::Plain;
use crate::world::{Call, Side, World, PEOPLE, PHASE, READY};
use std::io::Read;

const SLOTS: u32 = 4;
const BLOCKS: u32 = 8;
const COPIED_OUT: u32 = 103;

fn is_refusal(code: u32) -> bool {
    (1..100).contains(&code)
}

fn make(w: &mut World, call: Call) -> u32 {
    match Plain::make(w, call) {
        COPIED_OUT => Plain::make(w, call),
        code => code,
    }
}

/// A landed page: the draw's 4 bytes, repeated.
fn page_of(s: u32) -> [u8; PAGE] {
    let mut page = [0; PAGE];
    for word in page.chunks_exact_mut(4) {
        word.copy_from_slice(&s.to_le_bytes());
    }
    page
}

/// Whether the draw was refused.
fn draw(w: &mut World, plain: &mut [u8], s: u32) -> bool {
    let block = s / 4 % BLOCKS;
    match s % 4 {
        0 => {
            if is_refusal(make(w, Call::Offer(block, PEOPLE))) {
                return true;
            }
            let page = page_of(s);
            if is_refusal(Plain::make(w, Call::Land(block, &page))) {
                return true;
            }
            plain[block as usize * PAGE..][..PAGE].copy_from_slice(&page);
            false
        }
        1 => {
            is_refusal(make(w, Call::Fetch(block, PEOPLE)))
                || is_refusal(Plain::make(w, Call::LandFetch(block)))
        }
        2 => is_refusal(make(w, Call::LookUp(block))),
        _ => is_refusal(make(w, Call::Flush)),
    }
}

/// Whether a block reads as on the plain disk.
fn reads_same(w: &mut World, plain: &[u8], block: u32) -> bool {
    if is_refusal(Plain::make(w, Call::View(block))) {
        return false;
    }
    let image = if w.image == 1 { &w.ssd } else { &w.hdd };
    image[w.offset as usize..][..PAGE] == plain[block as usize * PAGE..][..PAGE]
}

fn number(line: &str) -> Option<u32> {
    let digits = !line.is_empty() && line.bytes().all(|b| b.is_ascii_digit());
    let leading = line.len() > 1 && line.starts_with('0');
    (digits && !leading).then(|| line.parse().ok())?
}

fn seed_and_draws(input: &[u8]) -> Option<(u32, u32)> {
    let lines = std::str::from_utf8(input).ok()?.strip_suffix('\n')?;
    let (seed, draws) = lines.split_once('\n')?;
    let (seed, draws) = (number(seed)?, number(draws)?);
    (seed != 0).then_some((seed, draws))
}

fn text(input: &[u8]) -> String {
    let Some((seed, draws)) = seed_and_draws(input) else {
        return "refused=19\n".to_string();
    };
    let mut w = World::empty(SLOTS, BLOCKS);
    let mut plain = vec![0; BLOCKS as usize * PAGE];
    Plain::make(&mut w, Call::Format(SLOTS, BLOCKS));
    while w.record[PHASE] != READY {
        Plain::make(&mut w, Call::Step);
    }
    let (mut s, mut refusals) = (seed, 0);
    for _ in 0..draws {
        s ^= s << 13;
        s ^= s >> 17;
        s ^= s << 5;
        refusals += u32::from(draw(&mut w, &mut plain, s));
    }
    let equal = (0..BLOCKS)
        .filter(|b| reads_same(&mut w, &plain, *b))
        .count();
    format!("seed={seed}\ndraws={draws}\nrefusals={refusals}\nequal={equal}\n")
}

/// Reads an input and prints what its load comes to.
pub fn run() {
    let mut input = Vec::new();
    std::io::stdin()
        .read_to_end(&mut input)
        .expect("standard input can be read");
    print!("{}", text(&input));
}

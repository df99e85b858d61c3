//! A load of document 02, N10, worked out from the documents alone: no call of the library is made. A landed page is one number
//! repeated, so a page is that number here; nothing is open between two draws, so a refusal is a fetch of a cached block.

const SLOTS: usize = 4;
const BLOCKS: usize = 8;

#[derive(Clone, Copy, PartialEq)]
enum Row {
    Free,
    Cached {
        block: usize,
        dirty: bool,
        used: bool,
    },
}

/// P1's box, and the plain disk beside it.
struct Load {
    rows: [Row; SLOTS],
    slots: [u32; SLOTS],
    hdd: [u32; BLOCKS],
    plain: [u32; BLOCKS],
    hand: usize,
    refusals: u32,
}

impl Load {
    fn new() -> Load {
        Load {
            rows: [Row::Free; SLOTS],
            slots: [0; SLOTS],
            hdd: [0; BLOCKS],
            plain: [0; BLOCKS],
            hand: 0,
            refusals: 0,
        }
    }

    fn slot_of(&self, wanted: usize) -> Option<usize> {
        let holds = |row: &Row| matches!(row, Row::Cached { block, .. } if *block == wanted);
        self.rows.iter().position(holds)
    }

    /// "from the hand, wrapping: .. take a free slot or one without the used flag; clear a used flag and pass", and what is dirty
    /// is copied out first.
    fn sweep(&mut self) -> usize {
        loop {
            let slot = self.hand;
            match &mut self.rows[slot] {
                Row::Cached { used, .. } if *used => *used = false,
                Row::Cached { block, dirty, .. } if *dirty => {
                    self.hdd[*block] = self.slots[slot];
                    *dirty = false;
                    continue;
                }
                _ => {
                    self.hand = (slot + 1) % SLOTS;
                    return slot;
                }
            }
            self.hand = (slot + 1) % SLOTS;
        }
    }

    fn write(&mut self, block: usize, page: u32) {
        let slot = self.slot_of(block).unwrap_or_else(|| self.sweep());
        self.rows[slot] = Row::Cached {
            block,
            dirty: true,
            used: true,
        };
        self.slots[slot] = page;
        self.plain[block] = page;
    }

    fn fetch(&mut self, block: usize) {
        if self.slot_of(block).is_some() {
            self.refusals += 1;
            return;
        }
        let slot = self.sweep();
        self.rows[slot] = Row::Cached {
            block,
            dirty: false,
            used: false,
        };
        self.slots[slot] = self.hdd[block];
    }

    fn look_up(&mut self, wanted: usize) {
        if let Some(slot) = self.slot_of(wanted) {
            if let Row::Cached { used, .. } = &mut self.rows[slot] {
                *used = true;
            }
        }
    }

    fn draw(&mut self, s: u32) {
        let block = s as usize / 4 % BLOCKS;
        match s % 4 {
            0 => self.write(block, s),
            1 => self.fetch(block),
            2 => self.look_up(block),
            _ => {}
        }
    }

    fn equal(&self) -> usize {
        let read = |block: usize| {
            self.slot_of(block)
                .map_or(self.hdd[block], |s| self.slots[s])
        };
        (0..BLOCKS).filter(|b| read(*b) == self.plain[*b]).count()
    }
}

/// A line's number: decimal, without leading zeros, below 4,294,967,296.
fn number(line: &[u8]) -> Option<u32> {
    let digits = !line.is_empty() && line.iter().all(u8::is_ascii_digit);
    let leading = line.len() > 1 && line[0] == b'0';
    (digits && !leading).then(|| std::str::from_utf8(line).ok()?.parse().ok())?
}

/// Two such lines and nothing else, the first not 0.
fn seed_and_draws(input: &[u8]) -> Option<(u32, u32)> {
    let lines: Vec<&[u8]> = input.strip_suffix(b"\n")?.split(|b| *b == b'\n').collect();
    let [seed, draws] = lines[..] else {
        return None;
    };
    let (seed, draws) = (number(seed)?, number(draws)?);
    (seed != 0).then_some((seed, draws))
}

/// What the program prints.
pub fn text(input: &[u8]) -> String {
    let Some((seed, draws)) = seed_and_draws(input) else {
        return "refused=19\n".to_string();
    };
    let mut load = Load::new();
    let mut s = seed;
    for _ in 0..draws {
        s ^= s << 13;
        s ^= s >> 17;
        s ^= s << 5;
        load.draw(s);
    }
    let (refusals, equal) = (load.refusals, load.equal());
    format!("seed={seed}\ndraws={draws}\nrefusals={refusals}\nequal={equal}\n")
}

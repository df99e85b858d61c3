//! "The plain disk" of document 01. It knows nothing of slots, stamps or windows.

use ferjulm::{Block, PAGE};

/// A block's page, and the contents that may come back; the page is the last of them.
#[derive(Clone)]
struct Contents {
    may_be: Vec<Vec<u8>>,
}

impl Contents {
    fn page(&self) -> &[u8] {
        self.may_be.last().expect("a block always has contents")
    }
}

/// Each block has a page and the contents that may come back.
#[derive(Clone)]
pub struct PlainDisk {
    blocks: Vec<Contents>,
}

impl PlainDisk {
    /// "both at first its HDD page"
    pub fn new(hdd: &[u8]) -> Self {
        let blocks = hdd
            .chunks(PAGE)
            .map(|page| Contents {
                may_be: vec![page.to_vec()],
            })
            .collect();
        PlainDisk { blocks }
    }

    /// Its blocks.
    pub fn blocks(&self) -> impl Iterator<Item = Block> {
        (0..self.blocks.len() as u32).map(Block)
    }

    /// A block's page.
    pub fn page(&self, block: Block) -> &[u8] {
        self.blocks[block.0 as usize].page()
    }

    /// "Landing a write: the bytes become the block's page and join its contents."
    pub fn landed(&mut self, block: Block, page: &[u8]) {
        self.blocks[block.0 as usize].may_be.push(page.to_vec());
    }

    /// "Flush, "nothing to do" too: each block's contents become its page alone."
    pub fn flushed(&mut self) {
        for contents in &mut self.blocks {
            contents.may_be.drain(..contents.may_be.len() - 1);
        }
    }

    /// "Reopening, when finished: each block reads as one of its contents, from then on its page and only content."
    pub fn reopened(&mut self, block: Block, read: &[u8]) {
        let contents = &mut self.blocks[block.0 as usize];
        let one_of_them = contents.may_be.iter().any(|page| page == read);
        assert!(
            one_of_them,
            "{block:?} came back as none of its {} contents",
            contents.may_be.len()
        );
        contents.may_be = vec![read.to_vec()];
    }
}

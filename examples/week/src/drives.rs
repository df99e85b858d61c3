//! A field box: two image files as its drives, table and record in memory, and beside it a plain disk.

use ferjulm::{Block, Cache, Geometry, Image, Images, Place, Record, Refusal, PAGE};
use std::error::Error;
use std::fs::{self, File};
use std::io;
use std::os::unix::fs::FileExt;
use std::path::{Path, PathBuf};

/// 14 slots make an SSD of 64 KiB, the most that the listing reads.
pub const GEOMETRY: Geometry = Geometry::new(14, 64);

pub struct FieldBox {
    folder: PathBuf,
    images: Images<Vec<u8>>,
    table: Vec<u32>,
    record: Record,
    /// What each block has been written with: what a plain disk would read as.
    plain: Vec<u8>,
}

impl FieldBox {
    /// Two new drives in a folder: an empty SSD, and a disk as last year left it.
    pub fn new(folder: &Path, hdd: Vec<u8>) -> io::Result<FieldBox> {
        fs::create_dir_all(folder)?;
        let mut new = FieldBox {
            folder: folder.to_path_buf(),
            images: Images {
                ssd: vec![],
                hdd: vec![],
            },
            table: vec![],
            record: Record::default(),
            plain: hdd,
        };
        fs::write(new.ssd(), vec![0; GEOMETRY.ssd_bytes()])?;
        fs::write(new.hdd(), &new.plain)?;
        new.power_on()?;
        Ok(new)
    }

    /// Power is back, or on for the first time: of what the box knew only the drives are left; memory is rubbish.
    pub fn power_on(&mut self) -> io::Result<()> {
        self.images.ssd = fs::read(self.ssd())?;
        self.images.hdd = fs::read(self.hdd())?;
        self.table = vec![0xdead_beef; GEOMETRY.table_words()];
        self.record = Record::from_words([0xdead_beef; ferjulm::RECORD_WORDS]);
        Ok(())
    }

    /// The SSD's file.
    pub fn ssd(&self) -> PathBuf {
        self.folder.join("ssd.img")
    }

    /// The HDD's file.
    fn hdd(&self) -> PathBuf {
        self.folder.join("hdd.img")
    }

    /// Makes a call, and stores on its drive the page that the answer names, if it names one.
    pub fn call<T: Copy>(
        &mut self,
        call: impl FnOnce(&mut Cache) -> Result<T, Refusal>,
        stored: impl FnOnce(T) -> Option<Place>,
    ) -> Result<T, Box<dyn Error>> {
        let mut cache = Cache::new(self.images.lend(), &mut self.table, &mut self.record);
        let answer = call(&mut cache)?;
        if let Some(place) = stored(answer) {
            let page = *cache.page(place);
            self.store(place, &page)?;
        }
        self.check_drives()?;
        Ok(answer)
    }

    /// Makes a call that stores nothing.
    pub fn call_storing_nothing<T: Copy>(
        &mut self,
        call: impl FnOnce(&mut Cache) -> Result<T, Refusal>,
    ) -> Result<T, Box<dyn Error>> {
        self.call(call, |_| None)
    }

    /// Stores a page on its drive, and waits till it is there.
    fn store(&self, place: Place, page: &[u8; PAGE]) -> io::Result<()> {
        let path = match place.image {
            Image::Ssd => self.ssd(),
            Image::Hdd => self.hdd(),
        };
        let drive = File::options().write(true).open(path)?;
        drive.write_all_at(page, place.offset)?;
        drive.sync_data()
    }

    /// The drives have the images whole: a call changes no page but the one that it names.
    fn check_drives(&self) -> io::Result<()> {
        let same =
            fs::read(self.ssd())? == self.images.ssd && fs::read(self.hdd())? == self.images.hdd;
        assert!(same, "a page changed that no call named");
        Ok(())
    }

    /// A look at the box that changes nothing.
    pub fn read<T>(&mut self, look: impl FnOnce(&Cache) -> T) -> T {
        look(&Cache::new(
            self.images.lend(),
            &mut self.table,
            &mut self.record,
        ))
    }

    /// Tells the plain disk of a write that landed.
    pub fn landed(&mut self, block: Block, page: &[u8]) {
        self.plain[GEOMETRY.block_at(block)..][..PAGE].copy_from_slice(page);
    }

    /// What a block is on the plain disk.
    pub fn plain(&self, block: Block) -> &[u8] {
        &self.plain[GEOMETRY.block_at(block)..][..PAGE]
    }

    /// What a block is on the disk itself.
    pub fn on_disk(&self, block: Block) -> &[u8] {
        &self.images.hdd[GEOMETRY.block_at(block)..][..PAGE]
    }
}

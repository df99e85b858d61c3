//! Pages of the images: where one lies.

use crate::PAGE;

/// One of the two images.
#[derive(Clone, Copy, Debug, PartialEq, Eq, PartialOrd, Ord, Hash)]
pub enum Image {
    /// The SSD image.
    Ssd,
    /// The HDD image.
    Hdd,
}

/// A page of an image: the page that a call stored, which has to reach its drive before that of any later call.
#[derive(Clone, Copy, Debug, PartialEq, Eq, PartialOrd, Ord, Hash)]
pub struct Place {
    /// The image that the page is in.
    pub image: Image,
    /// Its first byte there, a multiple of [`PAGE`].
    pub offset: u64,
}

/// What a call left in its out-parameters.
#[derive(Default)]
pub(crate) struct Out {
    pub slot: u32,
    pub dealt: u32,
    pub image: u32,
    pub offset: u64,
}

impl Out {
    /// The page that the call names; none where it stored nothing.
    pub fn place(&self) -> Option<Place> {
        let image = match self.image {
            0 => return None,
            1 => Image::Ssd,
            2 => Image::Hdd,
            other => foreign(other),
        };
        let offset = self.offset;
        Some(Place { image, offset })
    }

    /// The page that a call names which always stores one.
    pub fn stored(&self) -> Place {
        match self.place() {
            Some(place) => place,
            None => foreign(0),
        }
    }
}

/// A code that the proved library never gives there.
pub(crate) fn foreign(code: u32) -> ! {
    panic!("{code} is no code of this call: the library that is linked is not that of this version")
}

/// The page at an offset.
///
/// # Panics
/// Where the image does not have all of it.
pub(crate) fn page_at(image: &[u8], offset: u64) -> &[u8; PAGE] {
    let page = usize::try_from(offset)
        .ok()
        .and_then(|offset| image.get(offset..)?.first_chunk());
    page.expect("a page of the image")
}

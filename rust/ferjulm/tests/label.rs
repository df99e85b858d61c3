//! The label read from an SSD image whose size is not known.

use cases::rig::Rig;
use cases::stored::{label, label_page};
use ferjulm::{calls, Geometry, PAGE};

/// What stands in the out-parameters before.
const UNSET: [u32; 2] = [77, 78];

/// What the call makes of an SSD image: by both ways of making it. A refusal leaves both numbers.
fn read(ssd: &[u8]) -> Option<Geometry> {
    let [mut slots, mut blocks] = UNSET;
    let read = match calls::label(ssd, &mut slots, &mut blocks) {
        0 => Some(Geometry::new(slots, blocks)),
        code => {
            assert_eq!((code, [slots, blocks]), (2, UNSET));
            None
        }
    };
    assert_eq!(read, Geometry::of_label(ssd));
    read
}

fn within((slots, blocks): (u32, u32)) -> bool {
    (1..=57_600).contains(&slots) && (1..=16_777_216).contains(&blocks)
}

/// The geometry of a page that is a legal label, by writing labels alone: the page is that of the numbers which stand in it.
fn written(page: &[u8]) -> Option<Geometry> {
    let text = String::from_utf8_lossy(page);
    let number = |key: &str| {
        let line = text.lines().find_map(|line| line.strip_prefix(key))?;
        line.parse().ok()
    };
    let (slots, blocks) = (number("slots=")?, number("blocks=")?);
    let geometry = Geometry::new(slots, blocks);
    (within((slots, blocks)) && label_page(&label(geometry)) == page).then_some(geometry)
}

#[test]
fn labels_that_a_format_writes() {
    let limits = [1, 9, 10, 4, 239, 240, 241, 57_599, 57_600];
    for slots in limits {
        for blocks in [1, 8, 99_999, 16_777_215, 16_777_216] {
            let geometry = Geometry::new(slots, blocks);
            let page = label_page(&label(geometry));
            assert_eq!(read(&page), Some(geometry));
            // the rest of the image is not read
            assert_eq!(
                read(&[page, vec![0xaa; 3 * PAGE + 5]].concat()),
                Some(geometry)
            );
        }
    }
    let geometry = Geometry::new(241, 8);
    let rig = Rig::formatted(geometry);
    assert_eq!(read(&rig.images.ssd), Some(geometry));
    assert_eq!(read(&Rig::unformatted(geometry).images.ssd), None);
}

#[test]
fn images_under_a_page() {
    let page = label_page(&label(Geometry::new(4, 8)));
    for length in [0, 1, 40, PAGE - 1] {
        assert_eq!(read(&page[..length]), None, "{length} bytes");
    }
    assert!(read(&page).is_some());
}

#[test]
fn labels_that_are_not_legal() {
    let broken = [
        "",
        "cache=lufuw\nlayout=1\nslots=4\nblocks=8",
        "cache=lufuw\nlayout=01\nslots=4\nblocks=8\n",
        "cache=lufuw\nlayout=2\nslots=4\nblocks=8\n",
        "cache=lufuw\nlayout=1\nslots=0\nblocks=8\n",
        "cache=lufuw\nlayout=1\nslots=04\nblocks=8\n",
        "cache=lufuw\nlayout=1\nslots=+4\nblocks=8\n",
        "cache=lufuw\nlayout=1\nslots= 4\nblocks=8\n",
        "cache=lufuw\nlayout=1\nslots=\nblocks=8\n",
        "cache=lufuw\nlayout=1\nslots=57601\nblocks=8\n",
        "cache=lufuw\nlayout=1\nslots=4294967300\nblocks=8\n",
        "cache=lufuw\nlayout=1\nslots=4\nblocks=0\n",
        "cache=lufuw\nlayout=1\nslots=4\nblocks=08\n",
        "cache=lufuw\nlayout=1\nslots=4\nblocks=16777217\n",
        "cache=lufuw\nlayout=1\nslots=4\nblocks=18446744073709551624\n",
        "cache=lufuw\nlayout=1\nblocks=8\nslots=4\n",
        "cache=lufuw\nlayout=1\nslots=4\nblocks=8\n\n",
        "cache=lufuw\nlayout=1\nslots=4\nblocks=8\nprofile=through\n",
        "cache=lufuw\r\nlayout=1\r\nslots=4\r\nblocks=8\r\n",
        "Cache=lufuw\nlayout=1\nslots=4\nblocks=8\n",
        "\ncache=lufuw\nlayout=1\nslots=4\nblocks=8\n",
    ];
    for text in broken {
        assert_eq!(read(&label_page(text)), None, "{text:?}");
    }
    let mut page = label_page(&label(Geometry::new(4, 8)));
    page[PAGE - 1] = 1;
    assert_eq!(read(&page), None, "not zero to its end");
}

/// Every byte of the text and some after it, made every other: read as what a format would have written, or not at all.
#[test]
fn labels_with_another_byte() {
    let page = label_page(&label(Geometry::new(57_600, 16_777_216)));
    let mut legal = 0;
    for at in (0..64).chain([PAGE - 1]) {
        for byte in 0..=255 {
            let mut other = page.clone();
            other[at] = byte;
            let expected = written(&other);
            assert_eq!(read(&other), expected, "byte {at} as {byte}");
            legal += (other != page && expected.is_some()) as u32;
        }
    }
    assert!(legal > 20, "digits that may be others: {legal}");
}

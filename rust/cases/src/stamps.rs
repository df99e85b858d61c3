//! The last stamps.

use crate::listed::Listed;

pub fn lines() -> Vec<String> {
    // a dirty block in slot 0, and two open slots
    Listed::formatted("stamps", 4, 8)
        .run("offer 1, land 1 A, offer 6, offer 7")
        // the last stamp at which an offer is announced, and the first at which none is
        .at_stamp(4_294_967_231)
        .run("offer 4, land 4 B, offer 1, offer 5, offer 5, fetch 5, offer 1, look up 1, flush")
        // the last stamp that a flush stores, and no stamp left; a refused sweep leaves used flags
        .at_stamp(4_294_967_294)
        .run("offer 5, look up 4, offer 5, flush, land 6 C, flush, flush, fetch 5, land 7 D, flush")
        .run("offer 7, land 7 E, write back 7, offer 7, look up 7")
        .lines
}

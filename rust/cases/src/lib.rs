//! Lists of calls, cuts and reopenings, run on a box beside the plain disk of document 01.

pub mod beside;
pub mod call;
pub mod called;
pub mod costed;
mod costs;
pub mod disk;
mod flooded;
mod generated;
pub mod kept;
mod landings;
mod listed;
mod lists;
pub mod load;
mod located;
pub mod looked;
pub mod mapped;
mod maps;
pub mod offered;
mod orders;
mod paper;
pub mod place;
pub mod random;
mod recovery;
mod refusals;
mod reopening;
pub mod rig;
pub mod say;
mod scans;
mod stamps;
pub mod stored;
mod windows;

/// What the fixed lists come to, a line for each case; `expected.txt` was written from the documents.
pub fn lines() -> Vec<String> {
    [
        paper::lines(),
        recovery::lines(),
        reopening::lines(),
        lists::lines(),
        located::lines(),
        landings::lines(),
        orders::lines(),
        refusals::lines(),
        windows::lines(),
        flooded::lines(),
        scans::lines(),
        maps::lines(),
        costs::lines(),
        stamps::lines(),
        generated::lines(),
    ]
    .concat()
}

// Links the proved functions of single pages; the calls come with crate ferjulm.
#[path = "../link.rs"]
mod link;

fn main() {
    link::link("bench_ffi");
}

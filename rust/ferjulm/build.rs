// Links the proved calls.
#[path = "../link.rs"]
mod link;

fn main() {
    link::link("ferjulm");
}

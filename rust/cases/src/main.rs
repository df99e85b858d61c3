//! Prints what the fixed lists come to.

fn main() {
    for line in cases::lines() {
        println!("{line}");
    }
}

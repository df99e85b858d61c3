//! The mapping program in the office.

use crate::survey;
use std::error::Error;
use std::fs;
use std::path::Path;
use std::process::Command;

/// Where Survex's `cavern` is installed, it reads the file, and finds the legs, and no loop that closes worse than the
/// readings do, which are `off` metres.
pub fn plot(svx: &Path, off: f64) -> Result<(), Box<dyn Error>> {
    let folder = svx.parent().expect("a folder");
    let Ok(output) = Command::new("cavern")
        .arg("--output")
        .arg(folder)
        .arg(svx)
        .output()
    else {
        println!("  (Survex's cavern is not installed: there is no .3d file)");
        return Ok(());
    };
    let text = String::from_utf8_lossy(&output.stdout).into_owned();
    assert!(output.status.success(), "cavern reads the file: {text}");
    assert!(
        text.contains(&format!("joined by {} legs", survey::LEGS)),
        "cavern finds the legs: {text}"
    );
    for line in text
        .lines()
        .filter(|line| line.contains(" legs.") || line.contains(" loops."))
    {
        println!("  cavern: {line}");
    }
    let moved = worst_moved(&fs::read_to_string(svx.with_extension("err"))?);
    println!("  cavern: to close the loops, no stretch is moved more than {moved:.2} m");
    assert!(
        moved <= off + 0.005,
        "no misclosure beyond that of the readings, to the centimetre"
    );
    println!(
        "  for Survex's aven: {}",
        svx.with_extension("3d").display()
    );
    Ok(())
}

/// The largest distance in lines like `.. (  1 legs), moved   0.01m ( 0.01m/leg). ..`.
fn worst_moved(report: &str) -> f64 {
    let moved = |line: &str| {
        line.split("moved")
            .nth(1)?
            .split('m')
            .next()?
            .trim()
            .parse::<f64>()
            .ok()
    };
    report.lines().filter_map(moved).fold(0.0, f64::max)
}

// What the build scripts share: a proved library is looked for and linked.
use std::env;
use std::path::PathBuf;

/// Links lib`name`.a, which `rt lib` in crates/`name` writes to its folder out; `FERJULM_LIB_DIR` names another folder, by its whole path.
///
/// The clone is asked for as the script runs, and cargo is told a path in it: where two clones have one target folder, cargo runs
/// the script again for the other one.
pub fn link(name: &str) {
    let package = PathBuf::from(env::var_os("CARGO_MANIFEST_DIR").expect("cargo sets it"));
    println!(
        "cargo:rerun-if-changed={}",
        package.join("build.rs").display()
    );
    println!("cargo:rerun-if-env-changed=FERJULM_LIB_DIR");
    let clone = package.ancestors().nth(2).expect("rust/ and its package");
    let proved = clone.join("crates").join(name);
    let folder = match env::var_os("FERJULM_LIB_DIR") {
        Some(folder) => PathBuf::from(folder),
        None => proved.join("out"),
    };
    let library = folder.join(format!("lib{name}.a"));
    if !library.is_file() {
        let (library, proved) = (library.display(), proved.display());
        eprintln!("{library} is missing: run `rt lib` in {proved}, or set FERJULM_LIB_DIR to the folder that has it");
        std::process::exit(1);
    }
    println!("cargo:rerun-if-changed={}", library.display());
    println!("cargo:rustc-link-search=native={}", folder.display());
    println!("cargo:rustc-link-lib=static={name}");
}

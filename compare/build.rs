//! Has the proved library made (tools/library) and says where it is, for the program `compare` alone.
use std::path::Path;
use std::process::Command;

fn main() {
    if std::env::var_os("CARGO_FEATURE_LIBRARY").is_none() {
        return;
    }
    let root = Path::new(env!("CARGO_MANIFEST_DIR")).parent().unwrap();
    let script = root.join("tools/library");
    let made = Command::new(&script).output().expect("tools/library could not be run");
    if !made.status.success() {
        eprint!("{}", String::from_utf8_lossy(&made.stderr));
        eprintln!("tools/library made no library");
        std::process::exit(1);
    }
    let archive = root.join(String::from_utf8_lossy(&made.stdout).trim());
    for source in [&script, &archive, &root.join("crates.txt")] {
        println!("cargo:rerun-if-changed={}", source.display());
    }
    // not crates/*/out, which each proof writes
    for folder in std::fs::read_dir(root.join("crates")).expect("no crates/").flatten() {
        for part in ["src", "specs", "proofs"].map(|part| folder.path().join(part)) {
            if part.exists() {
                println!("cargo:rerun-if-changed={}", part.display());
            }
        }
    }
    println!("cargo:rustc-link-search=native={}", archive.parent().unwrap().display());
}

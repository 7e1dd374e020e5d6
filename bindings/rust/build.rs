//! Finds the proved library: in the folder that LARUSQEM_LIB_DIR names, or else installed where pkg-config knows this crate's version of
//! it, or else in the repository around this crate, by tools/library, which proves it first where it is missing or older than a source.
use std::env;
use std::fs::OpenOptions;
use std::io::{BufRead, BufReader, Write};
use std::path::{Path, PathBuf};
use std::process::{exit, Command, Stdio};

const VERSION: &str = env!("CARGO_PKG_VERSION");

fn main() {
    println!("cargo:rerun-if-changed=build.rs");
    for variable in ["LARUSQEM_LIB_DIR", "PKG_CONFIG_PATH", "PKG_CONFIG_LIBDIR"] {
        println!("cargo:rerun-if-env-changed={variable}");
    }
    let folder = match env::var_os("LARUSQEM_LIB_DIR") {
        Some(folder) => Some(PathBuf::from(folder)),
        None => installed().or_else(proved),
    };
    let linked = folder.as_deref().and_then(link);
    if linked.is_none() {
        if let Some(folder) = folder {
            eprintln!("larusqem: {} has neither liblarusqem.a nor liblarusqem.so", folder.display());
        }
        eprintln!(
            "larusqem: no library to link: name the folder of liblarusqem.a in LARUSQEM_LIB_DIR, or install the library so that \
             pkg-config finds larusqem {VERSION}, or build in the repository with its kit (`rt`) on PATH, where tools/library proves it"
        );
        exit(1);
    }
}

/// The library of a folder and how it is linked: the archive, or else the shared library.
fn library(folder: &Path) -> Option<(PathBuf, &'static str)> {
    let files = [("liblarusqem.a", "static"), ("liblarusqem.so", "dylib")];
    files.into_iter().map(|(file, kind)| (folder.join(file), kind)).find(|(file, _)| file.exists())
}

fn link(folder: &Path) -> Option<()> {
    let (file, kind) = library(folder)?;
    println!("cargo:rerun-if-changed={}", file.display());
    println!("cargo:rustc-link-search=native={}", folder.display());
    println!("cargo:rustc-link-lib={kind}=larusqem");
    Some(())
}

/// The folder of an installed library of this version.
fn installed() -> Option<PathBuf> {
    let answer = Command::new("pkg-config")
        .args(["--libs-only-L", &format!("larusqem = {VERSION}")])
        .env("PKG_CONFIG_ALLOW_SYSTEM_LIBS", "1")
        .output()
        .ok()
        .filter(|answer| answer.status.success())?;
    let flags = String::from_utf8(answer.stdout).ok()?;
    let folders = flags.split_whitespace().filter_map(|flag| flag.strip_prefix("-L"));
    folders.map(PathBuf::from).find(|folder| library(folder).is_some())
}

/// The folder of the repository's own library, proved anew where a source is newer.
fn proved() -> Option<PathBuf> {
    let root = Path::new(env!("CARGO_MANIFEST_DIR")).ancestors().nth(2)?;
    for source in ["tools/library", "crates.txt"] {
        println!("cargo:rerun-if-changed={}", root.join(source).display());
    }
    // not crates/*/out, which each proof writes
    for folder in std::fs::read_dir(root.join("crates")).ok()?.flatten() {
        for part in ["src", "specs", "proofs"].map(|part| folder.path().join(part)) {
            if part.exists() {
                println!("cargo:rerun-if-changed={}", part.display());
            }
        }
    }
    let mut script = Command::new(root.join("tools/library")).stdout(Stdio::piped()).stderr(Stdio::piped()).spawn().ok()?;
    // cargo holds back what a build script prints until it ends, and a proof takes minutes: what it says goes to the terminal at once
    let mut terminal = OpenOptions::new().write(true).open("/dev/tty").ok();
    for line in BufReader::new(script.stderr.take()?).lines() {
        let line = line.ok()?;
        eprintln!("{line}");
        match terminal.as_mut().map(|terminal| writeln!(terminal, "\r{line}")) {
            Some(Ok(())) => {}
            _ => println!("cargo:warning={line}"),
        }
    }
    let made = script.wait_with_output().ok().filter(|made| made.status.success())?;
    let archive = root.join(String::from_utf8(made.stdout).ok()?.trim());
    Some(archive.parent()?.to_path_buf())
}

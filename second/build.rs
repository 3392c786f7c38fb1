//! Links the proved code, static libraries.

use std::env;
use std::path::PathBuf;
use std::process::exit;

const FOLDER_VARIABLE: &str = "PETRELKNOB_LIB";
const DEFAULT_FOLDER: &str = "../target/staticlib";

/// Layout, ring, units and sheets as the panel program reaches them; the call
/// script; the search for free blocks.
const LIBRARIES: [&str; 3] = ["panel", "script", "search"];

fn main() {
    println!("cargo:rerun-if-env-changed={FOLDER_VARIABLE}");

    // The linker runs elsewhere, so the folder is made absolute here.
    let manifest = PathBuf::from(env::var_os("CARGO_MANIFEST_DIR").expect("set by cargo"));
    let folder = manifest.join(env::var_os(FOLDER_VARIABLE).unwrap_or(DEFAULT_FOLDER.into()));
    println!("cargo:rustc-link-search=native={}", folder.display());

    for library in LIBRARIES {
        let archive = folder.join(format!("lib{library}.a"));
        println!("cargo:rerun-if-changed={}", archive.display());
        if !archive.is_file() {
            eprintln!(
                "The proved code is missing: there is no {}.",
                archive.display()
            );
            eprintln!("Build it first, or name its folder in {FOLDER_VARIABLE} (relative to second/, or absolute).");
            exit(1);
        }
        println!("cargo:rustc-link-lib=static={library}");
    }
}

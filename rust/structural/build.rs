//! Links `libstructural.a` from the folder that `STRUCTURAL_LIB_DIR` names, or from the repository's `target/staticlib`.
use std::env;
use std::path::{absolute, Path, PathBuf};
use std::process::exit;

const VARIABLE: &str = "STRUCTURAL_LIB_DIR";

fn folder() -> PathBuf {
    let repository = || Path::new(env!("CARGO_MANIFEST_DIR")).join("../../target/staticlib");
    let folder = env::var_os(VARIABLE).map_or_else(repository, PathBuf::from);
    absolute(&folder).unwrap_or(folder)
}

fn missing(archive: &Path) -> ! {
    eprintln!("{} is not there.", archive.display());
    eprintln!("Run `tools/archive` in the repository's root, or set {VARIABLE} to the folder that has it.");
    exit(1)
}

fn main() {
    let folder = folder();
    let archive = folder.join("libstructural.a");
    println!("cargo:rerun-if-env-changed={VARIABLE}");
    println!("cargo:rerun-if-changed={}", archive.display());
    if !archive.is_file() {
        missing(&archive);
    }
    println!("cargo:rustc-link-search=native={}", folder.display());
    println!("cargo:rustc-link-lib=static=structural");
}

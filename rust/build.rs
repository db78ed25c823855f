//! Links the proved engine, libraghymtos.a, which the script `archive` beside this file makes. RAGHYMTOS_LIB_DIR names the folder that
//! holds it; without it, target/lib of the repository.

use std::path::{Path, PathBuf};

const FOLDER: &str = "RAGHYMTOS_LIB_DIR";

fn main() {
    println!("cargo:rerun-if-env-changed={FOLDER}");
    let folder = match std::env::var_os(FOLDER) {
        Some(folder) => PathBuf::from(folder),
        None => Path::new(&std::env::var("CARGO_MANIFEST_DIR").unwrap()).join("../target/lib"),
    };
    let archive = folder.join("libraghymtos.a");
    println!("cargo:rerun-if-changed={}", archive.display());
    if !archive.exists() {
        panic!(
            "no {}: run rust/archive, or name the folder that has it in {FOLDER}",
            archive.display()
        );
    }
    println!("cargo:rustc-link-search=native={}", folder.display());
    println!("cargo:rustc-link-lib=static=raghymtos");
}

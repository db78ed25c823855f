//! Compiles the C that the engine is measured against.

use std::path::PathBuf;
use std::process::Command;

fn main() {
    let out = PathBuf::from(std::env::var("OUT_DIR").expect("cargo names a folder"));
    for file in ["baseline.c", "wide.c", "own.h", "sets.h", "catalogue.h"] {
        println!("cargo:rerun-if-changed=baseline/{file}");
    }
    let objects = ["baseline", "wide"].map(|name| {
        let object = out.join(name).with_extension("o");
        run(Command::new("cc")
            .args(["-O3", "-c", &format!("baseline/{name}.c"), "-o"])
            .arg(&object));
        object
    });
    run(Command::new("ar")
        .arg("rcs")
        .arg(out.join("libbaseline.a"))
        .args(objects));
    println!("cargo:rustc-link-search=native={}", out.display());
    println!("cargo:rustc-link-lib=static=baseline");
    println!("cargo:rustc-link-lib=m");
}

fn run(command: &mut Command) {
    let status = command
        .status()
        .unwrap_or_else(|e| panic!("{command:?}: {e}"));
    assert!(status.success(), "{command:?} fails");
}

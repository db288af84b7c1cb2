//! Links the library's static archives, which `make` and `make probe` in the root make.

use std::path::PathBuf;

fn main() {
    let here = PathBuf::from(std::env::var_os("CARGO_MANIFEST_DIR").expect("set by cargo"));
    let place = here.join("../target/staticlib");

    println!("cargo:rerun-if-changed=build.rs");
    println!("cargo:rustc-link-search=native={}", place.display());
    for name in ["probe", "tandawire"] {
        let archive = place.join(format!("lib{name}.a"));
        // A new archive must be linked anew.
        println!("cargo:rerun-if-changed={}", archive.display());
        if !archive.is_file() {
            println!(
                "cargo::error=missing: {} (make it with `make {}` in the root)",
                archive.display(),
                if name == "probe" { name } else { "all" },
            );
        }
        println!("cargo:rustc-link-lib=static={name}");
    }
}

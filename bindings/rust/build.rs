//! Finds the static library.

use std::env;
use std::path::Path;

/// The library's crate: `rt lib` names the archive after it.
const STEM: &str = "kiddwyr";

fn main() {
    println!("cargo::rerun-if-env-changed=KIDDWYR_LIBRARY");
    // A relative folder is taken from the project's root.
    let root = Path::new(env!("CARGO_MANIFEST_DIR")).join("../..");
    let given = env::var_os("KIDDWYR_LIBRARY").filter(|folder| !folder.is_empty());
    let folder = root.join(given.unwrap_or_else(|| format!("crates/{STEM}/out").into()));
    let library = folder.join(format!("lib{STEM}.a"));
    if !library.is_file() {
        println!(
            "cargo::error=there is no {}: make it with `rt lib` in crates/{STEM}, or set \
             KIDDWYR_LIBRARY to its folder, absolute or from the project's root.",
            library.display()
        );
        return;
    }
    println!("cargo::rerun-if-changed={}", library.display());
    println!("cargo::rustc-link-search=native={}", folder.display());
    println!("cargo::rustc-link-lib=static={STEM}");
}

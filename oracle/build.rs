//! Finds the static library of the Rattle side, and plants the mistakes in files of our own, where
//! that is asked for.

use std::env;
use std::path::Path;

/// The library's crate: `rt lib` names the archive after it.
const STEM: &str = "compare_answers_c";

fn main() {
    #[cfg(feature = "mistakes")]
    lay::lay_own("judge", &["entry", "kinds", "take"]);
    println!("cargo::rerun-if-env-changed=KIDDWYR_LIBRARY");
    if env::var_os("CARGO_FEATURE_RATTLE").is_none() {
        return;
    }
    // A relative folder is taken from the project's root.
    let root = Path::new(env!("CARGO_MANIFEST_DIR")).join("..");
    let given = env::var_os("KIDDWYR_LIBRARY").unwrap_or_else(|| format!("crates/{STEM}/out").into());
    let folder = root.join(given);
    let library = folder.join(format!("lib{STEM}.a"));
    if !library.is_file() {
        println!(
            "cargo::error=there is no {}: make it with `rt lib` in crates/{STEM}, or set \
             KIDDWYR_LIBRARY to its folder, absolute or from the project's root.",
            library.display()
        );
        return;
    }
    println!("cargo::rerun-if-changed={}", library.display());
    println!("cargo::rustc-link-search=native={}", folder.display());
    println!("cargo::rustc-link-lib=static={STEM}");
}

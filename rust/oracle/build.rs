//! The original stands beside the repository, or is left out.

use std::path::Path;

fn main() {
    let original = Path::new(env!("CARGO_MANIFEST_DIR")).join("../../../shared/docs/src/crates/core/src/cfg.rs");
    println!("cargo::rerun-if-changed={}", original.display());
    println!("cargo::rustc-check-cfg=cfg(original)");
    if original.is_file() {
        println!("cargo::rustc-cfg=original");
    }
}

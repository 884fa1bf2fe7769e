//! Links the archive that `rt lib` writes in crates/flowgraph. FLOWGRAPH_ARCHIVE names another one.

use std::env;
use std::path::PathBuf;
use std::process::exit;

fn main() {
    let here = PathBuf::from(env::var_os("CARGO_MANIFEST_DIR").expect("set by cargo"));
    println!("cargo::rerun-if-env-changed=FLOWGRAPH_ARCHIVE");
    let archive = match env::var_os("FLOWGRAPH_ARCHIVE") {
        Some(path) => here.join(path),
        None => here.join("../crates/flowgraph/out/libflowgraph.a"),
    };
    println!("cargo::rerun-if-changed={}", archive.display());
    let (Some(folder), Some(name), true) = (archive.parent(), archive.file_name(), archive.is_file()) else {
        eprintln!("no archive at {}: run `rt lib` in crates/flowgraph, or set FLOWGRAPH_ARCHIVE", archive.display());
        exit(1);
    };
    println!("cargo::rustc-link-search=native={}", folder.display());
    println!("cargo::rustc-link-lib=static:+verbatim={}", name.to_string_lossy());

    // Tests compare with the original where it stands beside the repository.
    let original = here.join("../../shared/docs/src/crates/core/src/cfg.rs");
    println!("cargo::rerun-if-changed={}", original.display());
    println!("cargo::rustc-check-cfg=cfg(original)");
    if original.is_file() {
        println!("cargo::rustc-cfg=original");
    }
}

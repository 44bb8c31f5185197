//! Links the port's archive, if it is there, and says which of the exported functions it has.
//! The archive is the one that `tools/archive` writes, or the one that HARZOULIN_LIB names.

use std::path::PathBuf;

fn main() {
    println!("cargo:rerun-if-env-changed=HARZOULIN_LIB");
    let usual = "../target/staticlib/libharzoulin.a".to_string();
    let archive = PathBuf::from(std::env::var("HARZOULIN_LIB").unwrap_or(usual));
    println!("cargo:rerun-if-changed={}", archive.display());
    let bytes = std::fs::read(&archive).unwrap_or_default();
    for call in ["prepare", "settle", "run", "settled_run", "crossings", "nearest", "merge"] {
        println!("cargo:rustc-check-cfg=cfg(port_{call})");
        let symbol = format!("harzoulin_{call}\0");
        if bytes.windows(symbol.len()).any(|part| part == symbol.as_bytes()) {
            println!("cargo:rustc-cfg=port_{call}");
        }
    }
    if !bytes.is_empty() {
        let archive = archive.canonicalize().unwrap();
        println!("cargo:rustc-link-search=native={}", archive.parent().unwrap().display());
        println!("cargo:rustc-link-lib=static=harzoulin");
    }
}

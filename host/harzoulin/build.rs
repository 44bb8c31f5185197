//! Links the proved core: the archive that HARZOULIN_LIB names by its whole path, or else the one
//! that `tools/archive` writes at the root of the repository.

use std::path::PathBuf;
use std::{env, fs};

fn main() {
    println!("cargo::rerun-if-env-changed=HARZOULIN_LIB");
    if let Err(message) = link() {
        println!("cargo::error={message}");
    }
}

/// Has a copy of the archive linked, under the name that the linker looks for: the archive's own may
/// be any.
fn link() -> Result<(), String> {
    let usual = concat!(env!("CARGO_MANIFEST_DIR"), "/../../target/staticlib/libharzoulin.a");
    let named = env::var_os("HARZOULIN_LIB").map(PathBuf::from);
    if named.as_ref().is_some_and(|named| !named.is_absolute()) {
        return Err("HARZOULIN_LIB has to name an archive by its whole path, from / on".into());
    }
    let archive = named.unwrap_or(usual.into());
    let name = archive.display();
    println!("cargo::rerun-if-changed={name}");
    let bytes = fs::read(&archive).map_err(|error| {
        format!(
            "no archive at {name} ({error}): write one by `tools/archive` at the root of \
             the repository, or name another by HARZOULIN_LIB"
        )
    })?;
    for function in ["prepare", "settle", "run", "settled_run", "crossings", "nearest", "merge"] {
        let symbol = format!("harzoulin_{function}\0");
        if !bytes.windows(symbol.len()).any(|part| part == symbol.as_bytes()) {
            return Err(format!("{name} has no function harzoulin_{function}"));
        }
    }
    let folder = PathBuf::from(env::var_os("OUT_DIR").expect("cargo names a folder"));
    let copy = fs::write(folder.join("libharzoulin.a"), bytes);
    copy.map_err(|error| format!("no copy of {name} in {}: {error}", folder.display()))?;
    println!("cargo::rustc-link-search=native={}", folder.display());
    println!("cargo::rustc-link-lib=static=harzoulin");
    Ok(())
}

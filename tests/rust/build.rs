//! Links the static library: ../../crates/crankforest/out/libcrankforest.a, or the archive that the environment's CRANKFOREST_LIB names.

use std::env;
use std::path::{Path, PathBuf};

fn main() {
    let archive = archive();
    println!("cargo:rerun-if-env-changed=CRANKFOREST_LIB");
    println!("cargo:rerun-if-changed={}", archive.display());
    println!("cargo:rustc-link-search=native={}", folder_of(&archive).display());
    println!("cargo:rustc-link-lib=static={}", name_of(&archive));
    // The test of the C caller links the same archive.
    println!("cargo:rustc-env=CRANKFOREST_ARCHIVE={}", archive.display());
}

fn archive() -> PathBuf {
    let usual = Path::new("../../crates/crankforest/out/libcrankforest.a");
    let named = env::var_os("CRANKFOREST_LIB").map(PathBuf::from);
    let path = named.unwrap_or_else(|| usual.to_path_buf());
    match path.canonicalize() {
        Ok(found) => found,
        Err(_) => panic!("no archive at {}: `rt lib`, in crates/crankforest, writes it", path.display()),
    }
}

fn folder_of(archive: &Path) -> &Path {
    archive.parent().expect("an archive stands in a folder")
}

/// NAME of libNAME.a.
fn name_of(archive: &Path) -> String {
    let stem = archive.file_stem().and_then(|stem| stem.to_str()).expect("an archive has a name");
    stem.strip_prefix("lib").expect("the archive's name starts with lib").to_string()
}

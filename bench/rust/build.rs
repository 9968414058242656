//! Where the two archives are that bench/run makes before this package is built.
use std::path::Path;

fn main() {
    let top = Path::new(env!("CARGO_MANIFEST_DIR")).join("../..");
    for (folder, name) in [("crates/crankforest/out", "crankforest"), ("target/bench", "plain")] {
        let folder = top.join(folder);
        println!("cargo:rustc-link-search=native={}", folder.display());
        println!("cargo:rustc-link-lib=static={}", name);
        println!("cargo:rerun-if-changed={}", folder.join(format!("lib{}.a", name)).display());
    }
    println!("cargo:rerun-if-changed=build.rs");
}

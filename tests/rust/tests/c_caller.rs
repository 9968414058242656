//! The C caller, caller.c: compiled by gcc, or what the environment's CC names, against include/crankforest.h, linked with the archive that these tests link, and run.

use crankforest_tests::programs;
use std::env;
use std::path::{Path, PathBuf};
use std::process::Command;

/// How many checks caller.c makes: without claims and the entries on text, of the entries on text, and of claims.
const CHECKS: usize = 231;
const TEXT_CHECKS: usize = 17;
const CLAIM_CHECKS: usize = 24;

fn built(name: &str, warnings: &[&str]) -> PathBuf {
    let folder = Path::new(env!("CARGO_MANIFEST_DIR"));
    let program = Path::new(env!("CARGO_TARGET_TMPDIR")).join(name);
    let mut gcc = Command::new(env::var_os("CC").unwrap_or_else(|| "gcc".into()));
    gcc.args(["-std=c99", "-O1"]).args(warnings);
    if cfg!(feature = "text") {
        gcc.arg("-DTEXT_ENTRIES");
    }
    gcc.arg("-I").arg(folder.join("../../include")).arg(folder.join("caller.c"));
    gcc.arg(env!("CRANKFOREST_ARCHIVE")).arg("-o").arg(&program);
    let output = gcc.output().expect("gcc runs");
    assert!(output.status.success(), "gcc refuses caller.c:\n{}", String::from_utf8_lossy(&output.stderr));
    program
}

#[test]
fn the_c_caller_finds_all_right() {
    let program = built("caller", &["-Wall", "-Wextra", "-Werror", "-Wpedantic"]);
    let output = programs::command(&program).output().expect("the caller runs");
    let checks = CHECKS + CLAIM_CHECKS + if cfg!(feature = "text") { TEXT_CHECKS } else { 0 };
    assert_eq!(String::from_utf8_lossy(&output.stdout), format!("{} right, 0 wrong\n", checks));
    assert!(output.status.success());
}

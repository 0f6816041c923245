//! Finds `libbelkjoef.a` in the folder that `BELKJOEF_LIB_DIR` names, or else with pkg-config.

use std::env;
use std::path::{Path, PathBuf};
use std::process::Command;

const VARIABLE: &str = "BELKJOEF_LIB_DIR";
const ARCHIVE: &str = "libbelkjoef.a";

fn main() {
    println!("cargo:rerun-if-env-changed={VARIABLE}");
    for name in ["", "_PATH", "_LIBDIR", "_SYSROOT_DIR"] {
        println!("cargo:rerun-if-env-changed=PKG_CONFIG{name}");
    }
    println!("cargo:rerun-if-changed=build.rs");
    if env::var_os("DOCS_RS").is_some() {
        return;
    }
    let folder = match env::var_os(VARIABLE) {
        Some(folder) => PathBuf::from(folder),
        None => ask_pkg_config().unwrap_or_else(|why| {
            panic!("{why}\nset {VARIABLE} to the folder of {ARCHIVE}, or install the library")
        }),
    };
    let archive = folder.join(ARCHIVE);
    assert!(archive.is_file(), "{} does not exist", archive.display());
    link(&folder, &archive);
}

fn ask_pkg_config() -> Result<PathBuf, String> {
    let command = env::var_os("PKG_CONFIG").unwrap_or_else(|| "pkg-config".into());
    let answer = Command::new(&command)
        .args(["--variable=libdir", "belkjoef"])
        .output()
        .map_err(|error| format!("{}: {error}", command.to_string_lossy()))?;
    if !answer.status.success() {
        return Err(String::from_utf8_lossy(&answer.stderr).into_owned());
    }
    Ok(PathBuf::from(String::from_utf8_lossy(&answer.stdout).trim()))
}

fn link(folder: &Path, archive: &Path) {
    println!("cargo:rerun-if-changed={}", archive.display());
    println!("cargo:rustc-link-search=native={}", folder.display());
    println!("cargo:rustc-link-lib=static=belkjoef");
}

//! Links the archive of the library into the crate.

use std::env;
use std::path::PathBuf;

/// Where libhost.a is: the folder that BURIAL_LIB names, or where `scripts/build host` puts it.
fn folder() -> PathBuf {
    let package = PathBuf::from(env::var_os("CARGO_MANIFEST_DIR").expect("cargo sets it"));
    match env::var_os("BURIAL_LIB") {
        Some(named) => package.join(named),
        None => package.join("../../target/staticlib"),
    }
}

fn main() {
    let folder = folder();
    let archive = folder.join("libhost.a");
    println!("cargo::rerun-if-env-changed=BURIAL_LIB");
    println!("cargo::rerun-if-changed={}", archive.display());
    if !archive.is_file() {
        println!("cargo::error=there is no {}", archive.display());
        println!("cargo::error=run 'scripts/build host' first, or name its folder in BURIAL_LIB");
        return;
    }
    println!("cargo::rustc-link-search=native={}", folder.display());
    println!("cargo::rustc-link-lib=static=host");
}

//! Links the proved archive: the one that `make` builds in this repository, or the one in the
//! folder that the environment variable GLOAMSTROTHER_LIB names by its full path.

use std::env;
use std::path::PathBuf;

fn main() {
    println!("cargo::rerun-if-env-changed=GLOAMSTROTHER_LIB");
    let folder = folder();
    let archive = folder.join("libgateway.a");
    println!("cargo::rerun-if-changed={}", archive.display());
    if archive.is_file() {
        println!("cargo::rustc-link-search=native={}", folder.display());
        println!("cargo::rustc-link-lib=static=gateway");
    } else {
        println!(
            "cargo::error=there is no archive {}: run `make` first at the top of the repository, \
             or name the folder of libgateway.a in GLOAMSTROTHER_LIB",
            archive.display()
        );
    }
}

/// Where the archive is looked for.
fn folder() -> PathBuf {
    if let Some(folder) = env::var_os("GLOAMSTROTHER_LIB") {
        return PathBuf::from(folder);
    }
    let package = env::var_os("CARGO_MANIFEST_DIR").expect("cargo names the package's folder");
    PathBuf::from(package).join("../target/staticlib")
}

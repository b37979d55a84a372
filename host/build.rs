//! Links the proved library, which host/run makes. IONCAP_LIB names its folder
//! if it is not the project's.

use std::env;
use std::path::PathBuf;

fn main() {
    println!("cargo:rerun-if-env-changed=IONCAP_LIB");
    let folder = env::var_os("IONCAP_LIB").map_or_else(
        || {
            let host = env::var_os("CARGO_MANIFEST_DIR").expect("set by cargo");
            PathBuf::from(host).join("../target/staticlib")
        },
        PathBuf::from,
    );
    let archive = folder.join("libcapi.a");
    println!("cargo:rerun-if-changed={}", archive.display());
    if !archive.is_file() {
        panic!("{} is missing: host/run makes it", archive.display());
    }
    println!("cargo:rustc-link-search=native={}", folder.display());
    println!("cargo:rustc-link-lib=static=capi");
    // The curtain's remainder.
    println!("cargo:rustc-link-lib=m");
}

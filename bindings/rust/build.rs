//! Links libcapi.a from target/staticlib of the repository, or from the folder that HEQDANU_LIB_DIR names. The words
//! `-lNAME` of HEQDANU_LINK name further libraries, which the proved library does not need.

use std::env;
use std::path::PathBuf;

fn main() {
    println!("cargo:rerun-if-env-changed=HEQDANU_LIB_DIR");
    println!("cargo:rerun-if-env-changed=HEQDANU_LINK");
    let manifest = PathBuf::from(env::var_os("CARGO_MANIFEST_DIR").expect("cargo sets CARGO_MANIFEST_DIR"));
    let folder = match env::var_os("HEQDANU_LIB_DIR") {
        Some(folder) => PathBuf::from(folder),
        None => manifest.join("../../target/staticlib"),
    };
    let library = folder.join("libcapi.a");
    println!("cargo:rerun-if-changed={}", library.display());
    if !library.exists() {
        println!("cargo:warning={} is missing; `scripts/library` makes it", library.display());
    }
    println!("cargo:rustc-link-search=native={}", folder.display());
    println!("cargo:rustc-link-lib=static=capi");
    for name in env::var("HEQDANU_LINK").unwrap_or_default().split_whitespace().filter_map(|w| w.strip_prefix("-l")) {
        println!("cargo:rustc-link-lib=dylib={name}");
    }
}

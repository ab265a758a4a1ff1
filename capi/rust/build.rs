//! Links `libcapi.a`, which `capi/test` puts into target/staticlib (`rt lib` in crates/capi makes it); FIELDBOOK_LIBRARY names another folder.

use std::env;

fn main() {
    let written = concat!(env!("CARGO_MANIFEST_DIR"), "/../../target/staticlib");
    let folder = env::var("FIELDBOOK_LIBRARY").unwrap_or_else(|_| written.to_string());
    println!("cargo:rustc-link-search=native={folder}");
    println!("cargo:rustc-link-lib=static=capi");
    println!("cargo:rerun-if-changed={folder}/libcapi.a");
    println!("cargo:rerun-if-env-changed=FIELDBOOK_LIBRARY");
}

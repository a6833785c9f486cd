//! Links the proved library's archive; nothing is compiled here.

use std::path::Path;

fn main() {
    let folder = Path::new(env!("CARGO_MANIFEST_DIR")).join("../target/lib");
    let archive = folder.join("libfacetgrove.a");
    if !archive.exists() {
        panic!("{} is missing: run ./build-library in the project's folder first", archive.display());
    }
    println!("cargo:rerun-if-changed={}", archive.display());
    println!("cargo:rustc-link-search=native={}", folder.display());
    println!("cargo:rustc-link-lib=static=facetgrove");
}

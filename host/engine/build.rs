//! Links the static library that `.ci/library engine` writes.

use std::path::Path;

fn main() {
    let root = Path::new(env!("CARGO_MANIFEST_DIR")).join("../../target/staticlib");
    let library = root.join("libengine.a");
    println!("cargo:rerun-if-changed={}", library.display());
    if !library.exists() {
        panic!("{} is missing: write it with `.ci/library engine`", library.display());
    }
    println!("cargo:rustc-link-search=native={}", root.display());
    println!("cargo:rustc-link-lib=static=engine");
}

//! Links the static library that `rt lib` builds in crates/tefuji.

use std::path::Path;

fn main() {
    let manifest = std::env::var("CARGO_MANIFEST_DIR").expect("cargo names the crate's folder");
    let folder = Path::new(&manifest).join("../crates/tefuji/out");
    let library = folder.join("libtefuji.a");
    assert!(library.exists(), "no {}: run `rt lib` in crates/tefuji first", library.display());
    println!("cargo:rerun-if-changed={}", library.display());
    println!("cargo:rustc-link-search=native={}", folder.display());
    println!("cargo:rustc-link-lib=static=tefuji");
}

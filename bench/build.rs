//! Links the static library that `rt lib` writes in crates/tefuji.
fn main() {
    let folder = concat!(env!("CARGO_MANIFEST_DIR"), "/../crates/tefuji/out");
    println!("cargo:rustc-link-search=native={folder}");
    println!("cargo:rustc-link-lib=static=tefuji");
    println!("cargo:rerun-if-changed={folder}/libtefuji.a");
}

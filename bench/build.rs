//! Links the proved library, which `rt lib` has written in crates/capi.
fn main() {
    let root = std::path::Path::new(env!("CARGO_MANIFEST_DIR")).join("../crates/capi/out");
    println!("cargo:rustc-link-search=native={}", root.display());
    println!("cargo:rustc-link-lib=static=capi");
    println!("cargo:rerun-if-changed={}", root.join("libcapi.a").display());
}

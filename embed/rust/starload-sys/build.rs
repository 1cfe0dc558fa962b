//! Links embed/out/libstarload.a, or that of the folder that STARLOAD_LIB_DIR names.
fn main() {
    let beside = concat!(env!("CARGO_MANIFEST_DIR"), "/../../out");
    let folder = std::env::var("STARLOAD_LIB_DIR").unwrap_or_else(|_| beside.to_string());
    println!("cargo:rustc-link-search=native={folder}");
    println!("cargo:rustc-link-lib=static=starload");
    println!("cargo:rerun-if-env-changed=STARLOAD_LIB_DIR");
    println!("cargo:rerun-if-changed={folder}/libstarload.a");
}

//! Links our library, whose folder the environment names.
fn main() {
    let folder = std::env::var("SISALSHED_LIBRARY").expect("SISALSHED_LIBRARY");
    println!("cargo:rerun-if-env-changed=SISALSHED_LIBRARY");
    println!("cargo:rerun-if-changed={folder}/libsisalshed.a");
    println!("cargo:rustc-link-search=native={folder}");
    println!("cargo:rustc-link-lib=static=sisalshed");
}

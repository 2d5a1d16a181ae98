//! Links the proved library: from the folder that SISALSHED_LIBRARY names, else from where `tools/build library` puts it.
use std::env;
use std::path::PathBuf;

fn main() {
    println!("cargo:rerun-if-env-changed=SISALSHED_LIBRARY");
    let folder = match env::var_os("SISALSHED_LIBRARY") {
        Some(named) => PathBuf::from(named),
        None => PathBuf::from(env::var_os("CARGO_MANIFEST_DIR").unwrap()).join("../../target/staticlib"),
    };
    let library = folder.join("libsisalshed.a");
    println!("cargo:rerun-if-changed={}", library.display());
    assert!(library.is_file(), "{} is not there: `tools/build library` makes it", library.display());
    println!("cargo:rustc-link-search=native={}", folder.display());
    println!("cargo:rustc-link-lib=static=sisalshed");
}

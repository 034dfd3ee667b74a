//! Links the proved static library, which tools/library leaves in target/staticlib, or the one in the folder that VIEWER_LIBRARY names.

use std::path::PathBuf;

fn main() {
    let host =
        PathBuf::from(std::env::var("CARGO_MANIFEST_DIR").expect("cargo sets the crate's folder"));
    let folder = std::env::var("VIEWER_LIBRARY")
        .map_or_else(|_| host.join("../../target/staticlib"), PathBuf::from);
    let library = folder.join("libtholbrina.a");
    assert!(
        library.is_file(),
        "there is no libtholbrina.a: run tools/library first"
    );
    println!("cargo:rerun-if-env-changed=VIEWER_LIBRARY");
    println!("cargo:rerun-if-changed={}", library.display());
    println!("cargo:rustc-link-search=native={}", folder.display());
    println!("cargo:rustc-link-lib=static=tholbrina");
}

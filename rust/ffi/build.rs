//! Links the archive of the proved code, which `rt lib` writes in `crates/capi`.

use std::path::Path;

fn main() {
    let member = std::env::var("CARGO_MANIFEST_DIR").expect("Cargo names the member's folder");
    let folder = Path::new(&member).join("../../crates/capi/out");
    let archive = folder.join("libcapi.a");
    assert!(
        archive.exists(),
        "{} is missing: run `rt lib` in crates/capi first",
        archive.display()
    );
    println!("cargo:rerun-if-changed={}", archive.display());
    println!("cargo:rustc-link-search=native={}", folder.display());
    println!("cargo:rustc-link-lib=static=capi");
}

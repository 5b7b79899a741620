//! Links the proved library, target/staticlib/libpage.a of the repository; `tools/archive page` makes it.

use std::env::var;
use std::path::Path;

fn main() {
    let crate_folder = var("CARGO_MANIFEST_DIR").expect("cargo says where the crate is");
    let folder = Path::new(&crate_folder).join("../target/staticlib");
    let archive = folder.join("libpage.a");
    println!("cargo:rerun-if-changed={}", archive.display());
    let machine = var("CARGO_CFG_TARGET_ARCH").expect("cargo says what it builds for");
    assert!(
        machine == "x86_64",
        "the library is made for x86-64, not for {}: build with --target x86_64-unknown-linux-gnu",
        machine
    );
    assert!(archive.exists(), "{} is missing: run `tools/archive page` in the repository's root", archive.display());
    println!("cargo:rustc-link-search=native={}", folder.display());
    println!("cargo:rustc-link-lib=static=page");
}

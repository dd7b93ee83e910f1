//! Links the proved library where the processor is its own, x86-64, or where LEZVORGAN_LIB names the folder of one that
//! suits; elsewhere the wrapper is only type-checked and its pure parts tested.

use std::env;
use std::path::{Path, PathBuf};

fn link(folder: &Path) {
    let library = folder.join("liblez.a");
    println!("cargo::rerun-if-changed={}", library.display());
    if !library.is_file() {
        panic!("{} is missing: run 'rt lib' in crates/lez, or name its folder in LEZVORGAN_LIB", library.display());
    }
    println!("cargo::rustc-link-search=native={}", folder.display());
    println!("cargo::rustc-link-lib=static=lez");
    println!("cargo::rustc-cfg=lezvorgan_linked");
}

fn main() {
    println!("cargo::rustc-check-cfg=cfg(lezvorgan_linked)");
    println!("cargo::rerun-if-env-changed=LEZVORGAN_LIB");
    let here = PathBuf::from(env::var("CARGO_MANIFEST_DIR").expect("cargo names the manifest's folder"));
    if let Ok(folder) = env::var("LEZVORGAN_LIB") {
        link(Path::new(&folder));
    } else if env::var("CARGO_CFG_TARGET_ARCH").as_deref() == Ok("x86_64") {
        link(&here.join("../crates/lez/out"));
    }
}

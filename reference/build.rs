//! Links the C archive, and only when the feature `archive` asks for it.

use std::env;
use std::path::Path;

fn main() {
    println!("cargo:rerun-if-env-changed=VLODENKA_ARCHIVE");
    println!("cargo:rerun-if-changed=build.rs");
    if env::var_os("CARGO_FEATURE_ARCHIVE").is_none() {
        return;
    }
    let directory = env::var("VLODENKA_ARCHIVE")
        .expect("the feature `archive` needs VLODENKA_ARCHIVE: the directory of libvlodenka.a");
    let archive = Path::new(&directory).join("libvlodenka.a");
    assert!(archive.is_absolute(), "VLODENKA_ARCHIVE has to be an absolute path");
    assert!(archive.is_file(), "no archive at {}", archive.display());
    println!("cargo:rerun-if-changed={}", archive.display());
    println!("cargo:rustc-link-search=native={directory}");
    println!("cargo:rustc-link-lib=static=vlodenka");
}

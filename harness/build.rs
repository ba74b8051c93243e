//! Links the proved search: `libc_api.a`, in the folder that GOLFCEDAR_LIB names, else in
//! `../crates/c_api/out`.

use std::env;
use std::path::PathBuf;

fn main() {
    let manifest = PathBuf::from(env::var("CARGO_MANIFEST_DIR").unwrap());
    let folder = match env::var("GOLFCEDAR_LIB") {
        Ok(folder) => PathBuf::from(folder),
        Err(_) => manifest.join("../crates/c_api/out"),
    };
    let archive = folder.join("libc_api.a");
    assert!(
        archive.is_file(),
        "{} is missing: build it first, or set GOLFCEDAR_LIB to its folder",
        archive.display()
    );
    println!("cargo:rerun-if-env-changed=GOLFCEDAR_LIB");
    println!("cargo:rerun-if-changed={}", archive.display());
    println!("cargo:rustc-link-search=native={}", folder.display());
    println!("cargo:rustc-link-lib=static=c_api");
    println!("cargo:rustc-env=GOLFCEDAR_ARCHIVE={}", archive.display());
}

//! Links the archive of the calls for C: from the folder that CHUKELOWA_ARCHIVE names, or ../target/c, where tools/archive
//! leaves it.

use std::path::PathBuf;

fn main() {
    println!("cargo:rerun-if-env-changed=CHUKELOWA_ARCHIVE");
    let here = PathBuf::from(std::env::var_os("CARGO_MANIFEST_DIR").expect("cargo says where the crate is"));
    let folder = std::env::var_os("CHUKELOWA_ARCHIVE").map_or(here.join("../target/c"), PathBuf::from);
    let archive = folder.join("libchukelowa.a");
    assert!(
        archive.is_file(),
        "there is no {}: run tools/archive, or name the archive's folder in CHUKELOWA_ARCHIVE",
        archive.display()
    );
    println!("cargo:rerun-if-changed={}", archive.display());
    println!("cargo:rustc-link-search=native={}", folder.display());
    println!("cargo:rustc-link-lib=static=chukelowa");
    // tools/archive says so of the archive that it leaves, tools/unproved does not.
    let proved = if folder.join("proved").exists() { "yes" } else { "no" };
    println!("cargo:rustc-env=CHUKELOWA_PROVED={proved}");
}

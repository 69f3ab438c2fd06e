//! Links the archive of the proved library: the one in the folder that `URKIBASKO_LIB_DIR` names, else the one that `tools/library build` made here, else the
//! one in `dist`.

use std::path::PathBuf;

const PLACE: &str = "URKIBASKO_LIB_DIR";

fn main() {
    let root = PathBuf::from(std::env::var_os("CARGO_MANIFEST_DIR").expect("cargo says where")).join("../..");
    let built = root.join("target/staticlib");
    let shipped = root.join("dist/x86_64-linux");
    let here = if built.join("liburkibasko.a").exists() { built } else { shipped };
    let folder = std::env::var_os(PLACE).map_or(here, PathBuf::from);
    let archive = folder.join("liburkibasko.a");
    println!("cargo:rerun-if-env-changed={PLACE}");
    println!("cargo:rerun-if-changed={}", archive.display());
    if !archive.exists() {
        println!(
            "cargo:warning={} is missing: `tools/library build` at the repository's root makes it, or {PLACE} names its folder",
            archive.display()
        );
    }
    println!("cargo:rustc-link-search=native={}", folder.display());
    println!("cargo:rustc-link-lib=static=urkibasko");
}

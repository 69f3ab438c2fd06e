//! Links the system's libsqlite3 where its development files are; and, where `URK_BEFORE` names an earlier archive of the library, that too, its
//! functions under other names (before.rs).

use std::path::{Path, PathBuf};
use std::process::Command;

fn main() {
    println!("cargo:rustc-check-cfg=cfg(libsqlite3)");
    let folders = ["/usr/lib/x86_64-linux-gnu", "/usr/lib64", "/usr/lib", "/usr/local/lib"];
    if let Some(folder) = folders.iter().find(|folder| Path::new(folder).join("libsqlite3.so").exists()) {
        println!("cargo:rustc-cfg=libsqlite3");
        println!("cargo:rustc-link-search=native={folder}");
        println!("cargo:rustc-link-lib=dylib=sqlite3");
    }
    println!("cargo:rustc-check-cfg=cfg(before)");
    println!("cargo:rerun-if-env-changed=URK_BEFORE");
    if let Some(archive) = std::env::var_os("URK_BEFORE") {
        println!("cargo:rerun-if-changed={}", Path::new(&archive).display());
        let folder = PathBuf::from(std::env::var_os("OUT_DIR").expect("cargo says where"));
        let names = ["urk_varint_read", "urk_record_columns", "urk_check", "urk_lookup", "urk_log_page"];
        let status = Command::new("objcopy")
            .args(names.map(|name| format!("--redefine-sym={name}=before_{name}")))
            .args(["--wildcard", "--localize-symbol=urk_*"])
            .arg(&archive)
            .arg(folder.join("libbefore.a"))
            .status();
        assert!(status.is_ok_and(|status| status.success()), "objcopy renames the functions of URK_BEFORE");
        println!("cargo:rustc-cfg=before");
        println!("cargo:rustc-link-search=native={}", folder.display());
        println!("cargo:rustc-link-lib=static=before");
    }
}

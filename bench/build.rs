//! Links the proved static library, and an earlier build of it where there is one to hold it against. `HOST_LIB` and
//! `BEFORE_LIB` name the folders of the two.

use std::env;
use std::path::{Path, PathBuf};
use std::process::Command;

/// Copies the library of this folder to another folder, as `libbefore.a`, with `before_` ahead of what it exports.
fn rename(folder: &Path, to: &Path) {
    let functions = ["read", "read_scenes", "normalise", "measure", "to_pci", "from_pci", "find_scene", "write_book"];
    let renamed = functions.map(|name| format!("--redefine-sym=xp10_{name}=before_xp10_{name}"));
    let status =
        Command::new("objcopy").args(renamed).arg(folder.join("libhost.a")).arg(to.join("libbefore.a")).status();
    assert!(status.is_ok_and(|status| status.success()), "objcopy failed on {}", folder.display());
}

/// The library of this folder has the name somewhere in it.
fn has(folder: &Path, name: &str) -> bool {
    let library = std::fs::read(folder.join("libhost.a")).unwrap_or_default();
    library.windows(name.len()).any(|bytes| bytes == name.as_bytes())
}

fn link(folder: &Path, library: &str) {
    println!("cargo:rustc-link-search=native={}", folder.display());
    println!("cargo:rustc-link-lib=static={library}");
}

fn main() {
    let folder = |name: &str| env::var_os(name).map(PathBuf::from);
    let host = folder("HOST_LIB").unwrap_or_else(|| folder("CARGO_MANIFEST_DIR").unwrap().join("../crates/host/out"));
    link(&host, "host");
    println!("cargo:rerun-if-changed={}", host.join("libhost.a").display());
    println!("cargo:rerun-if-env-changed=HOST_LIB");
    println!("cargo:rerun-if-env-changed=BEFORE_LIB");
    println!("cargo:rustc-check-cfg=cfg(before, before_measures)");
    if let Some(before) = folder("BEFORE_LIB") {
        let out = folder("OUT_DIR").unwrap();
        rename(&before, &out);
        link(&out, "before");
        println!("cargo:rerun-if-changed={}", before.join("libhost.a").display());
        println!("cargo:rustc-cfg=before");
        if has(&before, "xp10_measure") {
            println!("cargo:rustc-cfg=before_measures");
        }
    }
}

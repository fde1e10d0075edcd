// SPDX-License-Identifier: MIT
//! Finds `libnvmearb.a`: in the folder `NVMEARB_LIB_DIR`, or by pkg-config where that isn't set.
use std::env;
use std::path::PathBuf;
use std::process::Command;

const HINT: &str = "set NVMEARB_LIB_DIR to the folder of libnvmearb.a, or PKG_CONFIG_PATH to that of nvmearb.pc";

/// What pkg-config tells of the library.
fn pkg_config(question: &str) -> Option<String> {
    let program = env::var_os("PKG_CONFIG").unwrap_or_else(|| "pkg-config".into());
    let output = Command::new(program).args([question, "nvmearb"]).output().ok()?;
    let text = String::from_utf8(output.stdout).ok()?;
    (output.status.success() && !text.trim().is_empty()).then(|| text.trim().to_owned())
}

/// The folder of the library. (pkg-config doesn't tell it by `--libs` where it is one of the system's.)
fn folder() -> PathBuf {
    if let Some(folder) = env::var_os("NVMEARB_LIB_DIR") {
        return folder.into();
    }
    let folder = pkg_config("--variable=libdir").unwrap_or_else(|| panic!("pkg-config finds no nvmearb: {HINT}"));
    let version = pkg_config("--modversion").unwrap_or_default();
    assert_eq!(version, env!("CARGO_PKG_VERSION"), "nvmearb.pc is of another version than this package");
    folder.into()
}

fn main() {
    for name in ["NVMEARB_LIB_DIR", "PKG_CONFIG", "PKG_CONFIG_PATH", "DOCS_RS"] {
        println!("cargo:rerun-if-env-changed={name}");
    }
    println!("cargo:rerun-if-changed=build.rs");
    if env::var_os("DOCS_RS").is_some() {
        return; // nothing is linked
    }
    let folder = folder();
    let archive = folder.join("libnvmearb.a");
    assert!(archive.is_file(), "there is no {}: {HINT}", archive.display());
    println!("cargo:rerun-if-changed={}", archive.display());
    println!("cargo:rustc-link-search=native={}", folder.display());
    println!("cargo:rustc-link-lib=static=nvmearb");
}

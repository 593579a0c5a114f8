//! Tells the linker where libknotpasture is: the folder that `KNOTPASTURE_LIB` names; else lib/ of the release that this stands in; else the
//! repository's own target/lib/PROCESSOR, which tools/libraries writes; else what pkg-config says. The archive is linked, or the shared library
//! where `KNOTPASTURE_SHARED` is set.

use std::{env, path::Path, process::Command};

fn by_pkg_config() -> Option<String> {
    let said = Command::new("pkg-config").args(["--variable=libdir", "knotpasture"]).output().ok()?;
    let folder = String::from_utf8(said.stdout).ok()?.trim().to_string();
    (said.status.success() && !folder.is_empty()).then_some(folder)
}

fn beside() -> Option<String> {
    let here = env::var("CARGO_MANIFEST_DIR").ok()?;
    let folders = ["../lib".to_string(), format!("../target/lib/{}", env::var("CARGO_CFG_TARGET_ARCH").ok()?)];
    let found = folders.iter().map(|folder| Path::new(&here).join(folder)).find(|folder| folder.join("libknotpasture.a").is_file())?;
    Some(found.to_string_lossy().into_owned())
}

fn main() {
    for name in ["KNOTPASTURE_LIB", "KNOTPASTURE_SHARED", "PKG_CONFIG_PATH"] {
        println!("cargo:rerun-if-env-changed={name}");
    }
    println!("cargo:rerun-if-changed=build.rs");
    match env::var("KNOTPASTURE_LIB").ok().or_else(beside).or_else(by_pkg_config) {
        Some(folder) => println!("cargo:rustc-link-search=native={folder}"),
        None => println!("cargo:warning=libknotpasture was not found: set KNOTPASTURE_LIB to its folder, or PKG_CONFIG_PATH"),
    }
    let kind = if env::var_os("KNOTPASTURE_SHARED").is_some() { "dylib" } else { "static" };
    println!("cargo:rustc-link-lib={kind}=knotpasture");
}

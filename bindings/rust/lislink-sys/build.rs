//! Finds liblislink: in the folder LISLINK_LIB_DIR, else by pkg-config. The archive is taken if it is there and
//! LISLINK_DYNAMIC is not set.
use std::{env, path::Path, process::Command};

fn main() {
    println!("cargo:rerun-if-env-changed=LISLINK_LIB_DIR");
    println!("cargo:rerun-if-env-changed=LISLINK_DYNAMIC");
    let folder = env::var("LISLINK_LIB_DIR").ok().or_else(|| {
        let asked =
            Command::new("pkg-config").args(["--variable=libdir", "lislink"]).output().ok()?;
        let folder = String::from_utf8(asked.stdout).ok()?.trim().to_string();
        (!folder.is_empty()).then_some(folder)
    });
    let mut kind = "dylib";
    if let Some(folder) = folder {
        let archive = Path::new(&folder).join("liblislink.a");
        if archive.exists() && env::var_os("LISLINK_DYNAMIC").is_none() {
            kind = "static";
        }
        println!("cargo:rerun-if-changed={}", archive.display());
        println!("cargo:rustc-link-search=native={folder}");
    } else {
        println!(
            "cargo:warning=liblislink is looked for where the linker looks: set LISLINK_LIB_DIR to its folder"
        );
    }
    println!("cargo:rustc-link-lib={kind}=lislink");
}

//! Finds `libamd_bare.a`: in the folder that RIMOPAKU_BARE_LIB_DIR names, or else in `prebuilt/` of the repository, where that
//! has one for the processor. The Rattle kit makes it.

use std::env;
use std::path::PathBuf;

/// The folder of the archive.
fn folder() -> PathBuf {
    if let Some(named) = env::var_os("RIMOPAKU_BARE_LIB_DIR") {
        return PathBuf::from(named);
    }
    let processor = env::var("CARGO_CFG_TARGET_ARCH").unwrap_or_default();
    let here = PathBuf::from(env::var_os("CARGO_MANIFEST_DIR").expect("cargo names the folder of the package"));
    here.join("../../prebuilt").join(format!("{processor}-linux"))
}

fn main() {
    println!("cargo:rerun-if-changed=build.rs");
    println!("cargo:rerun-if-env-changed=RIMOPAKU_BARE_LIB_DIR");
    if env::var_os("DOCS_RS").is_some() {
        return;
    }
    let folder = folder();
    let archive = folder.join("libamd_bare.a");
    if !archive.is_file() {
        panic!(
            "no libamd_bare.a in {}: `BARE=1 tools/build OUT` makes it, and RIMOPAKU_BARE_LIB_DIR may name its folder",
            folder.display()
        );
    }
    println!("cargo:rerun-if-changed={}", archive.display());
    println!("cargo:rustc-link-search=native={}", folder.display());
    println!("cargo:rustc-link-lib=static=amd_bare");
}

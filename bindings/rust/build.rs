//! Finds the C library. In this order: the folder that RIMOPAKU_LIB_DIR names, the folder `lib/ARCH-linux` of this
//! package, that folder in `prebuilt` of the repository, and pkg-config. A folder has `librimopaku.a`, or `libamd_c.a`
//! and `liblibc_c.a` as the Rattle kit makes them.

use std::env;
use std::path::{Path, PathBuf};
use std::process::Command;

/// Links the archives of a folder; returns whether it has them.
fn links_folder(folder: &Path) -> bool {
    let archives: &[&str] = if folder.join("librimopaku.a").is_file() {
        &["rimopaku"]
    } else if folder.join("libamd_c.a").is_file() && folder.join("liblibc_c.a").is_file() {
        &["amd_c", "libc_c"]
    } else {
        return false;
    };
    println!("cargo:rustc-link-search=native={}", folder.display());
    for archive in archives {
        println!("cargo:rustc-link-lib=static={archive}");
        println!("cargo:rerun-if-changed={}", folder.join(format!("lib{archive}.a")).display());
    }
    true
}

/// The name of the folder with the archives for a target. They call malloc, realloc and free of any C library.
fn archives_of(target: &str) -> Option<&'static str> {
    match target {
        "x86_64-unknown-linux-gnu" | "x86_64-unknown-linux-musl" => Some("x86_64-linux"),
        "aarch64-unknown-linux-gnu" | "aarch64-unknown-linux-musl" => Some("aarch64-linux"),
        _ => None,
    }
}

/// Links what pkg-config knows as `rimopaku`; returns whether it knows it.
fn links_installed() -> bool {
    let command = env::var_os("PKG_CONFIG").unwrap_or_else(|| "pkg-config".into());
    let ran = match Command::new(command).args(["--libs", "rimopaku"]).output() {
        Ok(ran) if ran.status.success() => ran,
        _ => return false,
    };
    for word in String::from_utf8_lossy(&ran.stdout).split_whitespace() {
        if let Some(folder) = word.strip_prefix("-L") {
            println!("cargo:rustc-link-search=native={folder}");
        } else if let Some(name) = word.strip_prefix("-l") {
            println!("cargo:rustc-link-lib={name}");
        }
    }
    true
}

fn main() {
    println!("cargo:rerun-if-changed=build.rs");
    for name in ["RIMOPAKU_LIB_DIR", "PKG_CONFIG", "PKG_CONFIG_PATH"] {
        println!("cargo:rerun-if-env-changed={name}");
    }
    if env::var_os("DOCS_RS").is_some() {
        return;
    }
    if let Some(named) = env::var_os("RIMOPAKU_LIB_DIR").map(PathBuf::from) {
        if !links_folder(&named) {
            panic!("RIMOPAKU_LIB_DIR={} has no librimopaku.a", named.display());
        }
        return;
    }
    let target = env::var("TARGET").expect("cargo names the target");
    let package = PathBuf::from(env::var_os("CARGO_MANIFEST_DIR").expect("cargo names the package"));
    let is_found = archives_of(&target).map_or(false, |name| {
        links_folder(&package.join("lib").join(name)) || links_folder(&package.join("../../prebuilt").join(name))
    });
    let is_native = env::var("HOST").ok().as_deref() == Some(&*target);
    if !(is_found || is_native && links_installed()) {
        panic!("no librimopaku for {target}: install it, or name the folder of librimopaku.a in RIMOPAKU_LIB_DIR");
    }
}

//! Finds `libyettuvam.a`, the archive that `make` makes at the top of Yettuvam's repository, and links it:
//! in the folder `YETTUVAM_LIB_DIR`, else beside this crate, else where `pkg-config` finds it.

use std::env;
use std::path::{Path, PathBuf};
use std::process::{exit, Command};

const ARCHIVE: &str = "libyettuvam.a";

fn main() {
    println!("cargo:rerun-if-changed=build.rs");
    println!("cargo:rerun-if-env-changed=YETTUVAM_LIB_DIR");
    println!("cargo:rerun-if-env-changed=PKG_CONFIG_PATH");
    // Documentation needs no library.
    if env::var_os("DOCS_RS").is_some() {
        return;
    }
    match target_is_known().and_then(|()| folder()) {
        Ok(folder) => {
            println!("cargo:rerun-if-changed={}", folder.join(ARCHIVE).display());
            println!("cargo:rustc-link-search=native={}", folder.display());
            println!("cargo:rustc-link-lib=static=yettuvam");
        }
        Err(message) => {
            eprintln!("error: {message}");
            exit(1);
        }
    }
}

fn target_is_known() -> Result<(), String> {
    let is = |name, value| env::var(name).as_deref() == Ok(value);
    if is("CARGO_CFG_TARGET_OS", "linux") && is("CARGO_CFG_TARGET_ARCH", "x86_64") {
        return Ok(());
    }
    Err("the library is built for Linux on x86-64 alone".to_string())
}

/// The folder of the archive.
fn folder() -> Result<PathBuf, String> {
    let has_archive = |folder: &PathBuf| folder.join(ARCHIVE).is_file();
    if let Some(given) = env::var_os("YETTUVAM_LIB_DIR").map(PathBuf::from) {
        if has_archive(&given) {
            return Ok(given);
        }
        return Err(format!(
            "YETTUVAM_LIB_DIR is {}, which has no {ARCHIVE}",
            given.display()
        ));
    }
    // `lib` in the crate, `lib` beside the crate in an unpacked tarball, and `out` beside the crate in the repository.
    let crate_folder = PathBuf::from(env::var_os("CARGO_MANIFEST_DIR").unwrap_or_default());
    let beside = ["lib", "../lib", "../out"]
        .iter()
        .map(|way| crate_folder.join(way));
    if let Some(folder) = beside.into_iter().find(has_archive) {
        return Ok(folder);
    }
    pkg_config().filter(|folder| has_archive(folder)).ok_or_else(|| {
        format!(
            "there is no {ARCHIVE}. `make` at the top of Yettuvam's repository makes it, and `make install` installs it; \
             else YETTUVAM_LIB_DIR has to name its folder"
        )
    })
}

/// The folder of the installed library.
fn pkg_config() -> Option<PathBuf> {
    let output = Command::new("pkg-config")
        .args(["--variable=libdir", "yettuvam"])
        .output()
        .ok()?;
    let folder = String::from_utf8(output.stdout).ok()?;
    output
        .status
        .success()
        .then(|| Path::new(folder.trim()).to_path_buf())
}

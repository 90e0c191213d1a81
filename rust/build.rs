//! Finds the library: in the folder that `HOENGTILA_ARCHIVE` names, else by pkg-config. The archive is linked, also where a shared object
//! stands beside it, so that a program needs no path at run time.

use std::env;
use std::path::{Path, PathBuf};
use std::process::{exit, Command};

const FOLDER: &str = "HOENGTILA_ARCHIVE";

fn main() {
    for variable in [FOLDER, "PKG_CONFIG", "PKG_CONFIG_PATH", "PKG_CONFIG_LIBDIR"] {
        println!("cargo:rerun-if-env-changed={variable}");
    }
    if let Some(folder) = env::var_os(FOLDER) {
        link(&PathBuf::from(folder), FOLDER);
    } else if env::var_os("CARGO_FEATURE_LINK").is_some() {
        link(&by_pkg_config(), "pkg-config");
    }
}

/// Has cargo link the archive of a folder, and tells crates above this one that it does.
fn link(folder: &Path, told_by: &str) {
    if folder.is_relative() {
        fail(&format!(
            "{told_by} has to name a folder by its whole path: {}",
            folder.display()
        ));
    }
    let archive = folder.join("libhoengtila.a");
    if !archive.exists() {
        fail(&format!(
            "{told_by} names a folder without libhoengtila.a: {}",
            folder.display()
        ));
    }
    println!("cargo:rerun-if-changed={}", archive.display());
    println!("cargo:rustc-link-search=native={}", folder.display());
    println!("cargo:rustc-link-lib=static=hoengtila");
    println!("cargo:linked=yes");
}

/// The folder of a library that this crate is for: before version 1 the second number has to be the same.
fn by_pkg_config() -> PathBuf {
    let target = env::var("TARGET").unwrap_or_default();
    if !target.starts_with("x86_64-") || !target.contains("-linux-") {
        fail(&format!(
            "the library is for x86-64 Linux, and not for {target}"
        ));
    }
    let found = ask_pkg_config("--modversion").unwrap_or_else(|| {
        fail(&format!(
            "the library was not found: set PKG_CONFIG_PATH to the folder lib/pkgconfig, or {FOLDER} to the folder lib, of where it is installed"
        ))
    });
    let wanted = env!("CARGO_PKG_VERSION");
    if series(&found) != series(wanted) {
        fail(&format!(
            "pkg-config finds version {found} of the library, and this crate is for {wanted}"
        ));
    }
    // a blank in a path is escaped for a shell
    PathBuf::from(
        ask_pkg_config("--variable=libdir")
            .unwrap_or_default()
            .replace("\\ ", " "),
    )
}

fn series(version: &str) -> Option<&str> {
    version.rsplit_once('.').map(|(series, _)| series)
}

fn ask_pkg_config(question: &str) -> Option<String> {
    let program = env::var_os("PKG_CONFIG").unwrap_or("pkg-config".into());
    let output = Command::new(program)
        .args([question, "hoengtila"])
        .output()
        .ok()?;
    let answer = String::from_utf8(output.stdout).ok()?;
    output
        .status
        .success()
        .then(|| answer.trim_end().to_string())
}

fn fail(what: &str) -> ! {
    eprintln!("hoengtila: {what}");
    exit(1)
}

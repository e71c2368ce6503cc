//! Tells where the archive is: in the folder that KUVTSADA_BSER_DIR names, in this package for the machines that it
//! is packed for, in `../build` of a checkout, or where pkg-config says.
use std::env;
use std::path::{Path, PathBuf};
use std::process::Command;

const ARCHIVE: &str = "libkuvtsada_bser.a";

/// The folder of the library, as pkg-config knows it.
fn of_pkg_config() -> Option<PathBuf> {
    let ran = Command::new("pkg-config").args(["--variable=libdir", "kuvtsada_bser"]).output().ok()?;
    let folder = String::from_utf8(ran.stdout).ok()?;
    ran.status.success().then(|| PathBuf::from(folder.trim()))
}

fn main() {
    println!("cargo:rerun-if-env-changed=KUVTSADA_BSER_DIR");
    let here = PathBuf::from(env::var_os("CARGO_MANIFEST_DIR").unwrap_or_default());
    let target = env::var("TARGET").unwrap_or_default();
    let named = env::var_os("KUVTSADA_BSER_DIR").map(PathBuf::from);
    let has = |folder: &PathBuf| Path::new(folder).join(ARCHIVE).exists();
    let looked = match named {
        Some(folder) => vec![folder],
        None => [Some(here.join("native").join(&target)), Some(here.join("../build")), of_pkg_config()]
            .into_iter()
            .flatten()
            .collect(),
    };
    let Some(folder) = looked.iter().find(|folder| has(folder)) else {
        panic!(
            "no {ARCHIVE} for {target} in {looked:?}: make it by scripts/bridge_archive, or take the package of \
             a release, or name its folder in KUVTSADA_BSER_DIR"
        );
    };
    println!("cargo:rerun-if-changed={}", folder.join(ARCHIVE).display());
    println!("cargo:rustc-link-search=native={}", folder.display());
    println!("cargo:rustc-link-lib=static=kuvtsada_bser");
}

//! Finds the archive `libncw.a` and links it.
use std::env;
use std::fs;
use std::path::{Path, PathBuf};
use std::process::exit;

const HOW: &str = "Run `host/archive` of the repository, or name the folder of libncw.a in NCW_ARCHIVE.";

fn main() {
    println!("cargo:rerun-if-env-changed=NCW_ARCHIVE");
    let folder = match env::var_os("NCW_ARCHIVE") {
        Some(folder) => PathBuf::from(folder),
        None => built_here(),
    };
    let archive = folder.join("libncw.a");
    println!("cargo:rerun-if-changed={}", archive.display());
    match fs::canonicalize(&archive) {
        Ok(found) => link(&found),
        Err(error) => stop(&format!("The archive {} is not there ({error}). {HOW}", archive.display())),
    }
}

/// Where `host/archive` puts the archive, which is for one kind of machine.
fn built_here() -> PathBuf {
    if env::var("CARGO_CFG_TARGET_ARCH").as_deref() != Ok("x86_64") {
        stop("The archive of `host/archive` is for x86-64: build with `--target x86_64-unknown-linux-gnu`.");
    }
    Path::new(&env::var_os("CARGO_MANIFEST_DIR").unwrap_or_default()).join("../../target/staticlib")
}

fn link(archive: &Path) {
    let folder = archive.parent().unwrap_or(archive);
    println!("cargo:rustc-link-search=native={}", folder.display());
    println!("cargo:rustc-link-lib=static=ncw");
}

fn stop(words: &str) -> ! {
    eprintln!("{words}");
    exit(1)
}

// Finds the proved archive: in the folder that ROOTS_ARCHIVE_DIR names, or built by tools/compile-archives with the toolchain's `rt`.
use std::path::{Path, PathBuf};
use std::process::Command;

fn main() {
    println!("cargo:rerun-if-env-changed=ROOTS_ARCHIVE_DIR");
    let folder = match std::env::var_os("ROOTS_ARCHIVE_DIR") {
        Some(folder) => PathBuf::from(folder),
        None => built(),
    };
    let archive = folder.join("libroots_c.a");
    if !archive.exists() {
        panic!("no {}: set ROOTS_ARCHIVE_DIR to the folder that holds libroots_c.a", archive.display());
    }
    println!("cargo:rerun-if-changed={}", archive.display());
    println!("cargo:rustc-link-search=native={}", folder.display());
    println!("cargo:rustc-link-lib=static=roots_c");
}

// tools/compile-archives proves the library and writes an archive for each processor.
fn built() -> PathBuf {
    let top = Path::new(env!("CARGO_MANIFEST_DIR")).join("../..");
    let processor = std::env::var("CARGO_CFG_TARGET_ARCH").expect("cargo names the processor");
    let folder = top.join("target/archive").join(processor);
    if folder.join("libroots_c.a").exists() {
        return folder;
    }
    match Command::new(top.join("tools/compile-archives")).status() {
        Ok(status) if status.success() => folder,
        Ok(status) => panic!("tools/compile-archives ended with {status}"),
        Err(fault) => panic!("tools/compile-archives could not be run ({fault}): set ROOTS_ARCHIVE_DIR to the folder that holds libroots_c.a"),
    }
}

// Finds the proved archive: in the folder that ROOTS_ARCHIVE_DIR names, or where tools/compile-archives writes it. The one in the folder that
// ROOTS_FORMER_DIR names is linked beside it, with `former_` before each name; unless it is set, that is the proved archive once more.
use std::path::{Path, PathBuf};
use std::process::Command;

// The archive in the folder that the variable names, or else in the other folder.
fn archive_of(variable: &str, otherwise: PathBuf) -> PathBuf {
    println!("cargo:rerun-if-env-changed={variable}");
    let archive = std::env::var_os(variable).map_or(otherwise, PathBuf::from).join("libroots_c.a");
    if !archive.exists() {
        panic!("no {}: run tools/compile-archives, or set {variable}", archive.display());
    }
    println!("cargo:rerun-if-changed={}", archive.display());
    archive
}

fn main() {
    let processor = std::env::var("CARGO_CFG_TARGET_ARCH").expect("cargo names the processor");
    let written = Path::new(env!("CARGO_MANIFEST_DIR")).join("../target/archive").join(processor);
    let archive = archive_of("ROOTS_ARCHIVE_DIR", written);
    let folder = archive.parent().expect("an archive stands in a folder").to_path_buf();
    let former = archive_of("ROOTS_FORMER_DIR", folder.clone());
    let out = PathBuf::from(std::env::var_os("OUT_DIR").expect("cargo names a folder"));
    let renamed = Command::new("objcopy").arg("--prefix-symbols=former_").arg(former).arg(out.join("libroots_former.a")).status();
    if !renamed.is_ok_and(|status| status.success()) {
        panic!("objcopy, of binutils, could not give the former archive other names");
    }
    for (folder, name) in [(folder, "roots_c"), (out, "roots_former")] {
        println!("cargo:rustc-link-search=native={}", folder.display());
        println!("cargo:rustc-link-lib=static={name}");
    }
}

//! Links the library's archive `libffi.a`, from the folder that the environment variable
//! INFOD3_ARCHIVE names, or from crates/ffi/out of the repository.

use std::env;
use std::path::PathBuf;

fn main() {
    println!("cargo:rerun-if-env-changed=INFOD3_ARCHIVE");
    let folder = match env::var_os("INFOD3_ARCHIVE") {
        Some(folder) => PathBuf::from(folder),
        None => PathBuf::from(env::var_os("CARGO_MANIFEST_DIR").expect("cargo sets it"))
            .join("../../crates/ffi/out"),
    };
    let archive = folder.join("libffi.a");
    println!("cargo:rerun-if-changed={}", archive.display());
    if !archive.is_file() {
        eprintln!("{} is missing: run `rt lib`", archive.display());
        eprintln!("in crates/ffi, or name its folder in INFOD3_ARCHIVE.");
        std::process::exit(1);
    }
    println!("cargo:rustc-link-search=native={}", folder.display());
    println!("cargo:rustc-link-lib=static=ffi");
}

// Links the proved library: crates/liuwdom/out/libliuwdom.a of this repository, or that of the folder in LIUWDOM_LIB_DIR.
use std::env;
use std::path::{Path, PathBuf};
use std::process::exit;

const ARCHIVE: &str = "libliuwdom.a";

fn folder() -> PathBuf {
    match env::var_os("LIUWDOM_LIB_DIR") {
        Some(given) => PathBuf::from(given),
        None => {
            let package = env::var_os("CARGO_MANIFEST_DIR").unwrap_or_default();
            Path::new(&package).join("../crates/liuwdom/out")
        }
    }
}

fn main() {
    println!("cargo:rerun-if-env-changed=LIUWDOM_LIB_DIR");
    let folder = folder();
    let archive = folder.join(ARCHIVE);
    println!("cargo:rerun-if-changed={}", archive.display());
    if !archive.is_file() {
        eprintln!(
            "{} is missing: run `rt lib` in crates/liuwdom first, or set LIUWDOM_LIB_DIR to the folder that holds {ARCHIVE}",
            archive.display()
        );
        exit(1);
    }
    println!("cargo:rustc-link-search=native={}", folder.display());
    println!("cargo:rustc-link-lib=static=liuwdom");
}

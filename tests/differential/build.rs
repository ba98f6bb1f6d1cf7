//! Links the archive. One that lacks a function fails to link.

use std::env;
use std::path::Path;

fn main() {
    println!("cargo:rerun-if-env-changed=PLAITCRUMB_LIB");
    // A relative path counts from the root of the repository.
    let crate_dir = env::var("CARGO_MANIFEST_DIR").expect("cargo names the crate's folder");
    let lib = env::var("PLAITCRUMB_LIB").unwrap_or_else(|_| "build/libplaitcrumb.a".into());
    let archive = Path::new(&crate_dir).join("../..").join(lib);
    println!("cargo:rerun-if-changed={}", archive.display());
    assert!(archive.is_file(), "no archive at {}", archive.display());
    let folder = archive.parent().expect("a file stands in a folder");
    let file = archive.file_name().expect("a file has a name");
    println!("cargo:rustc-link-search=native={}", folder.display());
    println!("cargo:rustc-link-lib=static:+verbatim={}", file.to_string_lossy());
}

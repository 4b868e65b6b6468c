//! Says where the archive is: ../../target/staticlib, or the folder that SKELMARITH_ARCHIVE names.

#![forbid(unsafe_code)]

use std::path::PathBuf;

fn main() {
    let folder = std::env::var_os("SKELMARITH_ARCHIVE").map_or_else(
        || PathBuf::from(env!("CARGO_MANIFEST_DIR")).join("../../target/staticlib"),
        PathBuf::from,
    );
    println!("cargo::rerun-if-env-changed=SKELMARITH_ARCHIVE");
    println!(
        "cargo::rerun-if-changed={}",
        folder.join("libskelmarith.a").display()
    );
    println!("cargo::rustc-link-search=native={}", folder.display());
    println!("cargo::rustc-link-lib=static:-bundle=skelmarith");
}

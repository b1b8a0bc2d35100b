//! Links `libreplica.a` of `../target/staticlib`, or of the folder that REPLICA_DIR names. Code finds its path by
//! `env!("REPLICA_ARCHIVE")`.

use std::path::PathBuf;

fn main() {
    let here = PathBuf::from(std::env::var_os("CARGO_MANIFEST_DIR").unwrap_or_default());
    let folder = match std::env::var_os("REPLICA_DIR") {
        Some(folder) => PathBuf::from(folder),
        None => here.join("../target/staticlib"),
    };
    let archive = folder.join("libreplica.a");
    println!("cargo:rerun-if-env-changed=REPLICA_DIR");
    println!("cargo:rerun-if-changed={}", archive.display());
    println!("cargo:rustc-env=REPLICA_ARCHIVE={}", archive.display());
    println!("cargo:rustc-link-search=native={}", folder.display());
    println!("cargo:rustc-link-lib=static=replica");
}

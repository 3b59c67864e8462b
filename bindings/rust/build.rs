//! Where the static library lies: the folder PLAVOTESK_LIB, or where bin/build puts it in the checkout. It is built for x86-64 Linux.

use std::path::Path;

fn main() {
    let made = concat!(env!("CARGO_MANIFEST_DIR"), "/../../target/staticlib");
    let folder = std::env::var("PLAVOTESK_LIB").unwrap_or_else(|_| made.into());
    println!("cargo:rerun-if-env-changed=PLAVOTESK_LIB");
    println!("cargo:rerun-if-changed={folder}/libplavotesk.a");
    let processor = std::env::var("CARGO_CFG_TARGET_ARCH").unwrap_or_default();
    if processor != "x86_64" {
        panic!("the library of plavotesk is built for x86-64 Linux, not for {processor}: build with --target x86_64-unknown-linux-gnu");
    }
    if !Path::new(&folder).join("libplavotesk.a").exists() {
        panic!("libplavotesk.a is not in {folder}: run bin/build in the checkout of plavotesk, or set PLAVOTESK_LIB to its folder");
    }
    println!("cargo:rustc-link-search=native={folder}");
}

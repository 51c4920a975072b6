//! Says where the library lies that the package's manifest names under `links`: the one for the machine that the
//! package is compiled for.

use std::env;
use std::path::PathBuf;

fn main() {
    let manifest = env::var("CARGO_MANIFEST_DIR").expect("cargo names the manifest's directory");
    let library = env::var("CARGO_MANIFEST_LINKS").expect("the manifest names a library");
    let machine = env::var("CARGO_CFG_TARGET_ARCH").expect("cargo names the machine");
    let folder = if machine == "x86_64" { "staticlib" } else { "native" };
    let directory = PathBuf::from(manifest).join("../../../target").join(folder);
    println!("cargo::rustc-link-search=native={}", directory.display());
    println!("cargo::rustc-link-lib=static={library}");
    println!("cargo::rerun-if-changed={}", directory.join(format!("lib{library}.a")).display());
}

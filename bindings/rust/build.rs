//! Links the static library: from the folder that TIGNAROPS_LIB_DIR names, or where `make` leaves it.

use std::env;
use std::path::PathBuf;

fn main() {
    println!("cargo:rerun-if-env-changed=TIGNAROPS_LIB_DIR");
    let built = PathBuf::from(env!("CARGO_MANIFEST_DIR")).join("../../target/staticlib");
    let folder = env::var_os("TIGNAROPS_LIB_DIR").map_or(built, PathBuf::from);
    println!(
        "cargo:rerun-if-changed={}",
        folder.join("libtignarops.a").display()
    );
    println!("cargo:rustc-link-search=native={}", folder.display());
    println!("cargo:rustc-link-lib=static=tignarops");
}

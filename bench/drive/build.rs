//! Links the proved nub: the files that LISHABON_LINK names, as bench/run sets it.

use std::env;

fn main() {
    println!("cargo:rerun-if-env-changed=LISHABON_LINK");
    let files = env::var_os("LISHABON_LINK").expect("LISHABON_LINK is set by bench/run");
    for file in env::split_paths(&files) {
        println!("cargo:rerun-if-changed={}", file.display());
        println!("cargo:rustc-link-arg={}", file.display());
    }
}

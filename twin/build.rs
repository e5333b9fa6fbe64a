//! Links the product's static library where `DUTY_LIB_DIR` names its folder.
//! Without the variable the crate is built all the same, and the calls into
//! the product are left out.

use std::env;
use std::path::Path;

const LIBRARY: &str = "c_bench";

fn main() {
    println!("cargo::rustc-check-cfg=cfg(product)");
    println!("cargo::rerun-if-changed=build.rs");
    println!("cargo::rerun-if-env-changed=DUTY_LIB_DIR");
    if let Ok(folder) = env::var("DUTY_LIB_DIR") {
        let archive = Path::new(&folder).join(format!("lib{LIBRARY}.a"));
        println!("cargo::rerun-if-changed={}", archive.display());
        println!("cargo::rustc-link-search=native={folder}");
        println!("cargo::rustc-link-lib=static={LIBRARY}");
        println!("cargo::rustc-cfg=product");
    }
}

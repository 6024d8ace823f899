// Finds the bench's archive: in the folder LAVRINDES_LIB_DIR, else where `rt lib` in crates/bench leaves it.
use std::{env, path::PathBuf};

fn main() {
    println!("cargo:rerun-if-env-changed=LAVRINDES_LIB_DIR");
    let here = PathBuf::from(env::var_os("CARGO_MANIFEST_DIR").expect("cargo names the package's folder"));
    let dir = match env::var_os("LAVRINDES_LIB_DIR") {
        Some(dir) => PathBuf::from(dir),
        None => here.join("../../crates/bench/out"),
    };
    let archive = dir.join("libbench.a");
    if !archive.is_file() {
        panic!(
            "there is no {}: run `rt lib` in crates/bench, or name the archive's folder in LAVRINDES_LIB_DIR",
            archive.display()
        );
    }
    println!("cargo:rerun-if-changed={}", archive.display());
    println!("cargo:rustc-link-search=native={}", dir.display());
    println!("cargo:rustc-link-lib=static=bench");
}

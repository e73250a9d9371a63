//! Links our static libraries where there are any, and sets a cfg for each of their functions.
//!
//! The script `drive` names their folder in VAIKELOMU_LIBRARIES, in VAIKELOMU_ARCHIVES the libraries, and in
//! VAIKELOMU_SYMBOLS the functions that they have.

use std::env;

fn main() {
    println!("cargo::rerun-if-env-changed=VAIKELOMU_LIBRARIES");
    println!("cargo::rerun-if-env-changed=VAIKELOMU_ARCHIVES");
    println!("cargo::rerun-if-env-changed=VAIKELOMU_SYMBOLS");
    let symbols = env::var("VAIKELOMU_SYMBOLS").unwrap_or_default();
    println!("cargo::rustc-env=VAIKELOMU_SYMBOLS={symbols}");
    for symbol in symbols.split_whitespace() {
        println!("cargo::rustc-cfg={symbol}");
    }
    let archives = env::var("VAIKELOMU_ARCHIVES").unwrap_or_default();
    for archive in archives.split_whitespace() {
        let folder = env::var("VAIKELOMU_LIBRARIES").expect("drive names the archives' folder");
        println!("cargo::rerun-if-changed={folder}/lib{archive}.a");
        println!("cargo::rustc-link-search=native={folder}");
        println!("cargo::rustc-link-lib=static={archive}");
    }
}

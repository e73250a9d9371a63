//! Links our static libraries, whose folder the script `run` names.

fn main() {
    let folder = std::env::var("VAIKELOMU_LIBRARIES").expect("run names the archives' folder");
    println!("cargo::rerun-if-env-changed=VAIKELOMU_LIBRARIES");
    println!("cargo::rustc-link-search=native={folder}");
    for archive in ["comparison", "vaikelomu"] {
        println!("cargo::rerun-if-changed={folder}/lib{archive}.a");
        println!("cargo::rustc-link-lib=static={archive}");
    }
}

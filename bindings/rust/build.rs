//! Links the libraries. They lie in the folder NORPHUEN_LIB_DIR, else in the release that contains this package.
//! The features `nonmoving`, `tlsf` and `half` name another library than `norphuen`; `sliced`, `tasks`, `images` and `large` one
//! more.
use std::{env, path::Path};

fn main() {
    let chosen = |feature: &&str| env::var_os(format!("CARGO_FEATURE_{feature}")).is_some();
    let library = |feature: &str| format!("norphuen_{}", feature.to_lowercase());
    let first = ["NONMOVING", "TLSF", "HALF"].into_iter().find(chosen).map_or("norphuen".to_string(), library);
    let more = ["SLICED", "TASKS", "IMAGES", "LARGE"].into_iter().filter(chosen).map(library);
    let folder = env::var("NORPHUEN_LIB_DIR").unwrap_or_else(|_| {
        let set_by_cargo = |name| env::var(name).expect("cargo runs this script");
        format!("{}/../../lib/{}", set_by_cargo("CARGO_MANIFEST_DIR"), set_by_cargo("CARGO_CFG_TARGET_ARCH"))
    });
    println!("cargo::rerun-if-env-changed=NORPHUEN_LIB_DIR");
    println!("cargo::rustc-link-search=native={folder}");
    for library in [first].into_iter().chain(more) {
        let archive = Path::new(&folder).join(format!("lib{library}.a"));
        assert!(archive.exists(), "there is no {}: NORPHUEN_LIB_DIR names the libraries' folder", archive.display());
        println!("cargo::rerun-if-changed={}", archive.display());
        println!("cargo::rustc-link-lib=static={library}");
    }
}

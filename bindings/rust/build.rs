//! Links the archives that `bindings/build` makes, or those of the directory METER_LIB_DIR.

use std::env;
use std::path::PathBuf;

const ARCHIVES: [&str; 3] = ["host", "recorder", "replayer"];

fn main() {
    println!("cargo:rerun-if-env-changed=METER_LIB_DIR");
    let here = PathBuf::from(env::var_os("CARGO_MANIFEST_DIR").expect("set by cargo"));
    let made = env::var_os("METER_LIB_DIR").map_or(here.join("../../target/staticlib"), PathBuf::from);
    println!("cargo:rustc-link-search=native={}", made.display());
    for name in ARCHIVES {
        let archive = made.join(format!("lib{name}.a"));
        if !archive.is_file() {
            panic!(
                "no archive at {}: run bindings/build, or name its directory in METER_LIB_DIR",
                archive.display()
            );
        }
        println!("cargo:rerun-if-changed={}", archive.display());
        println!("cargo:rustc-link-lib=static={name}");
    }
}

//! Links the functions to be compared. HALLPLAN_LIBRARY names the folder with the static libraries that tests/archive writes
//! (by default target/staticlib of this repository); `shared:FOLDER` names one with libsubject.so instead.

use std::env;
use std::path::Path;

fn main() {
    println!("cargo:rerun-if-env-changed=HALLPLAN_LIBRARY");
    let here = env::var("CARGO_MANIFEST_DIR").expect("cargo sets it");
    let default = Path::new(&here).join("../../target/staticlib").display().to_string();
    let library = env::var("HALLPLAN_LIBRARY").unwrap_or(default);
    if let Some(folder) = library.strip_prefix("shared:") {
        println!("cargo:rustc-link-search=native={folder}");
        println!("cargo:rustc-link-lib=dylib=subject");
    } else {
        println!("cargo:rustc-link-search=native={library}");
        for name in ["c_api_c", "test_exports"] {
            println!("cargo:rerun-if-changed={library}/lib{name}.a");
            println!("cargo:rustc-link-lib=static={name}");
        }
    }
}

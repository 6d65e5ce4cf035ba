//! With the feature `archive`: links `liblevel.a` from the folder that LEVEL_DIR names.

use std::env;
use std::path::Path;

fn main() {
    println!("cargo:rerun-if-changed=build.rs");
    if env::var_os("CARGO_FEATURE_ARCHIVE").is_none() {
        return;
    }
    println!("cargo:rerun-if-env-changed=LEVEL_DIR");
    let named = env::var("LEVEL_DIR").unwrap_or_else(|_| "../target/staticlib".to_string());
    let folder = Path::new(&named);
    let archive = folder.join("liblevel.a");
    println!("cargo:rerun-if-changed={}", archive.display());
    match folder.canonicalize() {
        Ok(folder) if archive.is_file() => {
            println!("cargo:rustc-link-search=native={}", folder.display());
            println!("cargo:rustc-link-lib=static=level");
        }
        _ => panic!("{} is not there: tools/archive makes it", archive.display()),
    }
}

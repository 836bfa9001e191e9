//! Links the port's static library from the folder that EXPORTS_LIBRARY names.

use std::env;

fn main() -> Result<(), String> {
    println!("cargo::rerun-if-changed=build.rs");
    println!("cargo::rerun-if-env-changed=EXPORTS_LIBRARY");
    let folder = env::var("EXPORTS_LIBRARY").map_err(|error| format!("EXPORTS_LIBRARY: {error}"))?;
    println!("cargo::rerun-if-changed={folder}/libbasic_text.a");
    println!("cargo::rustc-link-search=native={folder}");
    println!("cargo::rustc-link-lib=static=basic_text");
    Ok(())
}

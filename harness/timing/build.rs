//! Links the port's static libraries from the folder that BENCH_LIBRARY names. Each is a module of its own: neither changes
//! what is inlined in the other.

use std::env;

fn main() -> Result<(), String> {
    println!("cargo::rerun-if-changed=build.rs");
    println!("cargo::rerun-if-env-changed=BENCH_LIBRARY");
    let folder = env::var("BENCH_LIBRARY").map_err(|error| format!("BENCH_LIBRARY: {error}"))?;
    println!("cargo::rustc-link-search=native={folder}");
    for library in ["bench", "basic_text"] {
        println!("cargo::rerun-if-changed={folder}/lib{library}.a");
        println!("cargo::rustc-link-lib=static={library}");
    }
    Ok(())
}

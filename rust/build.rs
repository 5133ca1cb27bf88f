//! Finds libthompson: in the folder that THOMPSON_LIB_DIR names or, where that is not set, in the one that pkg-config
//! knows. libthompson.a is linked where the folder has it, else libthompson.so.

use std::path::Path;
use std::process::Command;

/// What pkg-config answers about thompson.
fn pkg_config(word: &str) -> Result<String, String> {
    let program = std::env::var("PKG_CONFIG").unwrap_or_else(|_| "pkg-config".to_string());
    match Command::new(&program).args([word, "thompson"]).output() {
        Ok(said) if said.status.success() => Ok(String::from_utf8_lossy(&said.stdout).trim().to_string()),
        Ok(said) => Err(String::from_utf8_lossy(&said.stderr).trim().to_string()),
        Err(error) => Err(format!("{program}: {error}")),
    }
}

/// The folder of the library.
fn folder() -> Result<String, String> {
    if let Ok(folder) = std::env::var("THOMPSON_LIB_DIR") {
        return Ok(folder);
    }
    pkg_config(concat!("--atleast-version=", env!("CARGO_PKG_VERSION")))?;
    pkg_config("--variable=libdir")
}

fn main() {
    for name in ["THOMPSON_LIB_DIR", "PKG_CONFIG", "PKG_CONFIG_PATH", "PKG_CONFIG_LIBDIR"] {
        println!("cargo:rerun-if-env-changed={name}");
    }
    let folder = match folder() {
        Ok(folder) => folder,
        Err(why) => {
            eprintln!("libthompson is not found: set THOMPSON_LIB_DIR to its folder, or install it. {why}");
            std::process::exit(1);
        }
    };
    let archive = Path::new(&folder).join("libthompson.a");
    println!("cargo:rerun-if-changed={}", archive.display());
    println!("cargo:rustc-link-search=native={folder}");
    println!("cargo:rustc-link-lib={}=thompson", if archive.exists() { "static" } else { "dylib" });
}

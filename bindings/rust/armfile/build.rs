//! Links the static library libarmfile.a from the directory that the
//! environment variable ARMFILE_LIB names, where `make lib` puts it. A
//! relative path is taken from the root of the repository.

use std::path::{Path, PathBuf};

fn main() {
    println!("cargo:rerun-if-changed=build.rs");
    println!("cargo:rerun-if-env-changed=ARMFILE_LIB");
    let directory = match directory() {
        Ok(directory) => directory,
        Err(message) => {
            eprintln!("error: {message}");
            std::process::exit(1);
        }
    };
    let shown = directory.display();
    println!("cargo:rerun-if-changed={shown}/libarmfile.a");
    println!("cargo:rustc-link-search=native={shown}");
    println!("cargo:rustc-link-lib=static=armfile");
}

/// The directory of the library, or what is wrong with it.
fn directory() -> Result<PathBuf, String> {
    let given = std::env::var_os("ARMFILE_LIB").unwrap_or_default();
    if given.is_empty() {
        return Err(
            "set ARMFILE_LIB to the directory of libarmfile.a (target/lib after `make lib`)".into(),
        );
    }
    let root = Path::new(env!("CARGO_MANIFEST_DIR")).join("../../..");
    let directory = root.join(given);
    let archive = directory.join("libarmfile.a");
    if !archive.is_file() {
        let shown = archive.display();
        return Err(format!(
            "ARMFILE_LIB: {shown} does not exist; `make lib` writes it"
        ));
    }
    directory
        .canonicalize()
        .map_err(|e| format!("ARMFILE_LIB: {}: {e}", directory.display()))
}

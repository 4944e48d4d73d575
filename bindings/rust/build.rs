//! Links the proved library, `libsargaceu.a`: from the repository's `target/staticlib`, where `./archive` puts it, or from the folder
//! that `SARGACEU_LIB` names by its full path. The archive has x86-64 Linux code and needs nothing but memcpy and memset.

use std::env;
use std::path::{Path, PathBuf};
use std::process;

fn main() {
    println!("cargo:rerun-if-env-changed=SARGACEU_LIB");
    let repository = repository();
    let folder = match env::var_os("SARGACEU_LIB") {
        Some(folder) => PathBuf::from(folder),
        None => repository.join("target/staticlib"),
    };
    let archive = folder.join("libsargaceu.a");
    println!("cargo:rerun-if-changed={}", archive.display());
    if cargo_says("CARGO_CFG_TARGET_ARCH") != "x86_64"
        || cargo_says("CARGO_CFG_TARGET_OS") != "linux"
    {
        refuse("the archive has x86-64 Linux code: build with --target x86_64-unknown-linux-gnu");
    }
    if !archive.is_file() {
        refuse(&format!(
            "there is no {} to link.\n\
             Run ./archive in {}: it proves the library and makes the archive (`rt lib` of the crate `abi_c`, under the product's name).\n\
             Or let SARGACEU_LIB name the folder that has the archive, by its full path.",
            archive.display(),
            repository.display()
        ));
    }
    println!("cargo:rustc-link-search=native={}", folder.display());
    println!("cargo:rustc-link-lib=static=sargaceu");
}

/// The repository's folder, two above this crate's.
fn repository() -> PathBuf {
    let here = cargo_says("CARGO_MANIFEST_DIR");
    match Path::new(&here).ancestors().nth(2) {
        Some(repository) => repository.to_path_buf(),
        None => refuse("the crate does not lie in the repository's bindings/rust"),
    }
}

/// What cargo tells every build script under a name.
fn cargo_says(name: &str) -> String {
    match env::var(name) {
        Ok(value) => value,
        Err(_) => refuse(&format!("cargo does not set {name}")),
    }
}

/// Ends the build with a sentence of our own, since the linker's would not say what to do.
fn refuse(why: &str) -> ! {
    eprintln!("sargaceu: {why}");
    process::exit(1)
}

//! Finds the archive that `./build library` writes.

use std::env;
use std::path::PathBuf;
use std::process::exit;

fn fail(message: &str) -> ! {
    eprintln!("\nintrospection: {message}\n");
    exit(1)
}

fn main() {
    println!("cargo:rerun-if-changed=build.rs");
    println!("cargo:rerun-if-env-changed=INTROSPECTION_LIB_DIR");

    let arch = env::var("CARGO_CFG_TARGET_ARCH").unwrap_or_default();
    if arch != "x86_64" {
        fail(&format!(
            "the archive is for x86-64, and this build is for {arch}"
        ));
    }

    let package = PathBuf::from(env::var_os("CARGO_MANIFEST_DIR").unwrap_or_default());
    let folder = match env::var_os("INTROSPECTION_LIB_DIR") {
        Some(folder) => package.join(folder),
        None => package.join("../../target/staticlib"),
    };
    let archive = folder.join("libintrospection.a");
    println!("cargo:rerun-if-changed={}", archive.display());
    if !archive.is_file() {
        fail(&format!(
            "{} is not there. Make it with `./build library` at the repository's root, \
             or set INTROSPECTION_LIB_DIR to the folder that has it.",
            archive.display()
        ));
    }
    println!("cargo:rustc-link-search=native={}", folder.display());
    println!("cargo:rustc-link-lib=static=introspection");
}

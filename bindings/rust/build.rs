//! Links the proved library, one object that asks for memcpy and memset. It is sought in the directory that
//! JUZVANEC_LIB_DIR names, or else in target/staticlib of the repository. The number of the interface is read
//! from the repository's header and handed on in a file, of which `INTERFACE` is made.

use std::env;
use std::fs;
use std::path::{Path, PathBuf};

/// The line of the header before its number.
const INTERFACE: &str = "#define JUZVANEC_INTERFACE ";

fn main() {
    println!("cargo:rerun-if-env-changed=JUZVANEC_LIB_DIR");
    let here = PathBuf::from(env::var_os("CARGO_MANIFEST_DIR").expect("cargo sets it"));
    let dir = match env::var_os("JUZVANEC_LIB_DIR") {
        Some(dir) => PathBuf::from(dir),
        None => here.join("../../target/staticlib"),
    };
    let archive = dir.join("libjuzvanec.a");
    println!("cargo:rerun-if-changed={}", archive.display());
    if !archive.is_file() {
        panic!(
            "{} is not there: build it, or name its directory in JUZVANEC_LIB_DIR",
            archive.display()
        );
    }
    println!("cargo:rustc-link-search=native={}", dir.display());
    println!("cargo:rustc-link-lib=static=juzvanec");

    let header = here.join("../../include/juzvanec.h");
    println!("cargo:rerun-if-changed={}", header.display());
    let out = PathBuf::from(env::var_os("OUT_DIR").expect("cargo sets it"));
    let written = fs::write(out.join("interface"), interface(&header).to_string());
    written.expect("the directory that cargo made can be written to");
}

/// The number that the header gives its interface.
fn interface(header: &Path) -> u32 {
    let text = fs::read_to_string(header).unwrap_or_else(|error| {
        panic!(
            "{}: {error}; the number of the interface is read there, so keep the package in its repository",
            header.display()
        )
    });
    let number = text.lines().find_map(|line| line.strip_prefix(INTERFACE));
    let number = number.and_then(|number| number.split('u').next()?.parse().ok());
    number.unwrap_or_else(|| {
        panic!(
            "{} has no line \"{INTERFACE}Nu\" with a number N",
            header.display()
        )
    })
}

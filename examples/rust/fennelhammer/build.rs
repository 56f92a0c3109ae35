//! Says where the library is: in `out/` at the top of the repository, where `./quic-lib` builds it,
//! or in the folder that the environment variable `FENNELHAMMER_OUT` names.
use std::env;
use std::path::PathBuf;

fn main() {
    let here = PathBuf::from(env::var_os("CARGO_MANIFEST_DIR").expect("cargo sets it"));
    let out = match env::var_os("FENNELHAMMER_OUT") {
        Some(named) => PathBuf::from(named),
        None => here.join("../../../out"),
    };
    let archive = out.join("libfennelhammer.a");
    if !archive.is_file() {
        eprintln!("there is no {}: ./quic-lib builds it", archive.display());
        std::process::exit(1);
    }
    println!("cargo:rerun-if-env-changed=FENNELHAMMER_OUT");
    println!("cargo:rerun-if-changed={}", archive.display());
    println!("cargo:rustc-link-search=native={}", out.display());
    println!("cargo:rustc-link-lib=static=fennelhammer");
    println!("cargo:out={}", out.display());
}

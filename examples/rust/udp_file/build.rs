//! Says where packet protection is: beside the library, where `examples/build` builds it.
use std::env;
use std::path::PathBuf;

fn main() {
    let out = PathBuf::from(env::var_os("DEP_FENNELHAMMER_OUT").expect("fennelhammer says it"));
    let archive = out.join("libfh_seal.a");
    if !archive.is_file() {
        eprintln!(
            "there is no {}: examples/build builds it",
            archive.display()
        );
        std::process::exit(1);
    }
    println!("cargo:rerun-if-changed={}", archive.display());
    println!("cargo:rustc-link-search=native={}", out.display());
    println!("cargo:rustc-link-lib=static=fh_seal");
    println!("cargo:rustc-link-lib=dylib=crypto");
}

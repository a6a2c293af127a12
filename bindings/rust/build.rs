//! Links the proved library: target/native/libwairokabi.a of this repository, or the archive that WAIROKABI_LIB names.
use std::path::{Path, PathBuf};
use std::{env, fs, process};

fn main() {
    println!("cargo:rerun-if-env-changed=WAIROKABI_LIB");
    let here = PathBuf::from(env::var_os("CARGO_MANIFEST_DIR").expect("cargo says where the crate is"));
    let out = PathBuf::from(env::var_os("OUT_DIR").expect("cargo says where to build"));
    let archive = match env::var_os("WAIROKABI_LIB") {
        Some(named) => PathBuf::from(named),
        None => here.join("../../target/native/libwairokabi.a"),
    };
    if !archive.is_absolute() {
        stop(&archive, "WAIROKABI_LIB has to be a path from the root on");
    }
    if !archive.is_file() {
        stop(&archive, "there is no such file");
    }
    println!("cargo:rerun-if-changed={}", archive.display());

    // a copy, since the linker finds a library by its name and the archive may have any
    if let Err(e) = fs::copy(&archive, out.join("libwairokabi.a")) {
        stop(&archive, &e.to_string());
    }
    println!("cargo:rustc-link-search=native={}", out.display());
    println!("cargo:rustc-link-lib=static=wairokabi");
}

fn stop(archive: &Path, why: &str) -> ! {
    eprintln!("wairokabi: cannot link the proved library {}: {why}", archive.display());
    eprintln!(
        "wairokabi: `tools/native`, at the root of the Wairokabi repository, makes target/native/libwairokabi.a: it needs the Rattle kit (rt) and"
    );
    eprintln!("wairokabi: proves the library first, which takes about ten minutes. WAIROKABI_LIB names an archive that stands elsewhere.");
    process::exit(1);
}

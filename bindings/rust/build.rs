//! Says to cargo where the static library is: in the folder that `CENTRELILAC_LIB` names, from the
//! folder of this crate if it is relative; without it in the folder of this crate, as in a release,
//! or in the folder `build` of the repository, where `make lib` leaves it; that for ARM is in the
//! folder `aarch64` there. If it is in none, or cargo compiles for a platform that it is not for,
//! checks and documentation still work, and what is linked fails after a warning that says so.

use std::env;
use std::path::PathBuf;

/// The name of its file.
const LIBRARY: &str = "libwgsl.a";

/// The folder where it is, or should be; `part` is where that for a processor is in the others.
fn folder(part: &str) -> PathBuf {
    let here = env::var_os("CARGO_MANIFEST_DIR").expect("cargo names the crate's folder");
    let here = PathBuf::from(here);
    if let Some(named) = env::var_os("CENTRELILAC_LIB") {
        here.join(named)
    } else if here.join(part).join(LIBRARY).is_file() {
        here.join(part)
    } else {
        here.join("../../build").join(part)
    }
}

/// Where the library is for the processor that cargo compiles for, if it is for that platform.
fn part() -> Option<&'static str> {
    let is_linux = env::var("CARGO_CFG_TARGET_OS").is_ok_and(|system| system == "linux");
    let processor = env::var("CARGO_CFG_TARGET_ARCH")
        .ok()
        .filter(|_| is_linux)?;
    match processor.as_str() {
        "x86_64" => Some(""),
        "aarch64" => Some("aarch64"),
        _ => None,
    }
}

fn main() {
    println!("cargo:rerun-if-env-changed=CENTRELILAC_LIB");
    let part = part();
    if part.is_none() {
        println!(
            "cargo:warning={LIBRARY} is for Linux on x86-64 processors of level v2 or later, and \
             on 64-bit ARM, and links for no other platform"
        );
    }
    let folder = folder(part.unwrap_or_default());
    let library = folder.join(LIBRARY);
    println!("cargo:rerun-if-changed={}", library.display());
    if !library.is_file() {
        println!(
            "cargo:warning={} is not there, and nothing links without it: run `make lib` at the \
             top of the repository, with ARCH=aarch64 for ARM, or name its folder by \
             CENTRELILAC_LIB",
            library.display()
        );
    }
    println!("cargo:rustc-link-search=native={}", folder.display());
    println!("cargo:rustc-link-lib=static=wgsl");
}

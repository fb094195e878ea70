//! Finds libsamvolip.
//!
//! SAMVOLIP_LIB is its folder, or the file. If there is a `libsamvolip.a`, it is linked into the program; else
//! `libsamvolip.so`, with the folder as rpath. Without SAMVOLIP_LIB it is the `libsamvolip.a` in this package's own folder, as
//! an installed copy has it. Without that pkg-config tells where the installed library is (PKG_CONFIG is the command), and that
//! is its rpath.
//!
//! An rpath reaches the programs of this package alone. The build script of a package over this one finds the folder of a
//! shared library in DEP_SAMVOLIP_LIBDIR.

use std::env;
use std::path::{Path, PathBuf};
use std::process::Command;

fn main() {
    println!("cargo:rustc-check-cfg=cfg(samvolip_tells_order)");
    for name in ["SAMVOLIP_LIB", "PKG_CONFIG", "PKG_CONFIG_PATH"] {
        println!("cargo:rerun-if-env-changed={name}");
    }
    let own = PathBuf::from(env::var_os("CARGO_MANIFEST_DIR").expect("cargo sets it"));
    if let Some(place) = env::var_os("SAMVOLIP_LIB") {
        link_from(Path::new(&place));
    } else if own.join(ARCHIVE).exists() {
        link_one_of(&own, ARCHIVE, ARCHIVE);
    } else if let Some(folder) = installed() {
        link_one_of(&folder, SHARED, ARCHIVE);
    } else {
        println!(
            "cargo:warning=libsamvolip isn't found: SAMVOLIP_LIB isn't set, and pkg-config knows no samvolip. Set \
             SAMVOLIP_LIB to the folder of libsamvolip.a or libsamvolip.so, or PKG_CONFIG_PATH to that of samvolip.pc"
        );
        println!("cargo:rustc-link-lib=dylib=samvolip");
    }
}

const ARCHIVE: &str = "libsamvolip.a";
const SHARED: &str = "libsamvolip.so";

/// Links the library of this folder, or this very file.
fn link_from(place: &Path) {
    if !place.is_absolute() {
        panic!("SAMVOLIP_LIB is {}: it has to be a path from the root on", place.display());
    }
    match place.file_name().and_then(|name| name.to_str()) {
        _ if place.is_dir() => link_one_of(place, ARCHIVE, SHARED),
        Some(file @ (ARCHIVE | SHARED)) => link_one_of(place.parent().unwrap(), file, file),
        _ => panic!("SAMVOLIP_LIB is {}, which is no folder and no {ARCHIVE} or {SHARED}", place.display()),
    }
}

/// Links the first of the two files that is in the folder.
fn link_one_of(folder: &Path, first: &str, second: &str) {
    println!("cargo:rerun-if-changed={}", folder.join(first).display());
    println!("cargo:rerun-if-changed={}", folder.join(second).display());
    match [first, second].into_iter().find(|file| folder.join(file).exists()) {
        Some(ARCHIVE) => {
            println!("cargo:rustc-link-search=native={}", folder.display());
            println!("cargo:rustc-link-lib=static=samvolip");
            println!("cargo:rustc-link-lib=dylib=pthread");
        }
        Some(_) => link_shared(folder),
        None => panic!("there is no {ARCHIVE} and no {SHARED} in {}", folder.display()),
    }
}

fn link_shared(folder: &Path) {
    println!("cargo:rustc-link-search=native={}", folder.display());
    println!("cargo:rustc-link-lib=dylib=samvolip");
    println!("cargo:rustc-link-arg=-Wl,-rpath,{}", folder.display());
    println!("cargo:libdir={}", folder.display());
}

/// The folder of the installed library.
fn installed() -> Option<PathBuf> {
    let pkg_config = env::var_os("PKG_CONFIG").unwrap_or("pkg-config".into());
    let told = Command::new(pkg_config).args(["--variable=libdir", "samvolip"]).output().ok()?;
    let folder = String::from_utf8(told.stdout).ok()?;
    (told.status.success() && !folder.trim().is_empty()).then(|| PathBuf::from(folder.trim()))
}

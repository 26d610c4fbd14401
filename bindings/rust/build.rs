//! Finds the library: in the folder that `JX_LIB_DIR` names, else in a checkout, where a release is unpacked, by `pkg-config`, and
//! where `./install` and Debian's package put it.

use std::env;
use std::path::{Path, PathBuf};
use std::process::{exit, Command};

fn main() {
    for name in ["JX_LIB_DIR", "PKG_CONFIG_PATH", "HOME"] {
        println!("cargo:rerun-if-env-changed={name}");
    }
    let places = match env::var_os("JX_LIB_DIR") {
        Some(folder) => vec![PathBuf::from(folder)],
        None => usual_places(),
    };
    match places.iter().find(|folder| library_in(folder).exists()) {
        Some(folder) => link(folder),
        None => give_up(&places),
    }
}

fn library_in(folder: &Path) -> PathBuf {
    folder.join("libjx.a")
}

/// Where the library may be, best first.
fn usual_places() -> Vec<PathBuf> {
    let here = PathBuf::from(env::var_os("CARGO_MANIFEST_DIR").expect("cargo sets it"));
    let mut places = vec![here.join("../../crates/jx_c/out"), here.join("../../lib")];
    places.extend(told_by_pkg_config());
    places.extend(env::var_os("HOME").map(|home| PathBuf::from(home).join(".local/lib")));
    places.extend(["/usr/local/lib", "/usr/lib"].map(PathBuf::from));
    places
}

fn told_by_pkg_config() -> Option<PathBuf> {
    let words = ["--variable=libdir", "jx"];
    let told = Command::new("pkg-config").args(words).output().ok()?;
    let folder = String::from_utf8(told.stdout).ok()?;
    (told.status.success() && !folder.trim().is_empty()).then(|| PathBuf::from(folder.trim()))
}

fn link(folder: &Path) {
    println!("cargo:rerun-if-changed={}", library_in(folder).display());
    println!("cargo:rustc-link-search=native={}", folder.display());
    println!("cargo:rustc-link-lib=static=jx");
}

fn give_up(places: &[PathBuf]) -> ! {
    eprintln!("jx: there is no libjx.a in any of these folders:");
    for folder in places {
        eprintln!("    {}", folder.display());
    }
    eprintln!(
        "Build it with tools/library in a checkout, or set JX_LIB_DIR to the folder that has it."
    );
    exit(1);
}

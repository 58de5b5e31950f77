//! Links the static library libpybuf.a, and says how it was found (`pybuf::LINKED`). The first of these has it: the folder that
//! PYBUF_LIB_DIR names (or PYBUF_OUT, its older name), lib/ of this crate's package file, lib/ of the prefix where `tools/install` put
//! this crate, the folder that pkg-config tells, and bindings/out of the repository, where `bindings/build` makes it.
use std::env;
use std::path::{Path, PathBuf};
use std::process::{exit, Command};

const LIBRARY: &str = "libpybuf.a";

/// The folder that pkg-config tells, where there is a pkg-config that knows the library.
fn told() -> Option<PathBuf> {
    let output = Command::new("pkg-config").args(["--variable=libdir", "pybuf"]).output().ok()?;
    let text = String::from_utf8(output.stdout).ok()?;
    let folder = text.trim();
    (output.status.success() && !folder.is_empty()).then(|| PathBuf::from(folder))
}

/// The folders where the library may lie, the first one first, each with what named it.
fn folders(here: &Path) -> Vec<(&'static str, PathBuf)> {
    for variable in ["PYBUF_LIB_DIR", "PYBUF_OUT"] {
        if let Some(folder) = env::var_os(variable) {
            return vec![(variable, PathBuf::from(folder))];
        }
    }
    let mut folders = vec![("the package file", here.join("lib"))];
    if here.ends_with("share/pybuf/rust") {
        folders.push(("the prefix", here.join("../../../lib")));
    }
    folders.extend(told().map(|folder| ("pkg-config", folder)));
    folders.push(("bindings/build", here.join("../out")));
    folders
}

fn main() {
    let here = PathBuf::from(env::var("CARGO_MANIFEST_DIR").unwrap());
    for variable in ["PYBUF_LIB_DIR", "PYBUF_OUT", "PKG_CONFIG_PATH"] {
        println!("cargo:rerun-if-env-changed={variable}");
    }
    let folders = folders(&here);
    for (_, folder) in &folders {
        println!("cargo:rerun-if-changed={}", folder.join(LIBRARY).display());
    }
    match folders.iter().find(|(_, folder)| folder.join(LIBRARY).is_file()) {
        Some((by, folder)) => {
            println!("cargo:rustc-link-search=native={}", folder.display());
            println!("cargo:rustc-env=PYBUF_LINKED={by}: {}", folder.join(LIBRARY).display());
        }
        None => {
            eprintln!("pybuf: there is no {LIBRARY} in {}: let PYBUF_LIB_DIR name the folder that has it", folders[0].1.display());
            exit(1);
        }
    }
    println!("cargo:rustc-link-lib=static=pybuf");
}

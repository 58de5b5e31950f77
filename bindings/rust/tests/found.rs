//! Where `build.rs` finds the library, by a small program that prints what it is told.
use std::path::Path;
use std::process::Command;
use std::{env, fs};

/// What a program prints that is built with these variables, and what cargo writes.
fn told(room: &Path, variables: &[(&str, &Path)]) -> (String, String) {
    let mut cargo = Command::new(env!("CARGO"));
    cargo.args(["run", "--offline", "--quiet"]).current_dir(room).env("CARGO_TARGET_DIR", room.join("target"));
    for unset in ["PYBUF_LIB_DIR", "PYBUF_OUT", "PKG_CONFIG_PATH"] {
        cargo.env_remove(unset);
    }
    // this file's own runner, as valgrind, isn't the program's
    cargo.env_remove("CARGO_TARGET_X86_64_UNKNOWN_LINUX_GNU_RUNNER");
    let output = cargo.envs(variables.iter().copied()).output().unwrap();
    (String::from_utf8(output.stdout).unwrap(), String::from_utf8(output.stderr).unwrap())
}

#[test]
fn the_library_is_found_where_variables_and_pkg_config_say() {
    let room = &Path::new(env!("CARGO_TARGET_TMPDIR")).join("found");
    let library = pybuf::LINKED.split_once(": ").unwrap().1;
    let folder = Path::new(library).parent().unwrap();
    fs::create_dir_all(room.join("src")).unwrap();
    fs::write(room.join("src/main.rs"), "fn main() {\n    print!(\"{}\", pybuf::LINKED);\n}\n").unwrap();
    let here = env!("CARGO_MANIFEST_DIR");
    let manifest = format!("[package]\nname = \"found\"\nedition = \"2021\"\n[workspace]\n[dependencies]\npybuf = {{ path = {here:?} }}\n");
    fs::write(room.join("Cargo.toml"), manifest).unwrap();

    assert_eq!(told(room, &[("PYBUF_LIB_DIR", folder)]).0, format!("PYBUF_LIB_DIR: {library}"));
    assert_eq!(told(room, &[("PYBUF_OUT", folder)]).0, format!("PYBUF_OUT: {library}"));
    let (printed, said) = told(room, &[("PYBUF_LIB_DIR", Path::new("/nowhere")), ("PYBUF_OUT", folder)]);
    assert_eq!(printed, "");
    assert!(said.contains("there is no libpybuf.a in /nowhere: let PYBUF_LIB_DIR name the folder that has it"), "{said}");
    if Command::new("pkg-config").arg("--version").output().is_ok() {
        let text = format!("libdir={}\nName: pybuf\nDescription: pybuf\nVersion: {}\nLibs: -lpybuf\n", folder.display(), pybuf::VERSION);
        fs::write(room.join("pybuf.pc"), text).unwrap();
        assert_eq!(told(room, &[("PKG_CONFIG_PATH", room)]).0, format!("pkg-config: {library}"));
    }
}

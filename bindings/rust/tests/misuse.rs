//! What must not compile: each file of `misuse/` begins with the error that `cargo check` has to tell, and no other.
use std::path::Path;
use std::process::Command;
use std::{env, fs};

/// A package with the files as programs, and what cargo says of them.
fn told(room: &Path, files: &[(String, String)]) -> String {
    let programs = room.join("src/bin");
    let _ = fs::remove_dir_all(room.join("src"));
    fs::create_dir_all(&programs).unwrap();
    for (name, text) in files {
        fs::write(programs.join(name), text).unwrap();
    }
    let here = env!("CARGO_MANIFEST_DIR");
    let manifest = format!("[package]\nname = \"misuse\"\nedition = \"2021\"\n[workspace]\n[dependencies]\npybuf = {{ path = {here:?} }}\n");
    fs::write(room.join("Cargo.toml"), manifest).unwrap();
    let words = ["check", "--offline", "--bins", "--keep-going", "--message-format", "short", "--color", "never"];
    let output = Command::new(env!("CARGO")).args(words).current_dir(room).env("CARGO_TARGET_DIR", room.join("target")).output().unwrap();
    String::from_utf8(output.stderr).unwrap()
}

#[test]
fn misuse_is_refused_by_the_compiler() {
    let read = |entry: Result<fs::DirEntry, _>| {
        let path = entry.unwrap().path();
        (path.file_name().unwrap().to_str().unwrap().to_owned(), fs::read_to_string(path).unwrap())
    };
    let folder = Path::new(env!("CARGO_MANIFEST_DIR")).join("tests/misuse");
    let files: Vec<_> = fs::read_dir(folder).unwrap().map(read).collect();
    let text = told(&Path::new(env!("CARGO_TARGET_TMPDIR")).join("misuse"), &files);
    assert!(files.len() >= 15, "files are missing");
    for (name, file) in &files {
        let wanted = file.split_whitespace().nth(1).unwrap();
        let head = format!("src/bin/{name}:");
        let errors: Vec<&str> = text.lines().filter(|line| line.starts_with(&head) && line.contains(": error")).collect();
        match wanted {
            "compiles" => assert!(errors.is_empty(), "{text}"),
            _ => assert!(!errors.is_empty() && errors.iter().all(|line| line.contains(wanted)), "{name}: {errors:?}\n{text}"),
        }
    }
}

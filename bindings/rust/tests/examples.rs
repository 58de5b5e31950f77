//! Every public item, method and field has an example in its documentation, which `cargo test --doc` runs.
use std::fs;

#[test]
fn every_public_item_has_an_example() {
    let mut items = 0;
    for entry in fs::read_dir(concat!(env!("CARGO_MANIFEST_DIR"), "/src")).unwrap() {
        let path = entry.unwrap().path();
        // this module is private, and what it has is C's
        if path.ends_with("calls.rs") {
            continue;
        }
        let text = fs::read_to_string(&path).unwrap();
        let mut examples = false;
        for line in text.lines() {
            let code = line.trim_start();
            if code.starts_with("pub ") && !code.starts_with("pub use") && !code.starts_with("pub trait Sealed") {
                assert!(examples, "{}: {code}", path.display());
                items += 1;
            }
            if code.starts_with("macro_rules! slice") {
                assert!(examples, "{}: {code}", path.display());
            }
            examples = (examples || code == "/// ```") && (code.starts_with("///") || code.starts_with("#["));
        }
    }
    assert!(items > 100, "{items}");
}

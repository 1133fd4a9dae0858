//! The folders of `src` import one way only: each from the folders named above it in `src/lib.rs`.

use std::fs;
use std::path::Path;

const SRC: &str = concat!(env!("CARGO_MANIFEST_DIR"), "/src");

/// The names that follow `start` in a text, each up to the first sign that is no letter of a name.
fn names<'a>(text: &'a str, start: &'a str) -> impl Iterator<Item = &'a str> {
    text.split(start).skip(1).map(|rest| rest.split(|sign: char| !sign.is_ascii_lowercase() && sign != '_').next().unwrap_or(""))
}

#[test]
fn folders_import_only_from_folders_above_them() {
    let map = fs::read_to_string(Path::new(SRC).join("lib.rs")).unwrap();
    let folders: Vec<&str> = names(&map, "\npub mod ").collect();
    assert_eq!(folders, ["definitions", "books", "trial", "streams", "judging"]);
    for (place, folder) in folders.iter().enumerate() {
        for entry in fs::read_dir(Path::new(SRC).join(folder)).unwrap() {
            let path = entry.unwrap().path();
            let text = fs::read_to_string(&path).unwrap();
            assert!(!text.contains("super::") && !text.contains("pub use"), "{} imports otherwise", path.display());
            for from in names(&text, "crate::") {
                let above = folders[..=place].contains(&from);
                assert!(above, "{} imports from '{from}'", path.display());
            }
        }
    }
}

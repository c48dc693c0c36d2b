//! `scripts/version --check`: VERSION, the header, the Rust crate and the newest note have one version.

use programs::tree::{Tree, NEVER};
use std::fs;

/// A tree whose four places have these versions; a note for each word of the last.
fn tree(version: &str, header: &str, rust: &str, notes: &[&str]) -> Tree {
    let tree = Tree::bare(&format!("[ \"$*\" = version ] && echo the kit || {{ {NEVER}; }}"));
    let root = tree.root();
    for folder in ["include", "bindings/rust", "docs/changes"] {
        fs::create_dir_all(root.join(folder)).expect("a folder is made");
    }
    let put = |name: &str, text: String| fs::write(root.join(name), text).expect("a file is written");
    put("VERSION", format!("{version}\nthe kit\n"));
    put("include/heqdanu.h", format!("/* 1.2.3 */\n#define HEQDANU_VERSION \"{header}\"\n"));
    put("bindings/rust/Cargo.toml", format!("[package]\nname = \"heqdanu\"\nversion = \"{rust}\"\n"));
    put("bindings/rust/Cargo.lock", format!("version = 4\n\n[[package]]\nname = \"heqdanu\"\nversion = \"{rust}\"\n"));
    put("docs/changes/base.md", "# The base\n\nNo version.\n".into());
    for (number, note) in notes.iter().enumerate() {
        put(
            &format!("docs/changes/note{number}.md"),
            format!("# A note\n\nVersion {note}. It is about\nVersion 9.9.9.\n"),
        );
    }
    tree
}

fn check(tree: &Tree) -> (String, i32) {
    let ended = tree.shell("\"$TREE/scripts/version\" --check", &[]);
    assert_eq!(ended.text(), "");
    (ended.complaint, ended.status)
}

#[test]
fn they_agree() {
    for notes in [&["0.5.0"][..], &["0.4.9", "0.5.0", "0.3.0"]] {
        assert_eq!(check(&tree("0.5.0", "0.5.0", "0.5.0", notes)), (String::new(), 0));
    }
    assert_eq!(check(&tree("0.10.0", "0.10.0", "0.10.0", &["0.9.0", "0.10.0"])), (String::new(), 0));
}

#[test]
fn one_of_them_does_not() {
    for (there, place) in [
        (tree("0.5.0", "0.4.0", "0.5.0", &["0.5.0"]), "include/heqdanu.h has 0.4.0"),
        (tree("0.5.0", "0.5.0", "0.5.1", &["0.5.0"]), "bindings/rust/Cargo.toml has 0.5.1"),
        (tree("0.5.0", "0.5.0", "0.5.1", &["0.5.0"]), "bindings/rust/Cargo.lock has 0.5.1"),
        (tree("0.5.0", "0.5.0", "0.5.0", &["0.6.0", "0.5.0"]), "docs/changes/note0.md has 0.6.0"),
        (tree("0.5.0", "0.5.0", "0.5.0", &["0.4.0"]), "which 0 notes of docs/changes name and not one"),
        (tree("0.5.0", "0.5.0", "0.5.0", &["0.5.0", "0.5.0"]), "which 2 notes of docs/changes name and not one"),
    ] {
        let (complaint, status) = check(&there);
        assert_eq!(status, 1, "{place}");
        assert!(
            complaint
                .lines()
                .any(|line| line.starts_with("scripts/version: VERSION has 0.5.0") && line.ends_with(place)),
            "{complaint}"
        );
    }
}

/// Another kit is said, and no fault.
#[test]
fn another_kit() {
    let tree = tree("0.5.0", "0.5.0", "0.5.0", &["0.5.0"]);
    tree.put_tool("rt", "echo another kit");
    let note = "scripts/version: note: VERSION names the kit the kit, and this is another kit\n";
    assert_eq!(check(&tree), (note.to_string(), 0));
    tree.shell("\"$TREE/scripts/version\"", &[]).is("heqdanu 0.5.0, proved with the kit\n", "", 0);
    assert_eq!(tree.shell("\"$TREE/scripts/version\" --chekc", &[]).status, 2);
    assert_eq!(tree.shell("\"$TREE/scripts/version\" word", &[]).status, 2);
}

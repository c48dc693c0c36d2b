//! README's examples: each command that it shows, in a copy of the repository, prints what stands below it.

use programs::tree::{repository, Tree};
use std::fs;

/// The indented blocks of a page, each with whether only blank lines stand between it and the one before.
fn blocks(page: &str) -> Vec<(String, bool)> {
    let mut blocks: Vec<(String, bool)> = Vec::new();
    let (mut inside, mut follows) = (false, false);
    for line in page.lines() {
        if let Some(text) = line.strip_prefix("    ") {
            if !inside {
                blocks.push((String::new(), follows));
            }
            let block = &mut blocks.last_mut().expect("a block").0;
            *block += text;
            *block += "\n";
            (inside, follows) = (true, true);
        } else {
            inside = false;
            follows &= line.is_empty();
        }
    }
    blocks
}

/// Whether a block is of commands that can be run here.
fn is_run(block: &str) -> bool {
    let first = block.lines().next().unwrap_or_default();
    (first.starts_with("./heqdanu ") || first.contains("| ./heqdanu ")) && !block.contains("find parts")
}

#[test]
fn every_command_prints_what_it_says() {
    let page = fs::read_to_string(repository().join("README.md")).expect("README is there");
    let tree = Tree::built();
    tree.shell(&format!("cp -r '{}' \"$TREE\"", repository().join("examples").display()), &[]).is("", "", 0);
    let python = tree.shell("command -v python3", &[]).status == 0;
    let blocks = blocks(&page);
    let mut shown = 0;
    for (number, (block, _)) in blocks.iter().enumerate().filter(|(_, (block, _))| is_run(block)) {
        if block.contains(".py") && !python {
            println!("left out: python3 is missing: {block}");
            continue;
        }
        let expected = match blocks.get(number + 1) {
            Some((next, true)) if !is_run(next) => next.as_str(),
            _ => "",
        };
        let ended = tree.shell(&format!("cd \"$TREE\"; exec 2>&1\n{block}"), &[]);
        assert_eq!(ended.text(), expected, "{block}");
        shown += usize::from(!expected.is_empty());
    }
    assert!(shown >= 15, "{shown} commands with what they print");
}

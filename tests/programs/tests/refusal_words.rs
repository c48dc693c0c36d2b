//! A refusal in words: on standard error, with the file's name, in the words of `text_wording`, and with a hint where
//! the file is for another command, or for none until it is made anew.

use programs::text::NOT_SHORTEST;
use programs::tree::{before_files, repository, Tree};
use std::collections::BTreeMap;
use std::fs;

const ARCH: &[u8] = include_bytes!("../../../examples/arch.vox");
const OVERLAP: [u8; 15] = [7, 8, 0, 2, 0, 2, 0, 0, 7, 1, 0, 1, 0, 1, 0];

/// The text after a mark, up to another.
fn between<'a>(text: &'a str, mark: &str, end: &str) -> Option<&'a str> {
    let start = text.find(mark)? + mark.len();
    Some(&text[start..start + text[start..].find(end)?])
}

/// Number and name of each refusal, as `notice_of` has them.
fn numbers() -> BTreeMap<u64, String> {
    let code = fs::read_to_string(repository().join("crates/refusals/src/lib.rt")).expect("the refusals are there");
    let mut numbers = BTreeMap::new();
    for arm in code.split("Refusal::").filter(|arm| arm.contains("=> (")) {
        let name = arm.split(|letter: char| !letter.is_alphanumeric()).next().expect("a name");
        let number = between(arm, "=> (", ",").expect("a number").parse().expect("a number");
        numbers.insert(number, name.to_string());
    }
    numbers
}

/// The sentence of a refusal, as `text_wording` has it.
fn sentence(name: &str) -> String {
    let code = fs::read_to_string(repository().join("crates/text_wording/src/lib.rt")).expect("the words are there");
    let arm = code.split("Refusal::").find(|arm| arm.starts_with(name) && arm.contains("b\""));
    between(arm.expect("an arm"), "b\"", "\"").expect("a sentence").to_string()
}

#[test]
fn the_words_are_those_of_text_wording() {
    let table = fs::read_to_string(repository().join("scripts/wording")).expect("the table is there");
    let lines: Vec<(u64, &str)> = table
        .lines()
        .map(|line| line.split_once(' ').expect("a number and words"))
        .map(|(number, words)| (number.parse().expect("a number"), words))
        .collect();
    let numbers = numbers();
    assert!(numbers.len() >= 18);
    assert_eq!(lines.iter().map(|line| line.0).collect::<Vec<_>>(), numbers.keys().copied().collect::<Vec<_>>());
    for (number, words) in lines {
        // The detail stands before the sentence, after it, or in it where it names the shot.
        let plain = words.replace("shot %", "a shot");
        assert!(plain.contains(&sentence(&numbers[&number])), "{number} {words}");
        assert!(words.matches('%').count() <= 1, "{number} {words}");
    }
}

#[test]
fn every_refusal_of_a_shot_file() {
    let tree = Tree::built();
    let crowded = [vec![7, 8, 0, 2, 0, 1, 0], vec![0; 4097]].concat();
    for (file, line, words) in [
        (&[][..], "5 0", "at byte 0: the file ends before a field of this map, or is empty"),
        (&[0, 8], "4 1", "at byte 1: this map has a bit that has no meaning"),
        (&[1, 0, 0], "6 0", "the field side is not 1 to 1,024"),
        (&[1, 8, 0, 0], "7 0", "the shot edge is not 1 to the field side"),
        (&[3, 8, 0, 2, 0, 0], "8 0", "the grid size is not 1 to 64, or does not divide the field side"),
        (&[7, 8, 0, 2, 0, 2, 0, 0, 1, 7, 0], "9 1", "shot 1 leaves the field"),
        (&[4, 64, 0], "10 262145", "the work slice is too short for the grid index, which needs 262145 entries"),
        (&crowded, "2 4103", "at byte 4103: there are more than 4,096 shots"),
        (&[4, 16, 0], "17 0", "at byte 0: a field of this map says what its absence would mean"),
        (&[0, 0, 0, 4, 0, 0], "17 3", "at byte 3: a field of this map says what its absence would mean"),
    ] {
        tree.file("a part", file);
        // What can be done about it, which is said of what came by a pipe too.
        let hint = |command: &str, title: &str| match line.split_once(' ') {
            Some(("17", _)) => format!("{command}: {title}: {NOT_SHORTEST}\n"),
            _ => String::new(),
        };
        for command in ["quote", "recount", "price", "credits"] {
            let complaint = format!("{command}: a part: {words}\n{}", hint(command, "a part"));
            tree.run(before_files(command), &["a part"]).is(&format!("refused {line}\n"), &complaint, 1);
        }
        tree.shell("heqdanu quote", file).is(
            &format!("refused {line}\n"),
            &format!("quote: standard input: {words}\n{}", hint("quote", "standard input")),
            1,
        );
        // The text has the sentence.
        let ended = tree.run("shots", &["a part"]);
        if ended.status == 1 {
            assert_eq!(ended.complaint, hint("shots", "a part"));
        } else {
            assert_eq!(line, "10 262145");
        }
    }
}

#[test]
fn a_drawing_given_to_the_others() {
    let tree = Tree::built();
    tree.file("arch", ARCH);
    let refused = "at byte 0: this map has a bit that has no meaning";
    let quoted = "this is a VOX file; heqdanu quote_vox quotes it";
    let made = "this is a VOX file; heqdanu vox_shots makes a shot file of it";
    for (command, hint) in [("quote", quoted), ("recount", made), ("price", made), ("credits", made)] {
        let complaint = format!("{command}: arch: {refused}\n{command}: arch: {hint}\n");
        tree.run(before_files(command), &["arch"]).is("refused 4 0\n", &complaint, 1);
    }
    let line = "refused 4 0: this map has a bit that has no meaning";
    for (command, files, status) in
        [("listing", &["arch"][..], 1), ("drop", &["arch"], 1), ("same", &["arch", "arch"], 2)]
    {
        tree.run(command, files).is("", &format!("{command}: arch: {line}\n{command}: arch: {made}\n"), status);
    }
    let ended = tree.run("shots", &["arch"]);
    assert_eq!((ended.complaint, ended.status), (format!("shots: arch: {made}\n"), 1));
    // What came by a pipe is gone.
    tree.shell("heqdanu quote", ARCH).is("refused 4 0\n", &format!("quote: standard input: {refused}\n"), 1);
    // No drawing.
    tree.file("text", b"VOXEL");
    tree.run("quote", &["text"]).is("refused 4 0\n", &format!("quote: text: {refused}\n"), 1);
}

#[test]
fn another_file_given_as_a_drawing() {
    let tree = Tree::built();
    let refused = "at byte 0: no VOX mark of version 150, or not the chunk required here";
    let mut newer = ARCH.to_vec();
    newer[4] = 200;
    for (name, file, hint) in [
        ("shots", &OVERLAP[..], "this may be a shot file; heqdanu quote quotes those"),
        ("newer", &newer, "this VOX file has another version than 150, the only one that is read"),
        ("text", b"field 8\n", ""),
        ("empty", b"", ""),
    ] {
        tree.file(name, file);
        let mut complaint = format!("quote_vox: {name}: {refused}\n");
        if !hint.is_empty() {
            complaint += &format!("quote_vox: {name}: {hint}\n");
        }
        tree.run("quote_vox", &[name]).is("refused 13 0\n", &complaint, 1);
        let complaint = complaint
            .replace("quote_vox: ", "vox_shots: ")
            .replace(refused, &refused.replace("at byte 0", "refused 13 0"));
        tree.run("vox_shots", &[name]).is("", &complaint, 1);
    }
}

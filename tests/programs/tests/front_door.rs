//! The command as a whole: its list of commands, its help and version, words that are no command, and how it runs where
//! it is installed.

use programs::tree::{repository, Tree, COMMANDS, LINKED, NEVER, PROGRAMS};
use std::collections::BTreeSet;
use std::fs;

const CUBE: [u8; 8] = [7, 8, 0, 2, 0, 2, 0, 0];
const CUBE_QUOTE: &str = "volume 8\narea 24\nedge 24\ninner 0\ncorners 8\n";

#[test]
fn a_list_in_groups_with_a_line_each() {
    let tree = Tree::bare(NEVER);
    let list = tree.shell("heqdanu", &[]);
    assert_eq!((list.complaint.as_str(), list.status), ("", 0));
    for words in ["help", "--help", "-h", "help help"] {
        assert_eq!(tree.shell(&format!("heqdanu {words}"), &[]), list, "{words}");
    }
    let text = list.text();
    let listed: Vec<&str> = text.lines().filter_map(|line| line.strip_prefix("  ")?.split(' ').next()).collect();
    assert_eq!(listed.len(), COMMANDS.len());
    assert_eq!(listed.iter().collect::<BTreeSet<_>>(), COMMANDS.iter().collect());
    let groups: Vec<&str> = text.split("\n\n").skip(1).map(|group| group.lines().next().unwrap_or_default()).collect();
    assert_eq!(groups[..4], ["Quote", "Plan", "Compare", "Convert"]);
    assert!(text.lines().all(|line| line.chars().count() <= 110), "{text}");
    assert_eq!(tree.calls(), "");
}

/// A command is one file: it is listed, explained and run.
#[test]
fn a_command_to_come() {
    let tree = Tree::standing_in("echo volume 8");
    let text = "group=Loads\nbrief='what a part weighs'\ntakes='[FILE]...'\nform=lines\nabout='Weighs a part.'\n";
    fs::write(tree.root().join("scripts/commands/weigh"), text).expect("the command is written");
    assert!(tree.shell("heqdanu", &[]).text().contains("\n\nLoads\n  weigh        what a part weighs\n"));
    assert!(tree
        .shell("heqdanu help weigh", &[])
        .text()
        .starts_with("usage: heqdanu weigh [FILE]...\n\nWeighs a part.\n"));
    tree.shell("cp \"$TREE/target/bin/quote\" \"$TREE/target/bin/weigh\"; touch \"$TREE/target/stamp/weigh\"", &[]);
    tree.shell("heqdanu weigh", &[]).is("volume 8\n", "", 0);
}

#[test]
fn help_of_a_command() {
    let tree = Tree::bare(NEVER);
    for command in COMMANDS {
        let help = tree.shell(&format!("heqdanu help {command}"), &[]);
        assert_eq!(help, tree.shell(&format!("heqdanu {command} --help"), &[]));
        assert_eq!(help.status, 0);
        assert!(help.text().lines().all(|line| line.chars().count() <= 82), "{}", help.text());
        assert_eq!(help.text().lines().filter(|line| line.starts_with("Exit status: ")).count(), 1, "{command}");
    }
    assert!(tree.shell("heqdanu help quote", &[]).text().contains("-t, or --table"));
    assert!(tree.shell("heqdanu help listing", &[]).text().contains("--text"));
    assert!(tree.shell("heqdanu help quote_vox", &[]).text().contains("version 150"));
    // What its file leaves out is as usual, whatever the environment has.
    let environment = "leads=X leading=file statuses=none";
    assert_eq!(tree.shell(&format!("{environment} heqdanu help quote"), &[]), tree.shell("heqdanu help quote", &[]));
    assert_eq!(tree.shell("reads=shots heqdanu help quote_vox", &[]), tree.shell("heqdanu help quote_vox", &[]));
}

/// The commands that read shot files say that they do so in the shortest form only, and no other does.
#[test]
fn help_says_which_files_are_read() {
    let tree = Tree::bare(NEVER);
    let readers = ["quote", "recount", "price", "credits", "drop", "listing", "same", "shots"];
    for command in COMMANDS {
        let help = tree.shell(&format!("heqdanu help {command}"), &[]).text();
        let said = help.contains("A shot file is read in its shortest form only") && help.contains("by 17");
        assert_eq!(said, readers.contains(&command), "{help}");
        assert_eq!(help.contains("17"), said, "{help}");
    }
}

#[test]
fn an_unknown_command_is_answered_by_the_nearest() {
    let tree = Tree::bare(NEVER);
    for (word, nearest) in [
        ("qoute", "quote"),
        ("Quote", "quote"),
        ("quote-vox", "quote_vox"),
        ("list", "listing"),
        ("corners", "corners_at"),
        ("recuont", "recount"),
        ("prices", "price"),
        ("shot", "shots"),
        ("vox_shot", "vox_shots"),
        ("drops", "drop"),
        ("../program", "drop"),
    ] {
        let ended = tree.run(word, &[]);
        let first = format!("heqdanu: there is no command {word}; the nearest is ");
        assert_eq!((ended.text().as_str(), ended.status), ("", 2), "{word}");
        assert!(ended.complaint.starts_with(&first), "{}", ended.complaint);
        assert!(ended.complaint.ends_with("\nheqdanu: 'heqdanu help' lists all\n"), "{}", ended.complaint);
        if !word.contains('/') {
            assert!(ended.complaint.starts_with(&format!("{first}{nearest}\n")), "{}", ended.complaint);
        }
        assert_eq!(tree.shell(&format!("heqdanu help {word}"), &[]), ended);
    }
    for words in ["'quote quote_vox'", "'*'", "..", "/", "help quote same"] {
        let ended = tree.shell(&format!("heqdanu {words}"), &[]);
        assert_eq!((ended.text().as_str(), ended.status), ("", 2), "{words}");
        assert!(ended.complaint.starts_with("heqdanu: "), "{}", ended.complaint);
    }
    let long = "x".repeat(5000);
    assert_eq!(tree.run(&long, &[]).status, 2);
    assert_eq!(tree.calls(), "");
}

#[test]
fn one_version_everywhere() {
    let tree = Tree::bare(NEVER);
    let file = fs::read_to_string(repository().join("VERSION")).expect("the version is there");
    let [version, kit] = file.lines().collect::<Vec<_>>()[..] else { panic!("two lines: {file:?}") };
    let numbers: Vec<u32> = version.split('.').map(|part| part.parse().expect("a number")).collect();
    assert_eq!(numbers.len(), 3);
    let line = format!("heqdanu {version}, proved with {kit}\n");
    tree.shell("heqdanu --version", &[]).is(&line, "", 0);
    for command in COMMANDS {
        tree.run(command, &["--version"]).is(&line, "", 0);
    }
    for script in ["test", "scripts/version", "scripts/install"] {
        tree.shell(&format!("\"$TREE/{script}\" --version"), &[]).is(&line, "", 0);
    }
    assert_eq!(tree.calls(), "");
}

/// What is installed has no crates, and needs no toolchain.
#[test]
fn where_it_is_installed() {
    let tree = Tree::built();
    tree.file("part", &CUBE);
    let line = "mkdir -p to/bin to/libexec/heqdanu; cp -r \"$TREE/heqdanu\" \"$TREE/VERSION\" \"$TREE/scripts\" to/libexec/heqdanu; \
                cp -rL \"$TREE/target/bin\" to/libexec/heqdanu; ln -s ../libexec/heqdanu/heqdanu to/bin/heqdanu";
    tree.shell(line, &[]).is("", "", 0);
    let path = "PATH=$PWD/to/bin:/usr/bin:/bin";
    tree.shell(&format!("{path}; heqdanu quote part; mkdir there; cd there; heqdanu quote <../part"), &[]).is(
        &CUBE_QUOTE.repeat(2),
        "",
        0,
    );
    tree.shell(&format!("{path}; heqdanu price \"$TREE/examples/tables.txt\" part"), &[]).is(
        "volume 160\narea 192\nedge 72\n",
        "",
        0,
    );
    tree.shell(&format!("{path}; heqdanu same part part; heqdanu drop part | heqdanu shots | head -n 1"), &[]).is(
        "part and part cure the same cells\nfield 8\n",
        "",
        0,
    );
    let help = tree.shell(&format!("{path}; heqdanu help quote"), &[]);
    assert!(!help.text().contains("proves"), "{}", help.text());
    let ended = tree.shell(&format!("{path}; rm to/libexec/heqdanu/bin/quote; heqdanu quote part"), &[]);
    assert_eq!((ended.text().as_str(), ended.status), ("", 2));
    assert!(ended.complaint.starts_with("quote: the program quote is not in "), "{}", ended.complaint);
    assert_eq!(tree.calls(), "");
}

/// What stands at the root, and a command for each program and no other.
#[test]
fn nothing_else_at_the_root() {
    let files: BTreeSet<String> = fs::read_dir(repository())
        .expect("the root is there")
        .map(|entry| entry.expect("an entry"))
        .filter(|entry| entry.path().is_file())
        .map(|entry| entry.file_name().to_string_lossy().into_owned())
        .filter(|name| !name.starts_with('.'))
        .collect();
    let known = ["CONTRIBUTING.md", "HANDLES", "README.md", "VERSION", "crates.txt", "heqdanu", "test"];
    let other: Vec<&String> = files.iter().filter(|name| !known.contains(&name.as_str())).collect();
    assert!(other.is_empty(), "{other:?}");
    let commands: BTreeSet<String> = fs::read_dir(repository().join("scripts/commands"))
        .expect("the commands are there")
        .map(|entry| entry.expect("a command").file_name().to_string_lossy().into_owned())
        .collect();
    assert_eq!(commands, COMMANDS.iter().map(|name| name.to_string()).collect());
    for program in PROGRAMS {
        let source = match program {
            LINKED => repository().join("bindings/rust/examples").join(program).join("main.rs"),
            _ => repository().join("crates").join(program).join("src/main.rt"),
        };
        assert!(source.is_file(), "{program}");
    }
}

//! `./test` with a stand-in for `rt`: its words, its lock, and that a signal ends what it started.

use programs::tree::{spawn, Tree, NEVER};
use std::process::{Command, Stdio};
use std::time::{Duration, Instant};

#[test]
fn words_start_nothing() {
    let tree = Tree::standing_in("true");
    for words in ["--hepl", "all", "-x", "quick --all", "''"] {
        let ended = tree.shell(&format!("\"$TREE/test\" {words}"), &[]);
        assert_eq!((ended.text().as_str(), ended.status), ("", 2), "{words}");
        assert!(ended.complaint.starts_with("test: "), "{}", ended.complaint);
        assert!(ended.complaint.contains("\nusage: ./test\n"), "{}", ended.complaint);
    }
    for words in ["--help", "-h"] {
        let ended = tree.shell(&format!("\"$TREE/test\" {words}"), &[]);
        assert_eq!((ended.complaint.as_str(), ended.status), ("", 0));
        for words in ["usage: ./test\n", "target/", "minutes", "Exit status: "] {
            assert!(ended.text().contains(words), "{words} in {}", ended.text());
        }
    }
    assert_eq!(tree.calls(), "");
    assert!(tree.root().join("target/bin/quote").exists());
}

#[test]
fn no_toolchain() {
    let tree = Tree::standing_in("true");
    let complaint = "test: the Rattle toolchain (rt) is not on the path\n";
    tree.shell("PATH=/usr/bin:/bin; \"$TREE/test\"", &[]).is("", complaint, 2);
    assert!(tree.root().join("target/bin/quote").exists());
}

#[test]
fn a_checkout_that_cannot_be_written() {
    let tree = Tree::bare(NEVER);
    let nobody = "setpriv --reuid=65534 --regid=65534 --clear-groups";
    let line = format!(
        "user=; [ $(id -u) != 0 ] || user='{nobody}'; chmod a-w \"$TREE\"; $user \"$TREE/test\"; \
                        ended=$?; chmod u+w \"$TREE\"; exit $ended"
    );
    tree.shell(&line, &[]).is("", &format!("test: {} cannot be written\n", tree.root().display()), 2);
    assert_eq!(tree.calls(), "");
}

/// The tree with stand-ins for the scripts that the gate starts, which note their calls and print a line.
fn standing_in(rt: &str) -> Tree {
    let tree = Tree::bare(rt);
    let line = "mkdir -p \"$TREE/tests\"; for script in scripts/house scripts/refusals scripts/version scripts/place \
                tests/run; do \
                printf '#!/bin/sh\\necho %s \"$@\" >>\"$TREE/../calls\"; echo a line\\n' $script >\"$TREE/$script\"; \
                chmod +x \"$TREE/$script\"; done";
    tree.shell(line, &[]).is("", "", 0);
    tree
}

/// The calls of rt.
fn proving(tree: &Tree) -> String {
    let calls = tree.calls();
    calls.lines().filter(|call| !call.contains('/')).map(|call| format!("{call}\n")).collect()
}

/// It goes by the status of its first step that fails, and waits for those that build.
#[test]
fn it_takes_its_turn() {
    let tree = standing_in("echo called; exit 3");
    tree.shell("\"$TREE/test\"", &[]).is("a line\na line\na line\ncalled\n", "", 3);
    assert_eq!(proving(&tree), "ci\n");
    let line = "exec 8>\"$TREE/.building\"; flock 8; sleep 1 & exec 8>&-; \"$TREE/test\"";
    tree.shell(line, &[]).is("a line\na line\na line\ncalled\n", "test: waiting for another script to build\n", 3);
    // And those that build wait for it.
    let tree = standing_in("sleep 2; echo rt: done; exit 1");
    let line = "\"$TREE/test\" >/dev/null & while flock -n \"$TREE/.building\" true; do :; done; heqdanu quote; wait";
    let ended = tree.shell(line, &[]);
    assert!(ended.complaint.contains("quote: waiting for another script to build\n"), "{}", ended.complaint);
    assert_eq!(proving(&tree), "ci\nquote: run\n");
}

/// All steps in their order, with stand-ins for the scripts; the last line is that of `rt ci`.
#[test]
fn the_whole_gate() {
    let tree = standing_in("echo 'rt: ok; must-fail edits: 3 refused; all was done'; echo '3 passed, 0 failed'");
    let ended = tree.shell("\"$TREE/test\"", &[]);
    assert_eq!((ended.complaint.as_str(), ended.status), ("", 0));
    assert!(ended.text().ends_with("\n3 passed, 0 failed\n"), "{}", ended.text());
    let all = tree.calls();
    let mut calls: Vec<&str> = all.lines().collect();
    // What runs beside something else has no place of its own.
    calls.retain(|call| *call != "tests/run --all oracle");
    let checks = ["scripts/house", "scripts/refusals", "scripts/version"];
    assert_eq!(calls[..3], checks.map(|check| format!("{check} --check")));
    // Nothing stands between them and rt, whose products are put into their places before the tests run that need them.
    assert_eq!(calls[3..5], ["ci", "scripts/place"]);
    assert_eq!(calls[5..], ["tests/run --all quote", "tests/run --all programs", "tests/run --all library"]);
    // A step that fails ends it, and its status is not lost.
    let line = "printf '#!/bin/sh\\nexit 1\\n' >\"$TREE/tests/run\"; \"$TREE/test\"";
    let ended = tree.shell(line, &[]);
    assert_ne!(ended.status, 0);
}

/// An edit that is bad shows nothing, so it fails.
#[test]
fn a_bad_edit() {
    let ok = "rt: ok; handles allowed: none; must-fail edits: 3 refused, 1 bad; all was done in this run";
    let tree = standing_in(&format!("echo '{ok}'; echo '4 passed, 0 failed'"));
    let ended = tree.shell("\"$TREE/test\"", &[]);
    assert_eq!(ended.status, 1);
    assert!(ended.complaint.starts_with("scripts/gate: must-fail edits are bad"), "{}", ended.complaint);
    assert!(!tree.calls().contains("tests/run --all quote"), "{}", tree.calls());
}

#[test]
fn a_signal_ends_the_gate() {
    let tree = standing_in("echo $$ >\"$TREE/../parent\"; sleep 60; true");
    for signal in ["TERM", "HUP", "INT"] {
        let path = tree.root().join("../parent");
        let mut command = tree.command(tree.root().join("test"));
        let mut child = spawn(command.stdin(Stdio::null()).stdout(Stdio::null()).stderr(Stdio::null()));
        let start = Instant::now();
        let number = loop {
            let text = std::fs::read_to_string(&path).unwrap_or_default();
            if text.ends_with('\n') {
                break text.trim().to_string();
            }
            assert!(start.elapsed() < Duration::from_secs(10), "rt is not called");
            std::thread::sleep(Duration::from_millis(2));
        };
        std::fs::remove_file(&path).expect("it is removed");
        let kill = Command::new("kill").arg(format!("-{signal}")).arg(child.id().to_string()).status();
        assert!(kill.is_ok_and(|status| status.success()));
        assert!(!child.wait().expect("the gate ends").success(), "{signal}");
        let start = Instant::now();
        while tree.left_over() != 0 {
            assert!(start.elapsed() < Duration::from_secs(10), "temporary files stay");
        }
        while tree.shell(&format!("kill -0 {number} 2>/dev/null"), &[]).status == 0 {
            assert!(start.elapsed() < Duration::from_secs(10), "rt goes on");
        }
        tree.shell("flock -n \"$TREE/.building\" echo free", &[]).is("free\n", "", 0);
    }
}

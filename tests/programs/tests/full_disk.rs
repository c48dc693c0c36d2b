//! A temporary folder that takes no byte: every command answers as ever, or says what is in the way and gives status 2.

use oracle::inputs::Random;
use oracle::list::List;
use oracle::shotfile::shortest;
use programs::tree::{spawn, Ended, Tree};
use std::process::{Command, Stdio};
use std::time::{Duration, Instant};

const ARCH: &[u8] = include_bytes!("../../../examples/arch.vox");
const OVERLAP: [u8; 15] = [7, 8, 0, 2, 0, 2, 0, 0, 7, 1, 0, 1, 0, 1, 0];

/// The tree with files: a part, another, a refused list, as many shots as allowed, its text, and its listing.
fn tree() -> Tree {
    let tree = Tree::built();
    let mut random = Random::new(91);
    let coords: Vec<u16> = (0..3 * 4096).map(|_| random.within(0, 62) as u16).collect();
    let many = shortest(&List { field: 64, edge: 2, grid: 4, coords });
    tree.file("part", &OVERLAP);
    tree.file("other", &OVERLAP[..8]);
    tree.file("cut", &OVERLAP[..14]);
    tree.file("arch", ARCH);
    tree.file("tables", include_bytes!("../../../examples/tables.txt"));
    tree.file("many", &many);
    tree.shell("heqdanu shots many >text; printf 'field 8\\nfield 8\\n' >wrong", &[]).is("", "", 0);
    tree.shell("heqdanu listing many >corners", &[]).is("", "", 0);
    tree
}

/// What a line of shell gives where no file can be written; its standard output is a pipe.
fn on_a_full_disk(tree: &Tree, words: &str) -> Ended {
    tree.shell(&format!("exec bash -c \"trap '' XFSZ; ulimit -f 0; exec heqdanu {words}\""), &[])
}

#[test]
fn commands_that_keep_nothing_answer_as_ever() {
    let tree = tree();
    let mut refused = 0;
    for words in [
        "quote part",
        "quote cut",
        "quote many",
        "quote part cut many",
        "quote -t part cut many",
        "quote_vox arch",
        "quote_vox cut",
        "recount part",
        "recount cut",
        "price tables part",
        "price tables cut",
        "price tables part cut many",
        "price -t tables part cut many",
        "price text part",
        "credits part",
        "credits cut",
        "credits many",
        "shots part",
        "shots cut",
        "shots many",
        "listing part",
        "listing cut",
        "listing many",
        "listing --text many",
        "corners_at 30 corners",
        "corners_at 65535 corners",
        "corners_at 1 part",
        "write_shots text",
        "write_shots wrong",
        "vox_shots arch",
        "vox_shots cut",
        "help",
        "quote --help",
        "--version",
    ] {
        let ever = tree.shell(&format!("heqdanu {words}"), &[]);
        assert_eq!(on_a_full_disk(&tree, words), ever, "{words}");
        refused += usize::from(ever.status == 1);
    }
    assert_eq!(refused, 12);
}

#[test]
fn commands_that_keep_something_say_so() {
    let tree = tree();
    let scratch = tree.scratch();
    let said = |name: &str, file: &str, words: &str| {
        format!("{name}: {file}: {words} kept in the temporary folder, {}\n", scratch.display())
    };
    for words in ["same part other", "same part part", "same part cut"] {
        on_a_full_disk(&tree, words).is("", &said("same", "part", "what is made of it cannot be"), 2);
    }
    on_a_full_disk(&tree, "drop many").is("", &said("drop", "many", "cannot be read, or not be"), 2);
    // Tables that come by a pipe are kept, since they are read with each file.
    on_a_full_disk(&tree, "price - part <tables").is(
        "",
        &said("price", "standard input", "cannot be read, or not be"),
        2,
    );
    // A refusal needs no room.
    let refused = "cut: refused 5 8: the file ends before a field of this map, or is empty\n";
    on_a_full_disk(&tree, "same cut part").is("", &format!("same: {refused}"), 2);
}

#[test]
fn no_temporary_folder() {
    let tree = tree();
    for words in ["same part part", "drop part", "price - part"] {
        let name = words.split(' ').next().expect("a name");
        let complaint = format!("{name}: no folder can be made in the temporary folder, /nowhere\n");
        tree.shell(&format!("TMPDIR=/nowhere heqdanu {words}"), &[]).is("", &complaint, 2);
    }
    tree.shell("TMPDIR=/nowhere heqdanu quote part other | tail -n 2", &[]).is("inner 0\ncorners 8\n", "", 0);
    tree.shell("TMPDIR=/nowhere heqdanu price tables part other | tail -n 2", &[]).is("area 192\nedge 72\n", "", 0);
}

/// A standard output that is full takes the first bytes; the command says so, whatever they are.
#[test]
fn a_full_output() {
    let tree = tree();
    for words in [
        "quote part",
        "credits many",
        "shots many",
        "listing many",
        "write_shots text",
        "listing --text many",
        "corners_at 30 corners",
        "price tables part",
    ] {
        let name = words.split(' ').next().expect("a name");
        let line = format!("bash -c \"trap '' XFSZ; ulimit -f 1; exec heqdanu {words} >out\"; echo $?; rm out");
        let ended = tree.shell(&line, &[]);
        if ["quote part", "price tables part"].contains(&words) {
            ended.is("0\n", "", 0);
        } else {
            ended.is("2\n", &format!("{name}: standard output cannot be written\n"), 0);
        }
    }
}

/// What is kept goes also where a signal ends the command.
#[test]
fn a_signal_leaves_nothing() {
    let tree = Tree::standing_in("sleep 2");
    tree.file("part", &OVERLAP);
    for signal in ["TERM", "HUP"] {
        for words in [&["same", "part", "part"][..], &["drop", "part"]] {
            let mut command = tree.command(tree.root().join("heqdanu"));
            command.args(words).stdin(Stdio::null()).stdout(Stdio::null()).stderr(Stdio::null());
            let mut child = spawn(&mut command);
            let start = Instant::now();
            while tree.left_over() == 0 && start.elapsed() < Duration::from_secs(10) {
                std::thread::sleep(Duration::from_millis(2));
            }
            assert_eq!(tree.left_over(), 1, "a temporary folder while it runs");
            std::thread::sleep(Duration::from_millis(20));
            let kill = Command::new("kill").arg(format!("-{signal}")).arg(child.id().to_string()).status();
            assert!(kill.is_ok_and(|status| status.success()));
            assert!(!child.wait().expect("the command ends").success(), "{signal} {words:?}");
            assert_eq!(tree.left_over(), 0, "{signal} {words:?}");
        }
    }
}

//! What becomes of the programs' outputs: a standard output that takes nothing, programs that end badly, bytes and
//! terminals.

use programs::run;
use programs::tree::{before_files, Tree, COMMANDS, PROGRAMS};

const OVERLAP: [u8; 15] = [7, 8, 0, 2, 0, 2, 0, 0, 7, 1, 0, 1, 0, 1, 0];
const ARCH: &[u8] = include_bytes!("../../../examples/arch.vox");
const CUBE: [u8; 8] = [7, 8, 0, 2, 0, 2, 0, 0];

#[test]
fn an_output_that_takes_nothing() {
    let tree = Tree::built();
    tree.file("part", &CUBE);
    tree.file("text", b"shot 1 2 3\n");
    tree.file("arch", ARCH);
    tree.file("corners", &run::on("listing", &CUBE).good());
    for script in PROGRAMS.into_iter().chain(["listing --text", "quote -t", "drop"]) {
        let file = match script {
            "write_shots" => "text",
            "vox_shots" => "arch",
            "corners_at" => "corners",
            _ => "part",
        };
        let name = script.split(' ').next().expect("a name");
        let script = before_files(script);
        for output in [">&-", ">/dev/full"] {
            let complaint = format!("{name}: standard output cannot be written\n");
            tree.shell(&format!("heqdanu {script} {file} {output}"), &[]).is("", &complaint, 2);
        }
        // A reader that leaves a pipe early is nobody's fault.
        let line = format!("{{ sleep 0.2; heqdanu {script} {file}; echo $? >status; }} | true; cat status; rm status");
        tree.shell(&line, &[]).is("141\n", "", 0);
    }
    tree.shell("heqdanu quote part part >/dev/full", &[]).is("", "quote: standard output cannot be written\n", 2);
    tree.shell("heqdanu same part part >/dev/full", &[]).is("", "same: standard output cannot be written\n", 2);
    tree.shell("heqdanu quote --help >&-", &[]).is("", "quote: standard output cannot be written\n", 2);
    tree.shell("heqdanu quote part >&- 2>&-", &[]).is("", "", 2);
}

#[test]
fn what_programs_say_passes_through() {
    let bytes = "printf 'a\\0b\\n\\n\\377'";
    let tree = Tree::standing_in(bytes);
    for script in ["write_shots", "listing"] {
        let ended = tree.shell(&format!("heqdanu {script}"), &[]);
        assert_eq!((&ended.output[..], ended.status), (&b"a\0b\n\n\xff"[..], 0), "{script}");
    }
    // The recount says how far it is, and that is no complaint.
    let tree = Tree::standing_in("echo 'plane 1 of 8' >&2; echo volume 8");
    tree.shell("heqdanu recount", &[]).is("volume 8\n", "plane 1 of 8\n", 0);
    tree.shell("heqdanu quote", &[]).is("", "quote: standard input: plane 1 of 8\n", 2);
    // So is a note.
    let tree = Tree::standing_in("echo 'quote_vox: note: further models' >&2; echo volume 8");
    tree.file("a part", &[]);
    tree.run("quote_vox", &["a part"]).is("volume 8\n", "quote_vox: a part: note: further models\n", 0);
    let tree = Tree::standing_in("echo bytes; echo 'vox_shots: note: further models' >&2");
    tree.shell("heqdanu vox_shots", &[]).is("bytes\n", "vox_shots: standard input: note: further models\n", 0);
}

#[test]
fn no_output_where_there_is_trouble() {
    // A quote that prints nothing, or no quote, is trouble, even where nothing is said of it.
    let tree = Tree::standing_in("true");
    tree.shell("heqdanu quote", &[]).is("", "quote: standard input: there is no answer\n", 2);
    tree.shell("heqdanu shots", &[]).is("", "shots: standard input: there is no answer\n", 2);
    tree.shell("heqdanu credits", &[]).is("", "", 0);
    tree.shell("heqdanu corners_at 0", &[]).is("", "", 0);
    Tree::standing_in("echo volume").shell("heqdanu quote", &[]).is(
        "",
        "quote: standard input: there is no answer\n",
        2,
    );
    for (program, complaint) in [
        ("echo trouble >&2", "trouble"),
        ("printf trouble >&2; echo 0 8", "trouble"),
        ("echo volume 8; exit 3", "the program credits ended with status 3, so there is no answer"),
        ("echo half; kill -9 $$", "the program credits ended with status 137, so there is no answer"),
    ] {
        let tree = Tree::standing_in(program);
        tree.shell("heqdanu credits", &[]).is("", &format!("credits: standard input: {complaint}\n"), 2);
    }
    let tree = Tree::standing_in("echo volume 8; kill -9 $$");
    let complaint = "quote: standard input: the program quote ended with status 137, so there is no answer\n";
    tree.shell("heqdanu quote", &[]).is("", complaint, 2);
    tree.shell("heqdanu quote -t", &[]).is("", complaint, 2);
}

#[test]
fn programs_that_are_killed() {
    let tree = Tree::standing_in("kill -11 $$");
    tree.file("part", &CUBE);
    for command in COMMANDS {
        let files = if command == "same" { "part part" } else { "part" };
        let program = if ["same", "drop"].contains(&command) { "listing" } else { command };
        let complaint =
            format!("{command}: part: the program {program} ended with status 139, so there is no answer\n");
        tree.shell(&format!("heqdanu {} {files}", before_files(command)), &[]).is("", &complaint, 2);
    }
    let complaint = "listing: part: the program listing ended with status 139, so there is no answer\n";
    tree.shell("heqdanu listing --text part", &[]).is("", complaint, 2);
}

#[test]
fn bytes_do_not_go_to_a_terminal() {
    let tree = Tree::built();
    tree.file("part", &CUBE);
    tree.file("text", b"shot 1 2 3\n");
    for (command, file) in [("listing", "part"), ("write_shots", "text"), ("vox_shots", "part"), ("drop", "part")] {
        let ended = tree.shell(&format!("script -qec 'heqdanu {command} {file}' /dev/null"), &[]);
        let words = format!(
            "{command}: its output is bytes, not text: give it a file or a pipe, as in 'heqdanu {command} FILE >OUT'\r\n"
        );
        assert_eq!((ended.text(), ended.status), (words, 2), "{command}");
    }
    let ended = tree.shell("script -qec 'heqdanu listing --text part' /dev/null", &[]);
    assert_eq!((ended.text().lines().count(), ended.status), (8, 0));
}

#[test]
fn listings_as_text() {
    let tree = Tree::built();
    tree.file("part", &CUBE);
    tree.file("cut", &OVERLAP[..14]);
    let text = "0 0 0 128\n0 0 2 64\n0 2 0 32\n0 2 2 16\n2 0 0 8\n2 0 2 4\n2 2 0 2\n2 2 2 1\n";
    tree.run("listing", &["--text", "part"]).is(text, "", 0);
    tree.shell("heqdanu listing --text", &CUBE).is(text, "", 0);
    tree.shell("heqdanu listing --text", &OVERLAP[..7]).is("", "", 0);
    let complaint = "listing: cut: refused 5 8: the file ends before a field of this map, or is empty\n";
    tree.run("listing", &["--text", "cut"]).is("", complaint, 1);
    // Numbers have two bytes.
    let far = [0, 7, 0, 1, 88, 2, 240, 3];
    let ended = tree.shell("heqdanu listing --text | head -n 1", &far);
    assert_eq!(ended.text(), "256 600 1008 128\n");
}

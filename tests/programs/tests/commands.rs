//! The commands of `heqdanu`: their words are looked at before anything is built, files are answered as `head` does, and
//! the status says how it went.

use programs::run;
use programs::tree::{before_files, Ended, Tree, COMMANDS, NEVER, PROGRAMS};
use std::os::unix::fs::symlink;
use std::os::unix::net::UnixListener;

const OVERLAP: [u8; 15] = [7, 8, 0, 2, 0, 2, 0, 0, 7, 1, 0, 1, 0, 1, 0];
const OVERLAP_QUOTE: &str = "volume 15\narea 42\nedge 42\ninner 6\ncorners 20\n";
const ARCH: &[u8] = include_bytes!("../../../examples/arch.vox");
/// What is said of `OVERLAP` without its last byte.
const CUT_AT_8: &str = "at byte 8: the file ends before a field of this map, or is empty";
const NO_GRID: &[u8] = include_bytes!("../../../examples/no_grid.shots");
const CUBE: [u8; 8] = [7, 8, 0, 2, 0, 2, 0, 0];
const CUBE_QUOTE: &str = "volume 8\narea 24\nedge 24\ninner 0\ncorners 8\n";

/// That a command ended as a wrong use: a line and the usage on standard error, nothing printed, status 2.
fn misused(ended: &Ended, script: &str) {
    assert_eq!((ended.text().as_str(), ended.status), ("", 2), "{script}");
    let mut lines = ended.complaint.lines();
    assert!(lines.next().is_some_and(|line| line.starts_with(&format!("{script}: "))), "{}", ended.complaint);
    assert!(
        lines.next().is_some_and(|line| line.starts_with(&format!("usage: heqdanu {script} "))),
        "{}",
        ended.complaint
    );
}

#[test]
fn help_builds_nothing() {
    let tree = Tree::bare(NEVER);
    for script in COMMANDS {
        for words in [&["--help"][..], &["-h"], &["missing", "--help"]] {
            let ended = tree.run(script, words);
            assert_eq!((ended.complaint.as_str(), ended.status), ("", 0), "{script} {words:?}");
            assert!(ended.text().starts_with(&format!("usage: heqdanu {script} ")), "{}", ended.text());
            assert!(ended.text().contains("\nExit status: 0 "), "{}", ended.text());
        }
    }
    assert_eq!(tree.calls(), "");
    assert!(!tree.root().join("target").exists());
}

#[test]
fn a_wrong_use_builds_nothing() {
    let tree = Tree::bare(NEVER);
    tree.file("part", &CUBE);
    for script in COMMANDS {
        for word in ["-x", "--hepl", "--help=all"] {
            misused(&tree.run(script, &["part", word]), script);
        }
    }
    for (script, words) in [
        ("write_shots", &["part", "part"][..]),
        ("listing", &["part", "part"]),
        ("vox_shots", &["part", "part"]),
        ("drop", &["part", "part"]),
        ("quote", &["--text", "part"]),
        ("listing", &["-t", "part"]),
        ("same", &[]),
        ("same", &["part"]),
        ("same", &["part", "part", "part"]),
        ("same", &["-", "-"]),
    ] {
        misused(&tree.run(script, words), script);
    }
    // Options are the command's, and not the environment's.
    misused(&tree.shell("options='-x --hepl' heqdanu credits -x part", &[]), "credits");
    assert_eq!(tree.calls(), "");
}

#[test]
fn files_that_cannot_be_read_build_nothing() {
    let tree = Tree::bare(NEVER);
    tree.file("part", &CUBE);
    symlink("nowhere", tree.root().join("../elsewhere/dangling")).expect("a link is made");
    for script in PROGRAMS.into_iter().chain(["drop"]) {
        for (file, words) in
            [("missing", "no such file"), ("dangling", "no such file"), ("", "no such file"), ("..", "is a directory")]
        {
            tree.run(before_files(script), &[file]).is("", &format!("{script}: {file}: {words}\n"), 2);
        }
    }
    tree.run("quote", &["one", "two"]).is("", "quote: one: no such file\nquote: two: no such file\n", 2);
    tree.run("same", &["part", "missing"]).is("", "same: missing: no such file\n", 2);
    tree.run("same", &["..", "missing"]).is("", "same: ..: is a directory\nsame: missing: no such file\n", 2);
    assert_eq!(tree.calls(), "");
}

#[test]
fn a_file_that_is_not_ours_to_read() {
    let tree = Tree::bare(NEVER);
    tree.file("part", &CUBE);
    // The superuser may read everything, so another user asks.
    let nobody = "setpriv --reuid=65534 --regid=65534 --clear-groups";
    let line = format!("chmod 0 part; user=; [ $(id -u) != 0 ] || user='{nobody}'; $user heqdanu quote part");
    tree.shell(&line, &[]).is("", "quote: part: cannot be read\n", 2);
}

#[test]
fn one_status_for_each_outcome() {
    let tree = Tree::built();
    tree.file("good", &OVERLAP);
    tree.file("cut", &OVERLAP[..14]);
    for script in ["quote", "recount"] {
        // A recount may say on standard error how far it is.
        let ended = tree.run(script, &["good"]);
        assert_eq!((ended.text().as_str(), ended.status), (OVERLAP_QUOTE, 0), "{script}: {}", ended.complaint);
        tree.run(script, &["cut"]).is("refused 5 8\n", &format!("{script}: cut: {CUT_AT_8}\n"), 1);
        // The recount's own words are not held back, so what the command has to say follows them.
        let mut complaint = format!("{script}: standard input cannot be read\n");
        if script == "recount" {
            complaint += "recount: standard input: there is no answer\n";
        }
        tree.shell(&format!("heqdanu {script} </"), &[]).is("", &complaint, 2);
    }
    tree.run("quote", &["good"]).is(OVERLAP_QUOTE, "", 0);
    for (file, status) in [("good", 0), ("cut", 1)] {
        let told = run::on("shots", if status == 0 { &OVERLAP } else { &OVERLAP[..14] });
        tree.run("shots", &[file]).is(&told.text(), "", status);
    }
    tree.shell("heqdanu shots <&-", &[]).is("", "shots: standard input cannot be read\n", 2);
    for (text, status) in [
        ("field 8\nedge 2\ngrid 2\n", 0),
        ("field 8\nedge 2\n", 1),
        ("field 8\nedge 2\ngrid 2\nshot 7 0 0\n", 1),
        ("field 8\nfield 8\n", 2),
    ] {
        let told = run::on("write_shots", text.as_bytes());
        let complaint = told.complaint.replace("write_shots: ", "write_shots: standard input: ");
        let ended = tree.shell("heqdanu write_shots", text.as_bytes());
        assert_eq!(ended, Ended { output: told.output, complaint, status });
    }
}

#[test]
fn readme_names_a_grid_of_8() {
    let tree = Tree::built();
    let edit = "sed 's/^grid 16 # default$/grid 8/; /^refused 8:/d'";
    assert!(include_str!("../../../README.md")
        .contains(&format!("./heqdanu shots examples/no_grid.shots | {edit} | ./heqdanu write_shots")));
    let line = format!("heqdanu shots part | {edit} | heqdanu write_shots");
    let named = |file: &[u8]| {
        tree.file("part", file);
        tree.shell(&line, &[]).output
    };
    assert_eq!(named(NO_GRID), [&[7], &OVERLAP[1..5], &[8, 0], &OVERLAP[7..]].concat());
    tree.shell(&format!("{line} | heqdanu quote"), &[]).is(OVERLAP_QUOTE, "", 0);
    // Files that are accepted get 8 too; a grid that is named stays.
    assert_eq!(named(&[0, 0]), [4, 8, 0, 0]);
    assert_eq!(named(&OVERLAP), OVERLAP);
    // What is refused for another reason stays refused.
    assert_eq!(named(&[3, 8, 0, 2, 0, 1, 7, 0]), []);
    assert_eq!(named(&NO_GRID[..12]), []);
}

#[test]
fn vox_files_have_a_status_too() {
    let tree = Tree::built();
    let quote = "volume 69\narea 142\nedge 82\ninner 6\ncorners 16\n";
    let too_long = "quote_vox: long: the input has more than 1,048,575 bytes\n";
    let cut_at_8 = "quote_vox: cut: at byte 8: this chunk is cut short, or a size of it does not match\n";
    let no_vox = "quote_vox: shots: at byte 0: no VOX mark of version 150, or not the chunk required here\n\
                  quote_vox: shots: this may be a shot file; heqdanu quote quotes those\n";
    tree.file("arch", ARCH);
    tree.file("cut", &ARCH[..300]);
    tree.file("shots", &CUBE);
    tree.file("long", &vec![0; 1_048_576]);
    tree.run("quote_vox", &["arch"]).is(quote, "", 0);
    tree.run("quote_vox", &["cut"]).is("refused 14 8\n", cut_at_8, 1);
    tree.run("quote_vox", &["shots"]).is("refused 13 0\n", no_vox, 1);
    tree.run("quote_vox", &["long"]).is("", too_long, 2);
    tree.shell("heqdanu quote_vox - <arch", &[]).is(quote, "", 0);
    tree.shell("heqdanu quote_vox </", &[]).is("", "quote_vox: standard input cannot be read\n", 2);
    let headed = format!("==> arch <==\n{quote}\n==> shots <==\nrefused 13 0\n");
    tree.run("quote_vox", &["arch", "shots"]).is(&headed, no_vox, 1);
    let complaint = format!("quote_vox: missing: no such file\n{no_vox}");
    tree.run("quote_vox", &["arch", "missing", "shots"]).is(&headed, &complaint, 2);
    let headed = format!("==> long <==\n\n==> arch <==\n{quote}\n==> cut <==\nrefused 14 8\n");
    tree.run("quote_vox", &["long", "arch", "cut"]).is(&headed, &format!("{too_long}{cut_at_8}"), 2);
}

#[test]
fn listings_have_a_status_too() {
    let tree = Tree::built();
    for (name, file, status) in [("good", &OVERLAP[..], 0), ("cut", &OVERLAP[..14], 1), ("nothing", &OVERLAP[..7], 0)] {
        let told = run::on("listing", file);
        let complaint = told.complaint.replace("listing: ", &format!("listing: {name}: "));
        let ended = tree.run("listing", &[tree.file(name, file)]);
        assert_eq!(ended, Ended { output: told.output, complaint, status });
    }
}

#[test]
fn credits_have_a_status_too() {
    let tree = Tree::built();
    tree.file("good", &OVERLAP);
    tree.file("nothing", &OVERLAP[..7]);
    tree.file("cut", &OVERLAP[..14]);
    tree.run("credits", &["good"]).is("0 8\n1 7\n", "", 0);
    // A list without shots is answered, by no line.
    tree.run("credits", &["nothing"]).is("", "", 0);
    let cut = format!("credits: cut: {CUT_AT_8}\n");
    tree.run("credits", &["cut"]).is("refused 5 8\n", &cut, 1);
    tree.shell("heqdanu credits - <good", &[]).is("0 8\n1 7\n", "", 0);
    tree.shell("heqdanu credits </", &[]).is("", "credits: standard input cannot be read\n", 2);
    let headed = "==> good <==\n0 8\n1 7\n\n==> nothing <==\n";
    tree.run("credits", &["good", "nothing"]).is(headed, "", 0);
    let headed = format!("{headed}\n==> cut <==\nrefused 5 8\n");
    tree.run("credits", &["good", "nothing", "cut"]).is(&headed, &cut, 1);
    let complaint = format!("credits: missing: no such file\n{cut}");
    tree.run("credits", &["good", "missing", "nothing", "cut"]).is(&headed, &complaint, 2);
}

#[test]
fn several_files_as_head_has_them() {
    let tree = Tree::built();
    tree.file("one", &OVERLAP);
    tree.file("a part", &CUBE);
    tree.file("cut", &[]);
    let headed = format!("==> one <==\n{OVERLAP_QUOTE}\n==> a part <==\n{CUBE_QUOTE}");
    tree.run("quote", &["one", "a part"]).is(&headed, "", 0);
    let cut = "quote: cut: at byte 0: the file ends before a field of this map, or is empty\n";
    tree.run("quote", &["one", "a part", "cut"]).is(&format!("{headed}\n==> cut <==\nrefused 5 0\n"), cut, 1);
    tree.run("quote", &["missing", "one", "a part"]).is(&headed, "quote: missing: no such file\n", 2);
    tree.run("quote", &["one", "missing"]).is(
        &format!("==> one <==\n{OVERLAP_QUOTE}"),
        "quote: missing: no such file\n",
        2,
    );
    tree.shell("heqdanu quote one - cut", &CUBE).is(
        &format!("==> one <==\n{OVERLAP_QUOTE}\n==> standard input <==\n{CUBE_QUOTE}\n==> cut <==\nrefused 5 0\n"),
        cut,
        1,
    );
    let head = tree.shell("head -n 9 one 'a part'", &[]);
    let titles = |text: &[u8]| text.split(|byte| *byte == b'\n').filter(|line| line.starts_with(b"==>")).count();
    assert_eq!(titles(&head.output), titles(headed.as_bytes()));
}

#[test]
fn standard_input_and_odd_names() {
    let tree = Tree::built();
    tree.shell("heqdanu quote", &CUBE).is(CUBE_QUOTE, "", 0);
    tree.shell("heqdanu quote -", &CUBE).is(CUBE_QUOTE, "", 0);
    tree.shell("heqdanu quote -- -", &CUBE).is(CUBE_QUOTE, "", 0);
    for name in ["--help", "-", "a b", "*", "%s\\n", "$HOME"] {
        tree.file(name, &OVERLAP);
    }
    for words in ["-- --help", "./-", "'a b'", "'*'", "'%s\\n'", "'$HOME'"] {
        tree.shell(&format!("heqdanu quote {words}"), &[]).is(OVERLAP_QUOTE, "", 0);
    }
    tree.shell("heqdanu quote '%s\\n' '*'", &[]).is(
        &format!("==> %s\\n <==\n{OVERLAP_QUOTE}\n==> * <==\n{OVERLAP_QUOTE}"),
        "",
        0,
    );
}

#[test]
fn by_a_link_and_from_the_root() {
    let tree = Tree::built();
    tree.file("part", &CUBE);
    let line = "ln -s \"$TREE/heqdanu\" link && ln -s link again && ./again quote part";
    tree.shell(line, &[]).is(CUBE_QUOTE, "", 0);
    let line = "there=$PWD/part; cd \"$TREE\" && ./heqdanu quote \"$there\" && bash heqdanu quote \"$there\"";
    tree.shell(line, &[]).is(&CUBE_QUOTE.repeat(2), "", 0);
    tree.shell("PATH=\"$TREE:/usr/bin:/bin\"; heqdanu quote part", &[]).is(CUBE_QUOTE, "", 0);
    tree.shell("\"$TREE/heqdanu\" quote part; cd / && \"$TREE/heqdanu\" quote <\"$OLDPWD/part\"", &[]).is(
        &CUBE_QUOTE.repeat(2),
        "",
        0,
    );
}

/// A socket can be asked for, and not be opened.
#[test]
fn a_file_that_does_not_open() {
    let tree = Tree::built();
    let _socket = UnixListener::bind(tree.root().join("../elsewhere/socket")).expect("a socket is made");
    tree.file("part", &CUBE);
    for command in PROGRAMS.into_iter().chain(["drop", "quote -t", "listing --text"]) {
        let name = command.split(' ').next().expect("a name");
        let words = before_files(command);
        tree.shell(&format!("heqdanu {words} socket"), &[]).is("", &format!("{name}: socket: cannot be opened\n"), 2);
    }
    tree.run("same", &["part", "socket"]).is("", "same: socket: cannot be opened\n", 2);
    // Where POSIX is asked of the shell too.
    for line in ["heqdanu quote socket part", "POSIXLY_CORRECT=1 heqdanu quote socket part"] {
        let headed = format!("==> part <==\n{CUBE_QUOTE}");
        tree.shell(line, &[]).is(&headed, "quote: socket: cannot be opened\n", 2);
    }
}

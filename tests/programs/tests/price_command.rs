//! The command `heqdanu price`: its words, the file that leads, several files, tables that come by a pipe, what is said
//! of a table that is refused, and its status.

use programs::text::NOT_SHORTEST;
use programs::tree::{repository, Tree, NEVER};
use std::os::unix::net::UnixListener;

const OVERLAP: [u8; 15] = [7, 8, 0, 2, 0, 2, 0, 0, 7, 1, 0, 1, 0, 1, 0];
const CUBE: [u8; 8] = [7, 8, 0, 2, 0, 2, 0, 0];
const EXAMPLE: &[u8] = include_bytes!("../../../examples/tables.txt");
const OVERLAP_PRICE: &str = "volume 300\narea 252\nedge 126\n";
const CUBE_PRICE: &str = "volume 160\narea 192\nedge 72\n";
const SENTENCE: &str = "a price table has a faulty band, no top, or more than 64 bands";
const CUT_AT_8: &str = "at byte 8: the file ends before a field of this map, or is empty";
const FAULT: &str = "line 11: this band of area starts at 43, and the one before ends at 41";
const MISTAKE: &str = "line 2: too few words; a band has three numbers, its first and last amount and its cents";

/// The tree with the example's tables, some with a faulty band, some with a mistake, and parts.
fn tree() -> Tree {
    let tree = Tree::built();
    tree.file("tables", EXAMPLE);
    let faulty = String::from_utf8(EXAMPLE.to_vec()).expect("text").replace("area 42 ", "area 43 ");
    tree.file("faulty", faulty.as_bytes());
    tree.file("wrong", b"volume 0 9 1\nvolume 10\n");
    tree.file("part", &OVERLAP);
    tree.file("a cube", &CUBE);
    tree.file("cut", &OVERLAP[..14]);
    tree
}

#[test]
fn one_status_for_each_outcome() {
    let tree = tree();
    tree.run("price", &["tables", "part"]).is(OVERLAP_PRICE, "", 0);
    tree.run("price", &["tables", "cut"]).is("refused 5 8\n", &format!("price: cut: {CUT_AT_8}\n"), 1);
    let complaint = format!("price: part: {SENTENCE}\nprice: faulty: {FAULT}\n");
    tree.run("price", &["faulty", "part"]).is("refused 18 1\n", &complaint, 1);
    // A list that is refused is not priced, whatever the tables.
    tree.run("price", &["faulty", "cut"]).is("refused 5 8\n", &format!("price: cut: {CUT_AT_8}\n"), 1);
    tree.run("price", &["wrong", "part"]).is("", &format!("price: wrong: {MISTAKE}\n"), 2);
    tree.shell("heqdanu price tables </", &[]).is("", "price: standard input cannot be read\n", 2);
    tree.shell("heqdanu price tables <&-", &[]).is("", "price: standard input cannot be read\n", 2);
    let needless = "price: longer: at byte 0: a field of this map says what its absence would mean\n";
    tree.file("longer", &[4, 16, 0]);
    let complaint = format!("{needless}price: longer: {NOT_SHORTEST}\n");
    tree.run("price", &["tables", "longer"]).is("refused 17 0\n", &complaint, 1);
    let drawing = "price: arch: at byte 0: this map has a bit that has no meaning\n\
                   price: arch: this is a VOX file; heqdanu vox_shots makes a shot file of it\n";
    tree.file("arch", include_bytes!("../../../examples/arch.vox"));
    tree.run("price", &["tables", "arch"]).is("refused 4 0\n", drawing, 1);
}

/// What is said of each kind of table that is refused.
#[test]
fn tables_that_are_refused() {
    let tree = tree();
    let good = "volume 0 1099511627776 1\narea 0 1099511627776 1\n";
    let many: String = (0..65).map(|amount| format!("edge {amount} {amount} 1\n")).collect();
    for (lines, detail, words) in [
        ("", 0, "edge has no band"),
        ("edge 0 9 1\n", 1, "the bands of edge end before 1,099,511,627,776"),
        ("edge 1 9 1\n", 0, "line 3: this band of edge is the first, and starts at 1 and not at 0"),
        ("edge 0 9 1\n# more\nedge 9 20 1\n", 1, "line 5: this band of edge starts at 9, and the one before ends at 9"),
        ("edge 0 9 1\nedge 10 9 1\n", 1, "line 4: this band of edge ends at 9, before its start"),
        ("edge 0 1099511627777 1\n", 0, "line 3: this band of edge ends past 1,099,511,627,776"),
        ("edge 0 9 10001\n", 0, "line 3: this band of edge costs more than 10,000 cents for each unit"),
        (&many, 64, "line 67: edge has more than 64 bands"),
    ] {
        tree.file("an edge", format!("{good}{lines}").as_bytes());
        let complaint = format!("price: part: {SENTENCE}\nprice: an edge: {words}\n");
        tree.run("price", &["an edge", "part"]).is(&format!("refused 18 {detail}\n"), &complaint, 1);
    }
}

#[test]
fn several_files() {
    let tree = tree();
    let headed = format!("==> part <==\n{OVERLAP_PRICE}\n==> a cube <==\n{CUBE_PRICE}");
    tree.run("price", &["tables", "part", "a cube"]).is(&headed, "", 0);
    let cut = format!("price: cut: {CUT_AT_8}\n");
    let three = format!("{headed}\n==> cut <==\nrefused 5 8\n");
    tree.run("price", &["tables", "part", "a cube", "cut"]).is(&three, &cut, 1);
    let complaint = format!("price: missing: no such file\n{cut}");
    tree.run("price", &["tables", "part", "missing", "a cube", "cut"]).is(&three, &complaint, 2);
    tree.shell("heqdanu price tables part - cut", &CUBE).is(&three.replace("a cube", "standard input"), &cut, 1);
    // A faulty table refuses each of them; a mistake is said once, and there is no heading.
    let complaint = format!("price: part: {SENTENCE}\nprice: faulty: {FAULT}\n{cut}");
    tree.run("price", &["faulty", "part", "cut"]).is(
        "==> part <==\nrefused 18 1\n\n==> cut <==\nrefused 5 8\n",
        &complaint,
        1,
    );
    tree.run("price", &["wrong", "part", "cut"]).is("", &format!("price: wrong: {MISTAKE}\n"), 2);
}

#[test]
fn a_line_a_file() {
    let tree = tree();
    let cut = format!("price: cut: {CUT_AT_8}\n");
    let lines = "part\t300\t252\t126\ncut\trefused\t5\t8\na cube\t160\t192\t72\n";
    for words in [&["-t", "tables", "part", "cut", "a cube"][..], &["tables", "--table", "part", "cut", "a cube"]] {
        tree.run("price", words).is(lines, &cut, 1);
    }
    tree.shell("heqdanu price -t tables", &OVERLAP).is("standard input\t300\t252\t126\n", "", 0);
    let complaint = format!("price: part: {SENTENCE}\nprice: faulty: {FAULT}\n");
    tree.run("price", &["-t", "faulty", "part"]).is("part\trefused\t18\t1\n", &complaint, 1);
    tree.run("price", &["-t", "wrong", "part"]).is("", &format!("price: wrong: {MISTAKE}\n"), 2);
    // The name of the tables does not go into the table.
    tree.file("tab\there", EXAMPLE);
    tree.run("price", &["-t", "tab\there", "part"]).is("part\t300\t252\t126\n", "", 0);
}

/// Tables that can be read once only serve all files.
#[test]
fn tables_by_a_pipe() {
    let tree = tree();
    let headed = format!("==> part <==\n{OVERLAP_PRICE}\n==> a cube <==\n{CUBE_PRICE}");
    tree.shell("heqdanu price - part", EXAMPLE).is(OVERLAP_PRICE, "", 0);
    tree.shell("cat tables | heqdanu price - part 'a cube'", &[]).is(&headed, "", 0);
    tree.shell("heqdanu price -- - part 'a cube' <tables", &[]).is(&headed, "", 0);
    tree.shell("mkfifo pipe; cat tables >pipe & heqdanu price pipe part 'a cube'; rm pipe", &[]).is(&headed, "", 0);
    tree.shell("{ head -c 50 tables; sleep 0.3; tail -c +51 tables; } | heqdanu price - part", &[]).is(
        OVERLAP_PRICE,
        "",
        0,
    );
    let complaint = format!("price: part: {SENTENCE}\nprice: standard input: {FAULT}\n");
    tree.shell("heqdanu price - part <faulty", &[]).is("refused 18 1\n", &complaint, 1);
    tree.shell("heqdanu price - part <wrong", &[]).is("", &format!("price: standard input: {MISTAKE}\n"), 2);
    tree.shell("heqdanu price - part <&-", &[]).is("", "price: standard input cannot be read\n", 2);
    let long = "price: standard input: the text is longer than 1,048,575 bytes\n";
    tree.shell("head -c 3000000 /dev/zero | heqdanu price - part", &[]).is("", long, 2);
    // A file that is called so is not standard input.
    tree.file("-", EXAMPLE);
    tree.run("price", &["./-", "part"]).is(OVERLAP_PRICE, "", 0);
    tree.shell("heqdanu price - part </dev/null", &[]).is(
        "refused 18 0\n",
        &format!("price: part: {SENTENCE}\nprice: standard input: volume has no band\n"),
        1,
    );
}

#[test]
fn odd_names() {
    let tree = tree();
    for name in ["--help", "a b", "*", "%s\\n", "$HOME", "5", "line\nend", "tables: x"] {
        tree.file(name, EXAMPLE);
        tree.run("price", &["--", name, "part"]).is(OVERLAP_PRICE, "", 0);
        tree.file(name, b"\nvolume 10\n");
        tree.run("price", &["--", name, "part"]).is("", &format!("price: {name}: {MISTAKE}\n"), 2);
    }
    // Tables are no shot file, and a shot file has no tables.
    let complaint = "price: part: line 1: these bytes are no text\n";
    tree.run("price", &["part", "tables"]).is("", complaint, 2);
}

/// The words are looked at before anything is built.
#[test]
fn words_of_the_command() {
    let tree = Tree::bare(NEVER);
    tree.file("tables", EXAMPLE);
    tree.file("part", &OVERLAP);
    let usage = tree.run("price", &["--help"]).text();
    let misused = |words: &[&str], line: &str| {
        tree.run("price", words).is("", &format!("price: {line}\n{usage}"), 2);
    };
    for words in [&[][..], &["--"], &["-t"]] {
        misused(words, "the first word is TABLES, a file, and there is none");
    }
    for words in [&["-"][..], &["-", "-"], &["-", "part", "-"], &["-t", "-", "-"], &["--", "-"]] {
        misused(words, "standard input is one file, TABLES or a FILE");
    }
    misused(&["tables", "part", "-x"], "there is no option -x");
    for (words, complaint) in [
        (&["missing", "part"][..], "price: missing: no such file\n"),
        (&["", "part"], "price: : no such file\n"),
        (&["..", "part"], "price: ..: is a directory\n"),
        (&["tables", "missing"], "price: missing: no such file\n"),
        (&["missing", "..", "part"], "price: missing: no such file\nprice: ..: is a directory\n"),
        (&["missing"], "price: missing: no such file\n"),
    ] {
        tree.run("price", words).is("", complaint, 2);
    }
    assert_eq!(tree.calls(), "");
    assert!(usage.starts_with("usage: heqdanu price [-t] TABLES [FILE]...\n"), "{usage}");
    for words in
        ["TABLES may be '-' where no FILE is", "1,048,575 bytes", "at most 64", "refused by 18", "-t, or --table"]
    {
        assert!(usage.contains(words), "{words} in {usage}");
    }
}

/// The program is given the file that leads, and what it says of it is said with its name.
#[test]
fn what_the_program_is_given() {
    let tree =
        Tree::standing_in("echo 'price: tables: line 1: odd' >&2; echo \"$# $1\" | tr -d '\\n' >&2; cat >/dev/null");
    tree.file("a", b"in a\n");
    tree.file("shop", b"");
    tree.run("price", &["shop", "a"]).is("", "price: shop: line 1: odd\n", 2);
    tree.replace_program("price", "echo volume $#; printf 'given_%s 1\\n' \"$1\"");
    tree.run("price", &["shop", "a"]).is("volume 1\ngiven_shop 1\n", "", 0);
    tree.replace_program("price", "cat >/dev/null; echo refused 18 3; echo 'price: tables: line 1: odd' >&2");
    let complaint = format!("price: a: {SENTENCE}\nprice: shop: line 1: odd\n");
    tree.run("price", &["shop", "a"]).is("refused 18 3\n", &complaint, 1);
    // What is said of the file beside it is trouble as ever.
    tree.replace_program("price", "echo refused 18 3; echo 'price: tables: odd' >&2; echo 'price: trouble' >&2");
    tree.run("price", &["shop", "a"]).is("", "price: a: trouble\n", 2);
}

/// A socket can be asked for, and not be opened.
#[test]
fn tables_that_do_not_open() {
    let tree = tree();
    let _socket = UnixListener::bind(tree.root().join("../elsewhere/socket")).expect("a socket is made");
    tree.run("price", &["socket", "part"]).is("", "price: socket: cannot be opened\n", 2);
    let nobody = "setpriv --reuid=65534 --regid=65534 --clear-groups";
    let line = format!("chmod 0 tables; user=; [ $(id -u) != 0 ] || user='{nobody}'; $user heqdanu price tables part");
    tree.shell(&line, &[]).is("", "price: tables: cannot be read\n", 2);
}

/// Tables that come by a pipe are kept while the command runs, and go also where a signal ends it.
#[test]
fn nothing_is_left() {
    let tree = Tree::standing_in("sleep 2");
    tree.file("tables", EXAMPLE);
    tree.file("part", &OVERLAP);
    let waits = "while [ -z \"$(ls \"$TMPDIR\")\" ]; do sleep 0.01; done; sleep 0.1; ls \"$TMPDIR\"/*";
    let ended = tree.shell(&format!("heqdanu price - part <tables & {waits}; kill $!; wait $!; echo $?"), &[]);
    // The shell says of its own that it was ended.
    assert_eq!((ended.text().as_str(), ended.status), ("lead\n143\n", 0));
}

/// Help and README name the same form of tables.
#[test]
fn readme_has_the_form() {
    let page = std::fs::read_to_string(repository().join("README.md")).expect("README is there");
    for words in ["volume FIRST LAST CENTS", "1,099,511,627,776", "10,000", "64"] {
        assert!(page.contains(words), "{words}");
    }
}

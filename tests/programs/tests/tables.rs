//! `quote -t`: a line a file, for spreadsheets and for many files at once, at the cost of one process a file.

use oracle::inputs::{self, Random, Size};
use oracle::quote::quote;
use programs::tree::Tree;
use std::collections::BTreeMap;

const OVERLAP: [u8; 15] = [7, 8, 0, 2, 0, 2, 0, 0, 7, 1, 0, 1, 0, 1, 0];
const ARCH: &[u8] = include_bytes!("../../../examples/arch.vox");

#[test]
fn a_line_a_file() {
    let tree = Tree::built();
    tree.file("a part", &OVERLAP);
    tree.file("cut", &OVERLAP[..14]);
    let cut = "quote: cut: at byte 8: the file ends before a field of this map, or is empty\n";
    let line = "a part\t15\t42\t42\t6\t20\n";
    tree.run("quote", &["-t", "a part"]).is(line, "", 0);
    tree.run("quote", &["a part", "--table"]).is(line, "", 0);
    tree.run("quote", &["-t", "cut", "a part"]).is(&format!("cut\trefused\t5\t8\n{line}"), cut, 1);
    tree.run("quote", &["-t", "missing", "a part", ".."]).is(
        line,
        "quote: missing: no such file\nquote: ..: is a directory\n",
        2,
    );
    tree.shell("heqdanu quote -t", &OVERLAP).is("standard input\t15\t42\t42\t6\t20\n", "", 0);
    tree.run("recount", &["-t", "a part"]).is(line, "", 0);
    tree.file("arch", ARCH);
    tree.run("quote_vox", &["-t", "arch"]).is("arch\t69\t142\t82\t6\t16\n", "", 0);
    for command in ["credits", "shots", "listing", "corners_at", "write_shots", "drop", "same"] {
        assert_eq!(tree.run(command, &["-t", "a part"]).status, 2, "{command}");
    }
}

#[test]
fn names_that_are_no_field_of_a_table() {
    let tree = Tree::built();
    for name in ["tab\there", "line\nend"] {
        tree.file(name, &OVERLAP);
        let complaint = format!("quote: {name}: a name with a tab or a line end does not go into a table\n");
        tree.run("quote", &["-t", name]).is("", &complaint, 2);
        assert_eq!(tree.run("quote", &[name]).status, 0);
    }
    tree.file("part", &OVERLAP);
    let ended = tree.run("quote", &["-t", "tab\there", "part"]);
    assert_eq!((ended.text().as_str(), ended.status), ("part\t15\t42\t42\t6\t20\n", 2));
}

/// The line of a file, from the oracle's quote.
fn line(name: &str, file: &[u8]) -> String {
    let quote = quote(file);
    let words: Vec<&str> = quote.split_whitespace().collect();
    let fields = if words[0] == "refused" { words } else { words.chunks(2).map(|pair| pair[1]).collect() };
    format!("{name}\t{}", fields.join("\t"))
}

#[test]
fn many_files_at_once() {
    let tree = Tree::built();
    let mut random = Random::new(92);
    let mut known = BTreeMap::new();
    for number in 0..300 {
        let name = format!("part {number}");
        let file = inputs::file(&mut random, Size { field: 24, shots: 12 });
        tree.file(&name, &file);
        known.insert(name.clone(), line(&name, &file));
    }
    // Several commands share one pipe, or one file, and no line is cut.
    let find = "find . -name 'part *' -printf '%P\\0' | xargs -0 -P 4 -n 7 heqdanu quote -t 2>/dev/null";
    for line in [format!("{find} | cat"), format!("{find} >out; cat out")] {
        let ended = tree.shell(&line, &[]);
        let text = ended.text();
        let mut lines: Vec<&str> = text.lines().collect();
        assert_eq!(lines.len(), known.len());
        lines.sort();
        let mut expected: Vec<&str> = known.values().map(String::as_str).collect();
        expected.sort();
        assert_eq!(lines, expected);
    }
}

/// Each file costs one process, which is the program: it is a child of the command itself, and no tool is started.
#[test]
fn one_process_a_file() {
    let tree = Tree::standing_in("echo $PPID >>\"$TREE/../starts\"; echo volume 8");
    let tools = ["basename", "cat", "cmp", "cut", "dirname", "find", "grep", "head", "mktemp", "od", "readlink", "rm"];
    for tool in tools.into_iter().chain(["sed", "sort", "stat", "tail", "tr", "wc", "awk", "env", "flock", "setsid"]) {
        tree.put_tool(tool, &format!("echo {tool} >>\"$TREE/../tools\"; PATH=/usr/bin:/bin exec {tool} \"$@\""));
    }
    let mut counts = Vec::new();
    for files in [1, 40] {
        let names: Vec<String> = (0..files).map(|number| format!("f{number}")).collect();
        for name in &names {
            tree.file(name, &[]);
        }
        let line = format!("rm -f ../starts ../tools; \"$TREE/heqdanu\" quote -t {} >/dev/null", names.join(" "));
        tree.shell(&line, &[]).is("", "", 0);
        let read = |name: &str| std::fs::read_to_string(tree.root().join("..").join(name)).unwrap_or_default();
        let starts = read("starts");
        let mut parents: Vec<&str> = starts.lines().collect();
        assert_eq!(parents.len(), files);
        parents.dedup();
        assert_eq!(parents.len(), 1, "one parent: the command");
        counts.push(read("tools"));
    }
    assert_eq!(counts[0], counts[1], "the tools that are started do not depend on how many files there are");
}

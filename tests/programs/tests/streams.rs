//! Standard input that cannot be read, standard output that cannot be written, and words that a program does not take: a
//! clear line, and no fault.

use programs::run::with;

/// Each program with an input and, where it takes one, a word, for which it prints something.
const INPUTS: [(&str, &str, &[u8]); 10] = [
    ("quote", "", &[7, 8, 0, 2, 0, 2, 0, 0]),
    ("quote_vox", "", include_bytes!("../../../examples/arch.vox")),
    ("recount", "", &[7, 8, 0, 2, 0, 2, 0, 0]),
    ("price", concat!("'", env!("CARGO_MANIFEST_DIR"), "/../../examples/tables.txt'"), &[7, 8, 0, 2, 0, 2, 0, 0]),
    ("shots", "", &[7, 8, 0, 2, 0, 2, 0, 0]),
    ("write_shots", "", b"shot 1 2 3\n"),
    ("vox_shots", "", include_bytes!("../../../examples/arch.vox")),
    ("listing", "", &[7, 8, 0, 2, 0, 2, 0, 0]),
    ("corners_at", "513", &[1, 2, 3, 4, 5, 6, 7]),
    ("credits", "", &[7, 8, 0, 2, 0, 2, 0, 0]),
];

/// That every program prints nothing and says what it cannot do.
fn complains(redirections: [&str; 2], words: &str) {
    for (name, word, input) in INPUTS {
        assert_ne!(with(name, word, input).output, [], "{name}");
        for redirection in redirections {
            let told = with(name, &format!("{word} {redirection}"), input);
            assert_eq!(told.text(), "", "{name} {redirection}");
            assert_eq!(told.complaint, format!("{name}: {words}\n"), "{name} {redirection}");
        }
    }
}

#[test]
fn no_standard_output() {
    complains([">&-", ">/dev/full"], "standard output cannot be written");
}

#[test]
fn no_standard_input() {
    complains(["<&-", "</"], "standard input cannot be read");
}

#[test]
fn neither_output_nor_error() {
    for (name, word, input) in INPUTS {
        let told = with(name, &format!("{word} >&- 2>&-"), input);
        assert_eq!(told.text() + &told.complaint, "", "{name}");
    }
}

#[test]
fn the_others_take_no_words() {
    for (name, _, input) in INPUTS.into_iter().filter(|(_, word, _)| word.is_empty()) {
        for words in ["--help", "file", "''", "-", "a b"] {
            let told = with(name, words, input);
            assert_eq!(told.text(), "", "{name} {words}");
            assert_eq!(
                told.complaint,
                format!("{name}: takes no arguments: it reads standard input\n"),
                "{name} {words}"
            );
        }
    }
}

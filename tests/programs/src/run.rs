//! Running a program on bytes, at once, in pieces, or with something wrong at its standard input or output.

use std::fs::File;
use std::io::Write;
use std::path::PathBuf;
use std::process::{Command, Output, Stdio};
use std::thread;

/// What a program wrote.
#[derive(Debug, PartialEq, Eq)]
pub struct Told {
    pub output: Vec<u8>,
    pub complaint: String,
}

impl Told {
    /// The output as text, for programs that print text.
    pub fn text(&self) -> String {
        String::from_utf8(self.output.clone()).expect("the program prints text")
    }

    /// That something was printed and nothing complained about.
    pub fn good(self) -> Vec<u8> {
        assert_eq!(self.complaint, "", "a complaint");
        self.output
    }
}

/// Where a program is: in target/bin, or in the folder that HEQDANU_BIN_DIR names.
pub fn program(name: &str) -> PathBuf {
    let folder = std::env::var("HEQDANU_BIN_DIR")
        .unwrap_or_else(|_| concat!(env!("CARGO_MANIFEST_DIR"), "/../../target/bin").into());
    PathBuf::from(folder).join(name)
}

fn told(name: &str, output: Output) -> Told {
    assert!(output.status.success(), "{name} ended with {}", output.status);
    Told { output: output.stdout, complaint: String::from_utf8_lossy(&output.stderr).into_owned() }
}

/// The program, given these words, on an input that reaches it in pieces of the given length.
pub fn given(name: &str, words: &[&str], input: &[u8], piece: usize) -> Told {
    let mut child = Command::new(program(name))
        .args(words)
        .stdin(Stdio::piped())
        .stdout(Stdio::piped())
        .stderr(Stdio::piped())
        .spawn()
        .unwrap_or_else(|error| panic!("{name}: {error}"));
    let mut pipe = child.stdin.take().expect("standard input is a pipe");
    let input = input.to_vec();
    // The program may stop reading before the input ends; what it prints decides.
    let writer = thread::spawn(move || {
        for part in input.chunks(piece.max(1)) {
            if pipe.write_all(part).and_then(|()| pipe.flush()).is_err() {
                break;
            }
            thread::yield_now();
        }
    });
    let output = child.wait_with_output().expect("the program ends");
    writer.join().expect("the writer ends");
    told(name, output)
}

/// The program on an input that reaches it in pieces of the given length.
pub fn in_pieces(name: &str, input: &[u8], piece: usize) -> Told {
    given(name, &[], input, piece)
}

/// The program on an input that is there at once.
pub fn on(name: &str, input: &[u8]) -> Told {
    in_pieces(name, input, input.len())
}

/// The program with its standard streams put elsewhere by the shell: `redirection` is as `>&-` or `</`, after the words
/// that the program is given.
pub fn with(name: &str, redirection: &str, input: &[u8]) -> Told {
    let path = std::env::temp_dir().join(format!("heqdanu-{name}-{}-{:?}", std::process::id(), thread::current().id()));
    std::fs::write(&path, input).expect("the input is written");
    let output = Command::new("sh")
        .arg("-c")
        .arg(format!("exec \"$0\" {redirection}"))
        .arg(program(name))
        .stdin(File::open(&path).expect("the input is there"))
        .output()
        .expect("the shell runs");
    std::fs::remove_file(&path).expect("the input is removed");
    told(name, output)
}

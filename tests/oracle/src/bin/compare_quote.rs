//! Compares the quoting program with the oracle: `compare_quote PROGRAM [FILES]`.
//!
//! Runs PROGRAM on FILES (3,000 unless said) generated shot files: whole ones, longer ones, cut ones, ones with flipped
//! bits, random bytes, and files about the largest number of shots. Every third one goes through a pipe in pieces, the
//! others are written at once. What the program prints must be what the oracle prints, byte for byte, and it must end
//! with success. The first difference is printed with its file in hexadecimal and ends the run.

use oracle::inputs::{self, Random, Size};
use oracle::met::Met;
use oracle::quote;
use std::io::Write;
use std::process::{exit, Command, Stdio};
use std::thread;

fn main() {
    let arguments: Vec<String> = std::env::args().collect();
    let (program, files) = match &arguments[..] {
        [_, program] => (program, 3000),
        [_, program, files] => (program, files.parse().unwrap_or_else(|_| usage())),
        _ => usage(),
    };
    let mut random = Random::new(6);
    let mut met = Met::default();
    for number in 0..files {
        let file = shot_file(&mut random, number);
        let expected = quote::quote(&file);
        let given = run(program, &file, if number % 3 == 0 { random.within(1, 900) } else { file.len().max(1) });
        if given != expected {
            let hex: Vec<String> = file.iter().map(|byte| format!("{byte:02x}")).collect();
            println!("file {number} differs\nprogram:\n{given}oracle:\n{expected}shot file: {}", hex.join(" "));
            exit(1);
        }
        met.count(refusal(&expected));
    }
    println!("{files} files agree: {met}");
}

fn usage() -> ! {
    println!("usage: compare_quote PROGRAM [FILES]");
    exit(2)
}

/// The number of the refusal that is printed, 0 where there is none.
fn refusal(printed: &str) -> u64 {
    let number = printed.strip_prefix("refused ").and_then(|words| words.split(' ').next()).unwrap_or("0");
    number.parse().expect("a refusal has a number")
}

/// Small fields mostly; now and then a large one, and a crowded file.
fn shot_file(random: &mut Random, number: usize) -> Vec<u8> {
    match number % 50 {
        0 => inputs::crowded_file(random),
        1 => inputs::file(random, Size { field: 1024, shots: 12 }),
        2 | 3 => inputs::file(random, Size { field: 200, shots: 200 }),
        _ => inputs::file(random, Size { field: 24, shots: 30 }),
    }
}

/// What the program prints for a file that reaches its standard input in pieces of the given length.
fn run(program: &str, file: &[u8], piece: usize) -> String {
    let child = Command::new(program).stdin(Stdio::piped()).stdout(Stdio::piped()).spawn();
    let mut child = child.unwrap_or_else(|error| {
        println!("{program}: {error}");
        exit(2)
    });
    let mut input = child.stdin.take().expect("standard input is a pipe");
    let file = file.to_vec();
    // The program may stop reading before the file ends; what it prints decides.
    let writer = thread::spawn(move || {
        for part in file.chunks(piece) {
            if input.write_all(part).and_then(|()| input.flush()).is_err() {
                break;
            }
            thread::yield_now();
        }
    });
    let output = child.wait_with_output().expect("the program ends");
    writer.join().expect("the writer ends");
    let mut text = String::from_utf8_lossy(&output.stdout).into_owned();
    if !output.status.success() {
        text.push_str(&format!("({})\n", output.status));
    }
    text
}

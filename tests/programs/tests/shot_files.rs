//! Shot files through `quote`, `recount` and `shots`: known ones, generated ones, and what printers send when they fail.

use oracle::inputs::{self, Random, Size};
use oracle::quote;
use oracle::shotfile::{shortest, ABSENT};
use programs::run::{in_pieces, on};
use programs::text;

const OVERLAP: [u8; 15] = [7, 8, 0, 2, 0, 2, 0, 0, 7, 1, 0, 1, 0, 1, 0];
/// The quote of one cube of edge 2.
const CUBE_QUOTE: &str = "volume 8\narea 24\nedge 24\ninner 0\ncorners 8\n";
const READERS: [&str; 3] = ["quote", "recount", "shots"];

/// What a program that reads shot files must print.
fn expected(name: &str, input: &[u8]) -> String {
    if name == "shots" {
        text::shots(input)
    } else {
        quote::quote(input)
    }
}

#[test]
fn the_request_example() {
    for name in ["quote", "recount"] {
        assert_eq!(on(name, &OVERLAP).text(), "volume 15\narea 42\nedge 42\ninner 6\ncorners 20\n", "{name}");
    }
    assert_eq!(
        on("shots", &OVERLAP).text(),
        "field 8\nedge 2\ngrid 2\nshot 0 0 0 # number 0, byte 7\nshot 1 1 1 # number 1, byte 8\n"
    );
}

#[test]
fn an_empty_input() {
    assert_eq!(on("quote", &[]).text(), "refused 5 0\n");
    assert_eq!(on("recount", &[]).text(), "refused 5 0\n");
    assert_eq!(on("shots", &[]).text(), "refused 5 at byte 0: the file ends before a field of this map, or is empty\n");
}

#[test]
fn files_cut_at_every_byte() {
    for length in 0..=OVERLAP.len() {
        for name in READERS {
            assert_eq!(
                on(name, &OVERLAP[..length]).text(),
                expected(name, &OVERLAP[..length]),
                "{name}, {length} bytes"
            );
        }
    }
}

#[test]
fn pieces_of_any_length() {
    for piece in 1..=OVERLAP.len() {
        for name in READERS {
            assert_eq!(in_pieces(name, &OVERLAP, piece).text(), expected(name, &OVERLAP), "{name}, pieces of {piece}");
        }
    }
}

#[test]
fn as_many_shots_as_allowed_and_one_more() {
    let mut file = vec![7, 8, 0, 2, 0, 1, 0];
    file.resize(7 + 4096, 0);
    assert_eq!(on("quote", &file).text(), CUBE_QUOTE);
    assert_eq!(on("shots", &file).text(), text::shots(&file));
    file.push(0);
    assert_eq!(on("quote", &file).text(), "refused 2 4103\n");
    assert_eq!(on("recount", &file).text(), "refused 2 4103\n");
    assert!(on("shots", &file).text().ends_with("refused 2 at byte 4103: there are more than 4,096 shots\n"));
}

#[test]
fn a_grid_that_is_left_out_is_16() {
    // It does not divide a field side of 8; with 8 named the file is quoted.
    let no_grid = [3, 8, 0, 2, 0, 0];
    for name in ["quote", "recount"] {
        assert_eq!(on(name, &no_grid).text(), "refused 8 0\n", "{name}");
        assert_eq!(on(name, &[7, 8, 0, 2, 0, 8, 0, 0]).text(), CUBE_QUOTE, "{name}");
    }
    assert_eq!(
        on("shots", &no_grid).text(),
        "field 8\nedge 2\ngrid 16 # default\nshot 0 0 0 # number 0, byte 5\n\
         refused 8: the grid size is not 1 to 64, or does not divide the field side\n"
    );
    // Shots of edge 512 at (1,1,1) touch 9 intervals of 16 on each axis, and 5 of 8; there are 16,384 work entries.
    let large = |header: &[u8], shots: usize| [header, &[7, 1, 0, 1, 0, 1, 0], &vec![0; shots - 1]].concat();
    let cube = "volume 134217728\narea 1572864\nedge 6144\ninner 0\ncorners 8\n";
    for (header, shots, told) in [
        (&[2, 0, 2][..], 16, cube),
        (&[2, 0, 2], 17, "refused 10 16490\n"),
        (&[6, 0, 2, 8, 0], 17, cube),
        (&[6, 0, 2, 8, 0], 126, cube),
        (&[6, 0, 2, 8, 0], 127, "refused 10 16388\n"),
    ] {
        assert_eq!(on("quote", &large(header, shots)).text(), told, "{shots} shots");
    }
}

#[test]
fn more_bytes_than_are_read() {
    // The longest list, then much more: the byte after the list shows that there are too many shots.
    let mut file = vec![7, 255, 3, 15, 0, 11, 0];
    for shot in 0..4096u16 {
        file.push(7);
        for value in [shot % 1000, shot % 999, shot % 998] {
            file.extend((value + 1).to_le_bytes());
        }
    }
    assert_eq!(file.len(), 28_679);
    file.resize(100_000, 0);
    for name in READERS {
        assert_eq!(on(name, &file).text(), expected(name, &file), "{name}");
    }
    assert_eq!(on("quote", &file).text(), "refused 2 28679\n");
}

/// A file that leaves out the grid size, in a field that 16 divides: about half of their indexes need more entries than
/// there are.
fn no_grid_file(random: &mut Random) -> Vec<u8> {
    let field = 16 * random.within(1, 32);
    let edge = random.within(field / 4, field);
    let mut list = inputs::accepted_with(random, field, edge, 40);
    list.grid = ABSENT[2];
    shortest(&list)
}

#[test]
fn generated_files() {
    let mut random = Random::new(41);
    let (mut refused, mut needless) = (0, 0);
    // Of the files whose header leaves out the grid size: quoted, and refused by 8 and by 10.
    let mut no_grid = [0; 3];
    for number in 0..640 {
        let (file, names) = match number % 20 {
            0 => (inputs::file(&mut random, Size { field: 1024, shots: 40 }), &READERS[2..]),
            10 => (no_grid_file(&mut random), &["quote", "shots"][..]),
            _ => (inputs::file(&mut random, Size { field: 16, shots: 20 }), &READERS[..]),
        };
        let piece = if number % 3 == 0 { random.within(1, 40) } else { file.len() };
        for name in names {
            assert_eq!(in_pieces(name, &file, piece).text(), expected(name, &file), "{name} on {file:02x?}");
        }
        let told = quote::quote(&file);
        refused += usize::from(told.starts_with("refused"));
        needless += usize::from(told.starts_with("refused 17 "));
        if file.first().is_some_and(|map| map & 4 == 0) {
            for (count, start) in no_grid.iter_mut().zip(["volume", "refused 8 ", "refused 10 "]) {
                *count += usize::from(told.starts_with(start));
            }
        }
    }
    assert!((50..550).contains(&refused), "{refused} of the files are refused");
    assert!(needless >= 15, "{needless} of the files have a needless field");
    assert!(no_grid.into_iter().all(|count| count >= 3), "{no_grid:?} of the files without a grid size");
}

#[test]
fn random_bytes() {
    let mut random = Random::new(42);
    for _ in 0..300 {
        let length = random.within(0, 60);
        let file: Vec<u8> = (0..length).map(|_| any_byte(&mut random)).collect();
        for name in ["quote", "shots"] {
            assert_eq!(on(name, &file).text(), expected(name, &file), "{name} on {file:02x?}");
        }
    }
}

/// Mostly a small byte, which is a map of some meaning.
fn any_byte(random: &mut Random) -> u8 {
    let most = if random.once_in(8) { 255 } else { 9 };
    random.within(0, most) as u8
}

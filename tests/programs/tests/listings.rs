//! Shot files through `listing`, against the oracle's listing: known and generated files, cut ones and random bytes.

use oracle::inputs::{self, Random, Size};
use programs::listing::listing;
use programs::run::{in_pieces, on};

const OVERLAP: [u8; 15] = [7, 8, 0, 2, 0, 2, 0, 0, 7, 1, 0, 1, 0, 1, 0];

/// That the program writes the oracle's listing, or complains as the oracle does.
fn holds(file: &[u8], piece: usize) {
    assert_eq!(in_pieces("listing", file, piece), listing(file), "{file:02x?}");
}

#[test]
fn the_request_example() {
    let bytes = on("listing", &OVERLAP).good();
    assert_eq!(bytes.len(), 7 * 20);
    assert_eq!((&bytes[..7], &bytes[7 * 19..]), (&[0, 0, 0, 0, 0, 0, 128][..], &[3, 0, 3, 0, 3, 0, 1][..]));
}

#[test]
fn a_part_of_nothing() {
    assert_eq!(on("listing", &[0]).good(), []);
}

#[test]
fn every_example() {
    let folder = concat!(env!("CARGO_MANIFEST_DIR"), "/../../examples");
    let mut files = 0;
    for entry in std::fs::read_dir(folder).expect("the examples are there") {
        let file = std::fs::read(entry.expect("an example").path()).expect("an example is read");
        holds(&file, file.len());
        files += 1;
    }
    assert!(files >= 9);
}

#[test]
fn refusals_with_their_sentences() {
    let refused = |file: &[u8], complaint: &str| {
        let told = on("listing", file);
        assert_eq!((&told.output[..], told.complaint.as_str()), (&[][..], complaint));
    };
    refused(&[], "listing: refused 5 0: the file ends before a field of this map, or is empty\n");
    refused(&[0, 8], "listing: refused 4 1: this map has a bit that has no meaning\n");
    refused(&[1, 0, 0], "listing: refused 6 0: the field side is not 1 to 1,024\n");
    refused(
        &[3, 8, 0, 2, 0, 0],
        "listing: refused 8 0: the grid size is not 1 to 64, or does not divide the field side\n",
    );
    refused(&[7, 8, 0, 2, 0, 2, 0, 0, 1, 7, 0], "listing: refused 9 1: a shot leaves the field\n");
    refused(&[4, 64, 0], "listing: refused 10 262145: the work slice is too short for the grid index\n");
    refused(&[0; 4098], "listing: refused 2 4097: there are more than 4,096 shots\n");
    refused(&[0, 0, 2, 0, 0], "listing: refused 17 2: a field of this map says what its absence would mean\n");
}

#[test]
fn one_listing_whatever_the_grid() {
    // A grid of 16, left out, and others.
    let shots = [7, 60, 0, 120, 0, 200, 3, 1, 70, 0, 0, 4, 190, 3, 2, 56, 1];
    let file = |header: &[u8]| [header, &shots].concat();
    let bytes = on("listing", &file(&[0])).good();
    assert_eq!((bytes.len() % 7, bytes.len() > 7 * 16), (0, true));
    for header in [&[0][..], &[4, 1, 0], &[4, 2, 0], &[4, 4, 0], &[4, 8, 0]] {
        holds(&file(header), 3);
        assert_eq!(on("listing", &file(header)).good(), bytes, "{header:?}");
    }
}

#[test]
fn files_cut_at_every_byte_and_in_pieces() {
    for length in 0..=OVERLAP.len() {
        holds(&OVERLAP[..length], length);
        holds(&OVERLAP, length);
    }
}

#[test]
fn generated_files() {
    let mut random = Random::new(51);
    let mut refused = 0;
    for number in 0..400 {
        let size = match number % 30 {
            0 => Size { field: 1024, shots: 60 },
            1 => Size { field: 300, shots: 500 },
            _ => Size { field: 24, shots: 30 },
        };
        let file = if number % 100 == 2 { inputs::crowded_file(&mut random) } else { inputs::file(&mut random, size) };
        let piece = if number % 3 == 0 { random.within(1, 40) } else { file.len() };
        holds(&file, piece);
        refused += usize::from(!listing(&file).complaint.is_empty());
    }
    assert!((40..360).contains(&refused), "{refused} of the files are refused");
}

#[test]
fn random_bytes() {
    let mut random = Random::new(52);
    for _ in 0..300 {
        let most = if random.once_in(8) { 255 } else { 9 };
        let file: Vec<u8> = (0..random.within(0, 60)).map(|_| random.within(0, most) as u8).collect();
        holds(&file, file.len());
    }
}

#[test]
fn a_list_with_many_corners() {
    let mut file = vec![6, 1, 0, 8, 0];
    for shot in 0..4096u16 {
        file.push(7);
        for value in [shot / 256, shot / 16 % 16, shot % 16] {
            file.extend((64 * value + shot % 7 + 1).to_le_bytes());
        }
    }
    assert_eq!(listing(&file).output.len(), 7 * 8 * 4096);
    holds(&file, file.len());
}

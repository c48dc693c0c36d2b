//! Shot files through `credits`, against the oracle's credits: known and generated files, refused ones, and as long as
//! can be.

use oracle::inputs::{self, Random, Size};
use oracle::list::List;
use oracle::quote::{credits, BYTES};
use oracle::shotfile;
use programs::records::longest;
use programs::run::{in_pieces, on};
use std::fs;

const OVERLAP: [u8; 15] = [7, 8, 0, 2, 0, 2, 0, 0, 7, 1, 0, 1, 0, 1, 0];
const EXAMPLES: &str = concat!(env!("CARGO_MANIFEST_DIR"), "/../../examples");

/// What the program prints, which complains of nothing.
fn told(file: &[u8]) -> String {
    String::from_utf8(on("credits", file).good()).expect("the program prints text")
}

/// That the program prints what the oracle prints, for an input in pieces of the given length.
fn holds(file: &[u8], piece: usize) {
    let told = in_pieces("credits", file, piece);
    assert_eq!((told.text(), told.complaint.as_str()), (credits(file), ""), "{file:02x?}");
}

/// The second number of each line.
fn column(lines: &str) -> Vec<u64> {
    let credit = |line: &str| line.split_once(' ').and_then(|(_, credit)| credit.parse().ok());
    lines.lines().map(|line| credit(line).unwrap_or_else(|| panic!("the line {line}"))).collect()
}

#[test]
fn known_files() {
    assert_eq!(told(&OVERLAP), "0 8\n1 7\n");
    // The same shot again, and a shot within two others.
    assert_eq!(told(&[7, 8, 0, 2, 0, 2, 0, 0, 0]), "0 8\n1 0\n");
    assert_eq!(told(&[7, 8, 0, 2, 0, 2, 0, 0, 1, 2, 0, 1, 1, 0]), "0 8\n1 8\n2 0\n");
    assert_eq!(told(&[0, 0]), "0 4096\n");
}

#[test]
fn a_list_without_shots() {
    assert_eq!(told(&[0]), "");
    assert_eq!(told(&OVERLAP[..7]), "");
}

#[test]
fn every_example() {
    let shell: String = (0..26).map(|shot| format!("{shot} 1\n")).collect();
    let known = [
        ("one_cube.shots", "0 8\n"),
        ("face_to_face.shots", "0 8\n1 8\n"),
        ("edge_to_edge.shots", "0 8\n1 8\n"),
        ("corner_to_corner.shots", "0 8\n1 8\n"),
        ("overlap.shots", "0 8\n1 7\n"),
        ("overlap_again.shots", "0 8\n1 7\n"),
        ("shell.shots", &shell),
        ("whole_field.shots", "0 1073741824\n"),
        ("outside.shots", "refused 9 1\n"),
        ("cut_off.shots", "refused 5 8\n"),
        ("no_grid.shots", "refused 8 0\n"),
        ("needless.shots", "refused 17 7\n"),
        ("arch.vox", "refused 4 0\n"),
        ("make_arch", "refused 4 0\n"),
        ("audit.py", "refused 4 0\n"),
        ("tables.txt", "refused 4 0\n"),
    ];
    for (name, lines) in known {
        let file = fs::read(format!("{EXAMPLES}/{name}")).unwrap_or_else(|error| panic!("{name}: {error}"));
        assert_eq!(told(&file), lines, "{name}");
    }
    assert_eq!(fs::read_dir(EXAMPLES).expect("the examples are there").count(), known.len());
}

#[test]
fn refusals_as_quote_prints_them() {
    let crowded = [vec![7, 8, 0, 2, 0, 1, 0], vec![0; 4097]].concat();
    for (file, line) in [
        (&[][..], "refused 5 0\n"),
        (&[0, 8], "refused 4 1\n"),
        (&[0, 0, 1, 5], "refused 5 2\n"),
        (&[1, 0, 0], "refused 6 0\n"),
        (&[1, 8, 0, 0], "refused 7 0\n"),
        (&[3, 8, 0, 2, 0, 0], "refused 8 0\n"),
        (&[7, 8, 0, 2, 0, 2, 0, 0, 1, 7, 0], "refused 9 1\n"),
        (&[4, 64, 0], "refused 10 262145\n"),
        (&crowded, "refused 2 4103\n"),
        (&[0, 0, 2, 0, 0], "refused 17 2\n"),
    ] {
        assert_eq!(told(file), line);
        assert_eq!(on("quote", file).text(), line);
    }
}

#[test]
fn files_cut_at_every_byte_and_in_pieces() {
    let whole = [&OVERLAP[..], &[0, 5, 6, 0, 3, 0, 2, 0, 0]].concat();
    for length in 0..=whole.len() {
        holds(&whole[..length], length);
        holds(&whole, length);
    }
}

#[test]
fn as_many_bytes_as_are_read_and_more() {
    let mut file = longest(&mut Random::new(81));
    assert_eq!(file.len(), BYTES - 1);
    for piece in [file.len(), 4096, 999] {
        holds(&file, piece);
    }
    assert_eq!(told(&file).lines().count(), 4096);
    // The byte after the list shows that there are too many shots; what follows it is not looked at.
    for (byte, length) in [(0, BYTES), (255, BYTES), (0, BYTES + 1), (7, 100_000), (255, 1_000_000)] {
        file.resize(BYTES - 1, 0);
        file.resize(length, byte);
        assert_eq!(told(&file), "refused 2 28679\n", "{length} bytes");
        assert_eq!(in_pieces("credits", &file, 10_007).text(), "refused 2 28679\n", "{length} bytes");
    }
}

#[test]
fn as_many_shots_as_allowed() {
    let mut file = vec![7, 8, 0, 2, 0, 1, 0];
    file.resize(7 + 4096, 0);
    let lines: String = (0..4096).map(|shot| format!("{shot} {}\n", if shot == 0 { 8 } else { 0 })).collect();
    assert_eq!(told(&file), lines);
    file.pop();
    assert_eq!(told(&file), lines[..lines.len() - "4095 0\n".len()]);
    let mut random = Random::new(82);
    let (mut answered, mut crowded) = (0, 0);
    for _ in 0..40 {
        let file = inputs::crowded_file(&mut random);
        holds(&file, 5000);
        let lines = credits(&file);
        answered += usize::from(lines.lines().count() > 4000);
        crowded += usize::from(lines.starts_with("refused 2 "));
    }
    assert!(answered > 1 && crowded > 11, "{answered} of the files are answered, {crowded} have too many shots");
}

/// Credits sum to the volume that `quote` prints.
#[test]
fn generated_files() {
    let mut random = Random::new(83);
    let mut refused = 0;
    for number in 0..500 {
        let size = if number % 25 == 0 { Size { field: 120, shots: 60 } } else { Size { field: 24, shots: 30 } };
        let file = inputs::file(&mut random, size);
        holds(&file, if number % 3 == 0 { random.within(1, 40) } else { file.len() });
        let (lines, quote) = (told(&file), on("quote", &file).text());
        if quote.starts_with("refused") {
            assert_eq!(lines, quote, "{file:02x?}");
            refused += 1;
        } else {
            let volume = quote.lines().next().and_then(|line| line.strip_prefix("volume ")).map(str::to_string);
            assert_eq!(Some(column(&lines).iter().sum::<u64>().to_string()), volume, "{file:02x?}");
        }
    }
    assert!((50..450).contains(&refused), "{refused} of the files are refused");
}

#[test]
fn random_bytes() {
    let mut random = Random::new(84);
    for _ in 0..300 {
        let most = if random.once_in(8) { 255 } else { 9 };
        let file: Vec<u8> = (0..random.within(0, 60)).map(|_| random.within(0, most) as u8).collect();
        holds(&file, file.len());
    }
}

/// As planners do: the shots of credit 0 are taken out of the text, and what is written cures the same cells.
#[test]
fn shots_of_credit_0_taken_out() {
    let mut random = Random::new(85);
    let mut taken = 0;
    for _ in 0..40 {
        let mut list: List = inputs::accepted(&mut random, Size { field: 12, shots: 30 });
        inputs::coarsen(&mut list, 10_000);
        let file = shotfile::shortest(&list);
        let credits = column(&told(&file));
        let text = on("shots", &file).text();
        let kept = |line: &&str| !(0..credits.len()).any(|n| credits[n] == 0 && line.contains(&format!("number {n},")));
        let fewer: String = text.lines().filter(kept).map(|line| format!("{line}\n")).collect();
        let without = on("write_shots", fewer.as_bytes()).good();
        assert_eq!(on("listing", &without).good(), on("listing", &file).good(), "{list:?}");
        assert_eq!(column(&told(&without)), credits.iter().copied().filter(|n| *n > 0).collect::<Vec<_>>(), "{list:?}");
        taken += usize::from(without.len() < file.len());
    }
    assert!(taken > 15, "{taken} lists have a shot of credit 0");
}

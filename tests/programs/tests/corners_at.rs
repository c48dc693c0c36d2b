//! Listings through `corners_at`, which prints the corners at one x: known listings, those of generated lists against the
//! oracle's corners, damaged ones, and as long as can be; and the command, its words and its status.

use oracle::cells::Cells;
use oracle::corners::{corners, Corner};
use oracle::inputs::{self, Random, Size};
use oracle::shotfile::shortest;
use programs::listing::ROOM;
use programs::run::{given, on, Told};
use programs::tree::{Ended, Tree, NEVER};

const OVERLAP: [u8; 15] = [7, 8, 0, 2, 0, 2, 0, 0, 7, 1, 0, 1, 0, 1, 0];
const OVERLAP_AT_1: &str = "1 1 2 213\n1 1 3 64\n1 2 1 179\n1 2 2 241\n1 3 1 32\n1 3 3 16\n";
const TAKES: &str =
    "corners_at: takes one word, the x, a number up to 65,535, and reads a listing from standard input\n";
const TOO_LONG: &str = "corners_at: the listing has more than 131,072 records\n";
const NOTE: &str = "corners_at: note: the listing ends within a record, which is passed over\n";

/// A line for each corner.
fn lines(corners: impl Iterator<Item = Corner>) -> String {
    corners.map(|Corner { at: [x, y, z], pattern }| format!("{x} {y} {z} {pattern}\n")).collect()
}

/// What the program writes, by the request: of the whole records, the first unbroken run of those that have that x.
fn expected(x: u16, listing: &[u8]) -> Told {
    if listing.len() / 7 > ROOM {
        return Told { output: Vec::new(), complaint: TOO_LONG.into() };
    }
    let records = listing.chunks_exact(7).map(Corner::from_bytes);
    let run = records.skip_while(|corner| corner.at[0] != x).take_while(|corner| corner.at[0] == x);
    let complaint = if listing.len() % 7 == 0 { "" } else { NOTE };
    Told { output: lines(run).into_bytes(), complaint: complaint.into() }
}

/// What the program writes for an x and a listing that is there at once.
fn at(x: u16, listing: &[u8]) -> Told {
    given("corners_at", &[&x.to_string()], listing, listing.len())
}

/// That the program writes what it should, for a listing in pieces of the given length.
fn holds(x: u16, listing: &[u8], piece: usize) {
    let told = given("corners_at", &[&x.to_string()], listing, piece);
    assert!(told == expected(x, listing), "x {x} of {} bytes, {:02x?} …", listing.len(), listing.chunks(700).next());
}

/// The bytes of records with these x, told apart by their y.
fn records(xs: &[u16]) -> Vec<u8> {
    let record = |(y, x): (usize, &u16)| Corner { at: [*x, y as u16, 7], pattern: 9 }.bytes();
    xs.iter().enumerate().flat_map(record).collect()
}

#[test]
fn the_first_unbroken_run() {
    let listing = records(&[5, 5, 2, 2, 5]);
    let told = |x| String::from_utf8(at(x, &listing).good()).expect("the program prints text");
    assert_eq!(told(2), "2 2 7 9\n2 3 7 9\n");
    assert_eq!(told(5), "5 0 7 9\n5 1 7 9\n");
    for x in [0, 1, 3, 4, 6, 65535] {
        assert_eq!(told(x), "");
    }
    // Neither a larger x nor the middle says where to look.
    let listing = records(&[9, 1, 8, 0, 9, 3, 3, 1, 0, 3]);
    for x in 0..=10 {
        holds(x, &listing, listing.len());
    }
    assert_eq!(at(3, &listing).text(), "3 5 7 9\n3 6 7 9\n");
    assert_eq!(at(0, &listing).text(), "0 3 7 9\n");
}

#[test]
fn the_overlapping_cubes() {
    let listing = on("listing", &OVERLAP).good();
    let told = [0, 1, 2, 3].map(|x| String::from_utf8(at(x, &listing).good()).expect("the program prints text"));
    assert_eq!(told[0], "0 0 0 128\n0 0 2 64\n0 2 0 32\n0 2 2 16\n");
    assert_eq!(told[1], OVERLAP_AT_1);
    assert_eq!(told.map(|text| text.lines().count()), [4, 6, 6, 4]);
    for x in [4, 8, 256, 65535] {
        assert_eq!(at(x, &listing).good(), []);
    }
}

#[test]
fn a_listing_of_nothing() {
    for x in [0, 1, 65535] {
        assert_eq!(at(x, &[]).good(), []);
    }
}

/// An x has two bytes, the least first.
#[test]
fn large_numbers() {
    let listing = records(&[0, 1, 256, 257, 1023, 1024, 1025, 4096, 255, 65280, 32768, 32767, 65534, 65535, 65535]);
    for x in [0, 1, 2, 255, 256, 257, 1023, 1024, 1025, 1026, 4096, 32767, 32768, 65280, 65534, 65535] {
        holds(x, &listing, listing.len());
    }
    assert_eq!(at(65535, &listing).text(), "65535 13 7 9\n65535 14 7 9\n");
    let most = Corner { at: [65535; 3], pattern: 255 }.bytes();
    assert_eq!(at(65535, &most).text(), "65535 65535 65535 255\n");
}

/// Of a listing that `listing` made, the corners of the part that have that x; all x together give the listing.
#[test]
fn generated_lists() {
    let mut random = Random::new(61);
    let mut planes = 0;
    for number in 0..60 {
        let size = if number % 10 == 0 { Size { field: 200, shots: 60 } } else { Size { field: 16, shots: 20 } };
        let mut list = inputs::accepted(&mut random, size);
        inputs::coarsen(&mut list, 10_000);
        let listing = on("listing", &shortest(&list)).good();
        let part = corners(&Cells::of(&list));
        let mut all = String::new();
        for x in 0..=list.field + 1 {
            let text = String::from_utf8(at(x, &listing).good()).expect("the program prints text");
            assert_eq!(text, lines(part.iter().copied().filter(|corner| corner.at[0] == x)), "x {x} of {list:?}");
            planes += usize::from(!text.is_empty());
            all += &text;
        }
        assert_eq!(all, lines(part.into_iter()));
    }
    assert!(planes > 200, "{planes} planes have a corner");
}

/// Records count in sevens from the first byte, and what is left at the end is passed over.
#[test]
fn listings_cut_anywhere() {
    let listing = on("listing", &OVERLAP).good();
    for length in 0..=listing.len() {
        for x in 0..4 {
            holds(x, &listing[..length], length);
        }
        // Cut at the front, the bytes that are left are other records.
        let rest = &listing[length..];
        let first = rest.chunks_exact(7).next().map_or(0, |record| Corner::from_bytes(record).at[0]);
        holds(first, rest, rest.len());
    }
    for length in 1..7 {
        assert_eq!(at(0, &[0; 7][..length]), Told { output: Vec::new(), complaint: NOTE.into() });
        let told = Told { output: b"0 0 0 0\n".into(), complaint: NOTE.into() };
        assert_eq!(at(0, &[0; 14][..7 + length]), told);
    }
}

#[test]
fn flipped_bits() {
    let mut random = Random::new(62);
    let mut broken = 0;
    for _ in 0..150 {
        let mut list = inputs::accepted(&mut random, Size { field: 12, shots: 12 });
        inputs::coarsen(&mut list, 10_000);
        let whole = on("listing", &shortest(&list)).good();
        let mut listing = whole.clone();
        inputs::flip(&mut random, &mut listing, 12);
        listing.truncate(listing.len() - random.within(0, listing.len().min(9)));
        for _ in 0..4 {
            let x = random.within(0, list.field.into()) as u16;
            holds(x, &listing, listing.len());
            broken += usize::from(expected(x, &listing).output != expected(x, &whole).output);
        }
    }
    assert!(broken > 60, "{broken} answers are others than before the damage");
}

#[test]
fn random_bytes() {
    let mut random = Random::new(63);
    let mut printed = 0;
    for number in 0..400 {
        let most = if number % 8 == 0 { 255 } else { 1 };
        let listing: Vec<u8> = (0..random.within(0, 200)).map(|_| random.within(0, most) as u8).collect();
        let any = random.within(0, 260) as u16;
        let x = listing.chunks_exact(7).last().map_or(any, |record| Corner::from_bytes(record).at[0]);
        let piece = if number % 3 == 0 { random.within(1, 20) } else { listing.len() };
        for x in [x, any] {
            holds(x, &listing, piece);
            printed += usize::from(!expected(x, &listing).output.is_empty());
        }
    }
    assert!(printed > 300, "{printed} of the listings have that x");
}

#[test]
fn in_pieces_of_every_length() {
    let listing = [on("listing", &OVERLAP).good(), vec![1, 0, 1]].concat();
    for piece in 1..=listing.len() {
        holds(1, &listing, piece);
    }
    let long = records(&(0..20_000).map(|number| number / 3000).collect::<Vec<u16>>());
    for piece in [6, 4095, 4096, 10_007, 65_536] {
        holds(3, &long, piece);
    }
}

/// Lines of every length, so many that the text or the records end about a multiple of what may go out at once.
#[test]
fn texts_about_the_length_of_a_block() {
    let lengths = [1u16, 10, 100, 1000, 10_000];
    for corner in (0..10).map(|sum| Corner { at: [0, 1, 2].map(|axis| lengths[(sum + axis) / 3]), pattern: 255 }) {
        let line = lines([corner].into_iter()).len();
        for whole in [4096 / line, 8192 / line, 65_536 / line, 1024, 2048, 4096] {
            for count in whole - 1..=whole + 1 {
                let listing = [&corner.bytes().repeat(count)[..], &[0; 7]].concat();
                holds(corner.at[0], &listing, listing.len());
            }
        }
    }
}

#[test]
fn as_many_records_as_there_is_room_for_and_more() {
    // The text of one run of them all has 2,883,584 bytes.
    let most = vec![255; 7 * ROOM];
    assert_eq!(expected(65535, &most).output.len(), 22 * ROOM);
    for piece in [most.len(), 30_011] {
        holds(65535, &most, piece);
    }
    holds(0, &most, most.len());
    // A run that the last record alone is.
    let last = [&most[7..], &[0; 7]].concat();
    assert_eq!(at(0, &last).good(), b"0 0 0 0\n");
    holds(65535, &last, last.len());
    for more in 1..7 {
        let listing = [&most[..], &vec![0; more]].concat();
        let told = at(65535, &listing);
        assert_eq!((told.output.len(), told.complaint.as_str()), (22 * ROOM, NOTE), "{more} bytes more");
        assert_eq!(at(0, &listing), Told { output: Vec::new(), complaint: NOTE.into() });
    }
    for more in [7, 8, 14, 10_000, 3_000_000] {
        let listing = [&most[..], &vec![0; more]].concat();
        for x in [0, 65535] {
            assert_eq!(at(x, &listing), Told { output: Vec::new(), complaint: TOO_LONG.into() }, "{more} bytes more");
        }
    }
}

/// Words that are no x, with what is said of them; and the spellings of one.
#[test]
fn words_of_the_program() {
    let listing = records(&[5, 0, 65535]);
    let told = |words: &[&str]| given("corners_at", words, &listing, listing.len());
    let [zeros, more] = [64, 65].map(|length| format!("{:0length$}", 5));
    for words in [&[][..], &[""], &["", "5"], &["5", ""], &["5", "5"], &["5", "file", "-"], &[&more]] {
        assert_eq!(told(words), Told { output: Vec::new(), complaint: TAKES.into() }, "{words:?}");
    }
    let large = ["65536", "65541", "065536", "100000", "4294967296", "4294967301", "18446744073709551621"];
    let signed = ["-5", "+5", "-0", "-", "--", "--help", "five", "x", "٥", "5\u{e9}"];
    let broken = [" 5", "5 ", "5\n", "\t5", "5.0", "5,0", "0x5", "5e0", "/", ":", "5/", "5:"];
    for word in large.into_iter().chain(signed).chain(broken) {
        assert_eq!(told(&[word]), Told { output: Vec::new(), complaint: TAKES.into() }, "{word:?}");
    }
    for word in ["5", "05", "00005", "000000000005", &zeros] {
        assert_eq!(told(&[word]).good(), b"5 0 7 9\n", "{word}");
    }
    for word in ["0", "00", "000000", &"0".repeat(64)] {
        assert_eq!(told(&[word]).good(), b"0 1 7 9\n", "{word}");
    }
    assert_eq!(told(&["065535"]).good(), b"65535 2 7 9\n");
}

/// As README has it, and with files in other places.
#[test]
fn the_command_on_listings() {
    let tree = Tree::built();
    tree.file("part", &OVERLAP);
    tree.shell("heqdanu listing part >corners; heqdanu listing part >5", &[]).is("", "", 0);
    tree.shell("heqdanu listing part | heqdanu corners_at 1", &[]).is(OVERLAP_AT_1, "", 0);
    for words in ["1 corners", "001 corners", "1 - <corners", "1 <corners", "-- 1 corners", "1 -- corners", "1 5"] {
        tree.shell(&format!("heqdanu corners_at {words}"), &[]).is(OVERLAP_AT_1, "", 0);
    }
    // No corner there is an answer.
    tree.run("corners_at", &["5", "corners"]).is("", "", 0);
    tree.run("corners_at", &["5", "5"]).is("", "", 0);
    tree.shell("heqdanu corners_at 1 </dev/null", &[]).is("", "", 0);
    // It prints what `listing --text` prints of that plane.
    let line = "heqdanu listing --text part | grep '^2 ' >there; heqdanu corners_at 2 corners | cmp - there";
    tree.shell(line, &[]).is("", "", 0);
}

#[test]
fn several_listings() {
    let tree = Tree::built();
    tree.file("one", &records(&[5, 5, 2]));
    tree.file("a cut one", &records(&[5, 2])[..10]);
    tree.file("long", &vec![0; 7 * (ROOM + 1)]);
    let note = "corners_at: a cut one: note: the listing ends within a record, which is passed over\n";
    tree.run("corners_at", &["5", "a cut one"]).is("5 0 7 9\n", note, 0);
    let headed = "==> one <==\n5 0 7 9\n5 1 7 9\n\n==> a cut one <==\n5 0 7 9\n";
    tree.run("corners_at", &["5", "one", "a cut one"]).is(headed, note, 0);
    tree.run("corners_at", &["2", "one", "a cut one"]).is("==> one <==\n2 2 7 9\n\n==> a cut one <==\n", note, 0);
    let long = "corners_at: long: the listing has more than 131,072 records\n";
    tree.run("corners_at", &["0", "long"]).is("", long, 2);
    let complaint = format!("corners_at: missing: no such file\n{long}{note}");
    tree.run("corners_at", &["5", "long", "missing", "one", "a cut one"]).is(
        &format!("==> long <==\n\n{headed}"),
        &complaint,
        2,
    );
    tree.shell("heqdanu corners_at 5 </", &[]).is("", "corners_at: standard input cannot be read\n", 2);
    tree.shell("heqdanu corners_at 5 <&-", &[]).is("", "corners_at: standard input cannot be read\n", 2);
    tree.shell("heqdanu corners_at 5", &records(&[5])[..6]).is("", &note.replace("a cut one", "standard input"), 0);
}

/// As long as an answer can be, it is printed whole, and a reader may leave it.
#[test]
fn the_longest_answer() {
    let tree = Tree::built();
    let most = vec![255; 7 * ROOM];
    tree.file("most", &most);
    let ended = tree.run("corners_at", &["65535", "most"]);
    let output = expected(65535, &most).output;
    assert!(ended == Ended { output, complaint: String::new(), status: 0 }, "{} bytes", ended.output.len());
    let line = "{ heqdanu corners_at 65535 most; echo $? >status; } | head -n 1; cat status; rm status";
    tree.shell(line, &[]).is("65535 65535 65535 255\n141\n", "", 0);
}

/// The x is looked at before the files, and nothing is built.
#[test]
fn words_of_the_command() {
    let tree = Tree::bare(NEVER);
    tree.file("part", &OVERLAP);
    let first = "corners_at: the first word is X, a number up to 65,535,";
    let usage = tree.run("corners_at", &["--help"]).text();
    let misused = |words: &[&str], line: &str| {
        tree.run("corners_at", words).is("", &format!("{line}\n{usage}"), 2);
    };
    misused(&[], &format!("{first} and there is none"));
    misused(&["--"], &format!("{first} and there is none"));
    for word in ["", "part", "-", "65536", "0065536", "100000", "18446744073709551621", "+5", "5 ", "5.0", "0x5", "٥"]
    {
        misused(&[word, "missing"], &format!("{first} which '{word}' is not"));
        misused(&["--", word], &format!("{first} which '{word}' is not"));
    }
    misused(&["--", "-5"], &format!("{first} which '-5' is not"));
    misused(&["-5"], "corners_at: there is no option -5");
    misused(&["5", "part", "-t"], "corners_at: there is no option -t");
    for word in ["5", "65535", "00", &"0".repeat(500)] {
        tree.run("corners_at", &[word, "missing"]).is("", "corners_at: missing: no such file\n", 2);
        tree.run("corners_at", &["--", word, ".."]).is("", "corners_at: ..: is a directory\n", 2);
    }
    assert_eq!(tree.calls(), "");
}

/// The program is given the x alone, without leading zeros; no line that it prints is a refusal.
#[test]
fn what_the_program_is_given() {
    let tree = Tree::standing_in("echo $# \"$@\"; cat");
    tree.file("a", b"in a\n");
    for (word, given) in [("0", "0"), ("000", "0"), ("0010", "10"), ("65535", "65535"), ("0000000065535", "65535")] {
        tree.run("corners_at", &[word, "a"]).is(&format!("1 {given}\nin a\n"), "", 0);
    }
    tree.run("corners_at", &[&("0".repeat(100) + "7"), "a"]).is("1 7\nin a\n", "", 0);
    tree.shell("heqdanu corners_at 8", b"typed\n").is("1 8\ntyped\n", "", 0);
    // The others are given none, whatever the environment has.
    tree.shell("leads=X heqdanu credits a", &[]).is("0\nin a\n", "", 0);
    tree.replace_program("corners_at", "echo refused 4 0");
    tree.run("corners_at", &["5", "a"]).is("refused 4 0\n", "", 0);
}

/// A listing is never refused, so the help speaks of no refusal.
#[test]
fn help_has_no_refusal() {
    let help = Tree::bare(NEVER).shell("heqdanu help corners_at", &[]).text();
    assert!(help.starts_with("usage: heqdanu corners_at X [FILE]...\n"), "{help}");
    assert!(help.contains("\nExit status: 0 answered, also where no corner has that x, 2 wrong use"), "{help}");
    assert!(!help.contains("refused"), "{help}");
}

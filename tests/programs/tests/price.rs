//! Shot files through `price`, by the tables of a shop: known and generated tables against what the request says of
//! them, texts with every mistake, files and lists that are refused; and the command, its words and its status.

use oracle::inputs::{self, Random, Size};
use oracle::quote::quote;
use oracle::shotfile::shortest;
use programs::run::{given, Told};
use programs::tree::{repository, Tree, NEVER};
use std::fs;

const OVERLAP: [u8; 15] = [7, 8, 0, 2, 0, 2, 0, 0, 7, 1, 0, 1, 0, 1, 0];
const CUBE: [u8; 8] = [7, 8, 0, 2, 0, 2, 0, 0];
const EXAMPLE: &[u8] = include_bytes!("../../../examples/tables.txt");
const OVERLAP_PRICE: &str = "volume 300\narea 252\nedge 126\n";
const CUBE_PRICE: &str = "volume 160\narea 192\nedge 72\n";
const TAKES: &str = "price: takes one word, the file of the price tables, and reads a shot file from standard input\n";
const TOP: u64 = 1_099_511_627_776;
const NAMES: [&str; 3] = ["volume", "area", "edge"];

/// A band: first amount, last amount, cents.
type Band = [u64; 3];

/// The program on tables and a shot file that reaches it in pieces of the given length.
fn in_pieces(tree: &Tree, tables: &[u8], file: &[u8], piece: usize) -> Told {
    let path = tree.root().join("../elsewhere").join(tree.file("tables of a test", tables));
    given("price", &[path.to_str().expect("a name")], file, piece)
}

/// The same on a file that is there at once.
fn told(tree: &Tree, tables: &str, file: &[u8]) -> Told {
    in_pieces(tree, tables.as_bytes(), file, file.len())
}

/// The text of the three tables, in their order.
fn typed(tables: &[Vec<Band>; 3]) -> String {
    let line = |name: &str, [first, last, cents]: &Band| format!("{name} {first} {last} {cents}\n");
    NAMES.iter().zip(tables).flat_map(|(name, bands)| bands.iter().map(move |band| line(name, band))).collect()
}

/// Bands from 0 on, without gap or overlap, with these last amounts and rates.
fn bands(ends: &[(u64, u64)]) -> Vec<Band> {
    let firsts = std::iter::once(0).chain(ends.iter().map(|end| end.0.wrapping_add(1)));
    firsts.zip(ends).map(|(first, (last, cents))| [first, *last, *cents]).collect()
}

/// The detail with which the request refuses a table; none where it does not.
fn refused(table: &[Band]) -> Option<usize> {
    if table.len() > 64 {
        return Some(64);
    }
    let start = |place: usize| if place == 0 { 0 } else { table[place - 1][1] as u128 + 1 };
    let faulty = |place: usize| {
        let [first, last, cents] = table[place];
        first as u128 != start(place) || last < first || last > TOP || cents > 10_000
    };
    let ended = table.last().is_some_and(|band| band[1] == TOP);
    (0..table.len()).find(|place| faulty(*place)).or(if ended { None } else { Some(table.len()) })
}

/// What the program prints by the request: the oracle's amounts, each times the rate of the band that holds it.
fn expected(tables: &[Vec<Band>; 3], file: &[u8]) -> String {
    let quoted = quote(file);
    if quoted.starts_with("refused") {
        return quoted;
    }
    if let Some(detail) = tables.iter().find_map(|table| refused(table)) {
        return format!("refused 18 {detail}\n");
    }
    let charge = |(name, table): (&&str, &Vec<Band>)| {
        let line = quoted.lines().find_map(|line| line.strip_prefix(&format!("{name} ")));
        let amount: u64 = line.expect("an amount").parse().expect("a number");
        let held = table.iter().filter(|band| (band[0]..=band[1]).contains(&amount)).collect::<Vec<_>>();
        assert_eq!(held.len(), 1, "one band holds an amount");
        format!("{name} {}\n", amount * held[0][2])
    };
    NAMES.iter().zip(tables).map(charge).collect()
}

#[test]
fn the_tables_of_the_example() {
    let tree = Tree::bare(NEVER);
    for (file, price) in [(&OVERLAP[..], OVERLAP_PRICE), (&CUBE, CUBE_PRICE)] {
        for piece in [1, 3, 1000] {
            assert_eq!(in_pieces(&tree, EXAMPLE, file, piece).good(), price.as_bytes());
        }
    }
    let nothing = in_pieces(&tree, EXAMPLE, &OVERLAP[..7], 7).good();
    assert_eq!(nothing, b"volume 0\narea 0\nedge 0\n");
}

/// The whole amount at the rate of its band, wherever the band's ends are: volume 15, area and edge length 42.
#[test]
fn amounts_about_the_ends_of_their_bands() {
    let tree = Tree::bare(NEVER);
    for end in [0, 1, 13, 14, 15, 16, 17, 40, 41, 42, 43, 44, TOP - 1] {
        let table = bands(&[(end, 7), (TOP, 3)]);
        let tables = [table.clone(), table.clone(), table];
        let rate = |amount: u64| if amount <= end { 7 } else { 3 };
        let price = format!("volume {}\narea {}\nedge {}\n", 15 * rate(15), 42 * rate(42), 42 * rate(42));
        assert_eq!(told(&tree, &typed(&tables), &OVERLAP).good(), price.as_bytes(), "a band to {end}");
        assert_eq!(expected(&tables, &OVERLAP), price);
    }
    // A band of one amount, and each quantity by its own table.
    let one = |amount: u64, cents: u64| bands(&[(amount - 1, 1), (amount, cents), (TOP, 2)]);
    let text = typed(&[one(15, 10_000), one(42, 0), one(43, 9)]);
    assert_eq!(told(&tree, &text, &OVERLAP).good(), b"volume 150000\narea 0\nedge 42\n");
}

/// A charge of the largest part at the highest rate is whole.
#[test]
fn the_whole_field() {
    let tree = Tree::bare(NEVER);
    let file = fs::read(repository().join("examples/whole_field.shots")).expect("the example is there");
    let table = bands(&[(TOP, 10_000)]);
    let text = typed(&[table.clone(), table.clone(), table]);
    let price = "volume 10737418240000\narea 62914560000\nedge 122880000\n";
    assert_eq!(told(&tree, &text, &file).good(), price.as_bytes());
}

#[test]
fn as_many_bands_as_allowed_and_one_more() {
    let tree = Tree::bare(NEVER);
    let many = |count: u64| bands(&(0..count - 1).map(|last| (last, last)).chain([(TOP, 5)]).collect::<Vec<_>>());
    let good = bands(&[(TOP, 1)]);
    let tables = [many(64), many(44), good.clone()];
    assert_eq!(told(&tree, &typed(&tables), &OVERLAP).good(), b"volume 225\narea 1764\nedge 42\n");
    for count in [65, 66, 200] {
        let text = typed(&[good.clone(), many(count), good.clone()]);
        let complaint = "price: tables: line 66: area has more than 64 bands\n";
        let expected = Told { output: b"refused 18 64\n".into(), complaint: complaint.into() };
        assert_eq!(told(&tree, &text, &OVERLAP), expected);
    }
    // 64 bands that do not end at the top have the same detail, and other words.
    let low: Vec<(u64, u64)> = (0..64).map(|last| (last, 1)).collect();
    let text = typed(&[good.clone(), bands(&low), good]);
    let complaint = "price: tables: the bands of area end before 1,099,511,627,776\n";
    let expected = Told { output: b"refused 18 64\n".into(), complaint: complaint.into() };
    assert_eq!(told(&tree, &text, &OVERLAP), expected);
}

/// Numbers as large as can be typed are the library's to refuse.
#[test]
fn huge_numbers() {
    let tree = Tree::bare(NEVER);
    let most = u64::MAX;
    for (table, detail) in [
        (vec![[0, most, 1]], 0),
        (vec![[most, most, most]], 0),
        (vec![[0, TOP, most]], 0),
        (vec![[0, TOP + 1, 1]], 0),
        (vec![[0, TOP, 10_001]], 0),
        (vec![[0, 9, 1], [10, most, 1]], 1),
        (vec![[0, TOP, 1], [TOP + 1, most, 1]], 1),
        (vec![[0, TOP - 1, 1], [TOP, TOP, 1], [0, TOP, 1]], 2),
        (vec![[0, TOP - 1, 1]], 1),
    ] {
        let good = bands(&[(TOP, 10_000)]);
        for place in 0..3 {
            let mut tables = [good.clone(), good.clone(), good.clone()];
            tables[place] = table.clone();
            let said = told(&tree, &typed(&tables), &OVERLAP);
            assert_eq!(said.text(), format!("refused 18 {detail}\n"), "{table:?}");
            assert!(said.complaint.contains(NAMES[place]), "{}", said.complaint);
            assert_eq!(refused(&table), Some(detail));
        }
    }
}

/// Generated tables, most of them good but for one number.
#[test]
fn generated_tables_and_files() {
    let mut random = Random::new(81);
    let tree = Tree::bare(NEVER);
    let (mut priced, mut faulty, mut unread) = (0, 0, 0);
    for _ in 0..600 {
        let file = generated_file(&mut random);
        let mut tables = [(); 3].map(|()| generated(&mut random));
        if random.once_in(2) {
            damage(&mut random, &mut tables);
        }
        let said = in_pieces(&tree, mixed(&mut random, &tables).as_bytes(), &file, random.within(1, 40));
        let text = expected(&tables, &file);
        assert_eq!(said.text(), text, "{tables:?}");
        assert_eq!(said.complaint.is_empty(), !text.starts_with("refused 18"), "{}", said.complaint);
        match text.split(' ').nth(1) {
            Some("18") => faulty += 1,
            _ if text.starts_with("refused") => unread += 1,
            _ => priced += 1,
        }
    }
    assert!(
        priced > 100 && faulty > 100 && unread > 20,
        "{priced} priced, {faulty} with a faulty table, {unread} unread"
    );
}

/// A shot file, most often of a list that is accepted.
fn generated_file(random: &mut Random) -> Vec<u8> {
    let size = Size { field: 24, shots: 12 };
    if random.once_in(6) {
        return inputs::file(random, size);
    }
    let mut list = inputs::accepted(random, size);
    inputs::coarsen(&mut list, 10_000);
    shortest(&list)
}

/// A good table of some bands, with ends among the amounts of small parts.
fn generated(random: &mut Random) -> Vec<Band> {
    let mut ends: Vec<u64> = (0..random.within(0, 12)).map(|_| random.within(0, 3000) as u64).collect();
    ends.sort();
    ends.dedup();
    let ends: Vec<(u64, u64)> =
        ends.into_iter().chain([TOP]).map(|end| (end, random.within(0, 10_000) as u64)).collect();
    bands(&ends)
}

/// The text of the three tables, their lines in any mix: only the order within a table counts.
fn mixed(random: &mut Random, tables: &[Vec<Band>; 3]) -> String {
    let mut left = tables.each_ref().map(|table| table.iter());
    let mut text = String::new();
    while left.iter().any(|bands| bands.len() > 0) {
        let place = random.within(0, 2);
        if let Some([first, last, cents]) = left[place].next() {
            text += &format!("{} {first} {last} {cents}\n", NAMES[place]);
        }
    }
    text
}

/// Changes a number of a table by a little, or takes a band out.
fn damage(random: &mut Random, tables: &mut [Vec<Band>; 3]) {
    let table = &mut tables[random.within(0, 2)];
    let place = random.within(0, table.len() - 1);
    match random.within(0, 4) {
        0 => drop(table.remove(place)),
        1 => table[place][0] = table[place][0].wrapping_sub(1),
        2 => table[place][1] += 1,
        3 => table[place][1] = random.within(0, 3000) as u64,
        _ => table[place][2] = random.within(9_990, 10_010) as u64,
    }
}

/// What `quote` refuses, `price` refuses alike, whatever the tables hold.
#[test]
fn files_and_lists_that_are_refused() {
    let tree = Tree::bare(NEVER);
    let crowded = [vec![7, 8, 0, 2, 0, 1, 0], vec![0; 4097]].concat();
    let long = [&[7, 8, 0, 2, 0, 2, 0][..], &[0; 40_000]].concat();
    for (file, line) in [
        (&[][..], "5 0"),
        (&OVERLAP[..14], "5 8"),
        (&[0, 8], "4 1"),
        (&[1, 0, 0], "6 0"),
        (&[1, 8, 0, 0], "7 0"),
        (&[3, 8, 0, 2, 0, 0], "8 0"),
        (&[7, 8, 0, 2, 0, 2, 0, 0, 1, 7, 0], "9 1"),
        (&[4, 64, 0], "10 262145"),
        (&crowded, "2 4103"),
        (&long, "2 4103"),
        (&[4, 16, 0], "17 0"),
    ] {
        for tables in [std::str::from_utf8(EXAMPLE).expect("text"), "", "volume 5 4 99999\n"] {
            let said = told(&tree, tables, file);
            assert_eq!((said.text(), said.complaint.as_str()), (format!("refused {line}\n"), ""));
            assert_eq!(said.text(), quote(file));
        }
        // A mistake in the tables is no answer, whatever the file holds.
        let complaint = "price: tables: line 1: the first word is not volume, area or edge\n";
        assert_eq!(told(&tree, "x", file), Told { output: vec![], complaint: complaint.into() });
    }
}

#[test]
fn texts_with_a_mistake() {
    let tree = Tree::bare(NEVER);
    let few = "too few words; a band has three numbers, its first and last amount and its cents";
    let large = "a number is above 18,446,744,073,709,551,615";
    for (text, line, words) in [
        (&b"volume 0 1\n"[..], 1, few),
        (b"\n\r\n# edge\nedge 0 1 # 2\n", 4, few),
        (b"area 0 1 2 3\n", 1, "too many words; a band has three numbers, its first and last amount and its cents"),
        (b"area 0 1 2\ninner 0 1 2\n", 2, "the first word is not volume, area or edge"),
        (b"area 0 -1 2\n", 1, "a number is not of decimal digits only"),
        (b"area 0 1 0x2", 1, "a number is not of decimal digits only"),
        (b"area 0 18446744073709551616 2", 1, large),
        (b"area 0 1 2\n\n\nedge \xff\n", 4, "these bytes are no text"),
        (b"area 0 1 2\0\n", 1, "these bytes are no text"),
    ] {
        let said = in_pieces(&tree, text, &OVERLAP, 15);
        let complaint = format!("price: tables: line {line}: {words}\n");
        assert_eq!(said, Told { output: vec![], complaint }, "{}", String::from_utf8_lossy(text));
    }
    // Carriage returns, tabs, comments and leading zeros are no mistake.
    let text = "# a shop\r\n\r\n\tvolume 0 1099511627776 020 # each\r\narea\t0\t01099511627776\t6#each\r\n \
                edge 0 1099511627776 3";
    assert_eq!(told(&tree, text, &OVERLAP).good(), OVERLAP_PRICE.as_bytes());
}

/// A text as long as can be, and one byte longer.
#[test]
fn the_longest_text() {
    let tree = Tree::bare(NEVER);
    let mut text = EXAMPLE.to_vec();
    text.resize(1_048_575, b'\n');
    assert_eq!(in_pieces(&tree, &text, &OVERLAP, 15).good(), OVERLAP_PRICE.as_bytes());
    text.push(b'\n');
    for text in [&text, &vec![0; 3_000_000]] {
        let complaint = "price: tables: the text is longer than 1,048,575 bytes\n".into();
        assert_eq!(in_pieces(&tree, text, &OVERLAP, 15), Told { output: vec![], complaint });
    }
}

#[test]
fn words_of_the_program() {
    let path = repository().join("examples/tables.txt");
    let path = path.to_str().expect("a name");
    for words in [&[][..], &[path, path], &[path, "-", "-"]] {
        assert_eq!(given("price", words, &OVERLAP, 15), Told { output: vec![], complaint: TAKES.into() });
    }
    assert_eq!(given("price", &[path], &OVERLAP, 15).good(), OVERLAP_PRICE.as_bytes());
    for (path, words) in [("", "cannot be opened"), ("/nowhere", "cannot be opened"), ("/", "cannot be read")] {
        let complaint = format!("price: tables: {words}\n");
        assert_eq!(given("price", &[path], &OVERLAP, 15), Told { output: vec![], complaint });
    }
}

//! The files in examples/: what each is made of, and the quote that README gives it. An accepted shot file is what
//! `write_shots` makes of the text here, as in
//! `printf 'field 8\nedge 2\ngrid 2\nshot 1 1 1\n' | ./heqdanu write_shots >examples/one_cube.shots`; the VOX file is what the
//! script beside it writes; the tables of a shop put two amounts of an example at the ends of their bands.

use programs::run::{given, on};
use std::collections::BTreeSet;
use std::fs;
use std::path::PathBuf;
use std::process::Command;

/// Name, the typed list, and volume, area, edge length, inner length, corners.
const ACCEPTED: [(&str, &str, [u64; 5]); 7] = [
    ("one_cube", "field 8\nedge 2\ngrid 2\nshot 1 1 1", [8, 24, 24, 0, 8]),
    ("face_to_face", "field 8\nedge 2\ngrid 2\nshot 0 0 0\nshot 2 0 0", [16, 40, 32, 0, 8]),
    ("edge_to_edge", "field 8\nedge 2\ngrid 2\nshot 0 0 0\nshot 2 2 0", [16, 48, 48, 0, 14]),
    ("corner_to_corner", "field 8\nedge 2\ngrid 2\nshot 0 0 0\nshot 2 2 2", [16, 48, 48, 0, 15]),
    ("overlap", "field 8\nedge 2\ngrid 2\nshot 0 0 0\nshot 1 1 1", [15, 42, 42, 6, 20]),
    ("overlap_again", "field 16\nedge 2\ngrid 4\nshot 1 1 1\nshot 0 0 0", [15, 42, 42, 6, 20]),
    ("whole_field", "edge 1024\nshot 0 0 0", [1_073_741_824, 6_291_456, 12_288, 0, 8]),
];

fn example(name: &str) -> Vec<u8> {
    fs::read(folder().join(format!("{name}.shots"))).unwrap_or_else(|error| panic!("{name}: {error}"))
}

fn folder() -> PathBuf {
    PathBuf::from(concat!(env!("CARGO_MANIFEST_DIR"), "/../../examples"))
}

/// That a file is what is written for the text, and again for what is printed of it, and has this quote.
fn holds(name: &str, text: &str, [volume, area, edge, inner, corners]: [u64; 5]) {
    let file = example(name);
    assert_eq!(on("write_shots", text.as_bytes()).good(), file, "{name}");
    assert_eq!(on("write_shots", &on("shots", &file).good()).good(), file, "{name}");
    let quote = format!("volume {volume}\narea {area}\nedge {edge}\ninner {inner}\ncorners {corners}\n");
    assert_eq!(on("quote", &file).text(), quote, "{name}");
}

#[test]
fn accepted_examples() {
    for (name, text, figures) in ACCEPTED {
        holds(name, text, figures);
    }
    let mut text = String::from("field 8\nedge 1\ngrid 2\n");
    for cell in (0..27).filter(|cell| *cell != 13) {
        text += &format!("shot {} {} {}\n", cell / 9, cell / 3 % 3, cell % 3);
    }
    holds("shell", &text, [26, 60, 36, 12, 16]);
}

#[test]
fn refused_examples() {
    let overlap = example("overlap");
    assert_eq!(example("cut_off"), overlap[..overlap.len() - 1]);
    assert_eq!(on("quote", &example("cut_off")).text(), "refused 5 8\n");
    assert_eq!(example("outside"), [7, 8, 0, 2, 0, 2, 0, 0, 7, 7, 0, 6, 0, 6, 0]);
    assert_eq!(on("quote", &example("outside")).text(), "refused 9 1\n");
    // The overlapping cubes without a grid size.
    assert_eq!(example("no_grid"), [&[3], &overlap[1..5], &overlap[7..]].concat());
    assert_eq!(on("quote", &example("no_grid")).text(), "refused 8 0\n");
    // The overlapping cubes, the first with all its fields.
    assert_eq!(example("needless"), [&overlap[..7], &[7, 0, 0, 0, 0, 0, 0], &overlap[8..]].concat());
    assert_eq!(on("quote", &example("needless")).text(), "refused 17 7\n");
}

#[test]
fn the_arch_of_voxels() {
    let file = fs::read(folder().join("arch.vox")).expect("the arch is there");
    let made = Command::new(folder().join("make_arch")).output().expect("the script runs");
    assert_eq!((made.stdout, made.stderr, made.status.code()), (file.clone(), vec![], Some(0)));
    assert_eq!(on("quote_vox", &file).text(), "volume 69\narea 142\nedge 82\ninner 6\ncorners 16\n");
    // Pillars on both sides of a gap, and a lintel over it.
    let list = oracle::vox::read(&file, 12_288).expect("the arch is accepted");
    assert_eq!((list.field, list.edge, list.grid), (7, 1, 1));
    let there: BTreeSet<[usize; 3]> = list.shots().into_iter().collect();
    let arch = (0..105).map(|n| [n % 7, n / 7 % 3, n / 21]).filter(|[x, _, z]| *z == 4 || !(2..5).contains(x));
    assert_eq!(there, arch.collect());
}

#[test]
fn the_tables_of_a_shop() {
    let path = folder().join("tables.txt");
    let text = fs::read_to_string(&path).expect("the tables are there");
    // The overlapping cubes: volume 15, area 42, edge length 42.
    for line in ["volume 0 15 20", "area 42 999 6", "edge 10 99 3"] {
        assert!(text.lines().any(|known| known == line), "{line}");
    }
    for name in ["volume", "area", "edge"] {
        assert!(text.lines().filter(|line| line.starts_with(name)).count() > 1, "{name}");
    }
    let words = [path.to_str().expect("a name")];
    for (name, charges) in [("overlap", [300, 252, 126]), ("shell", [312, 360, 108]), ("one_cube", [160, 192, 72])] {
        let file = example(name);
        let [volume, area, edge] = charges;
        let told = given("price", &words, &file, file.len());
        assert_eq!(told.text(), format!("volume {volume}\narea {area}\nedge {edge}\n"), "{name}");
        assert_eq!(told.complaint, "");
    }
}

#[test]
fn no_other_file_is_there() {
    let there: BTreeSet<String> = fs::read_dir(folder())
        .expect("the examples are there")
        .map(|entry| entry.expect("an example").file_name().to_string_lossy().into_owned())
        .collect();
    let shots = ACCEPTED.iter().map(|(name, ..)| *name).chain(["shell", "cut_off", "outside", "no_grid", "needless"]);
    let known = shots
        .map(|name| format!("{name}.shots"))
        .chain(["arch.vox", "make_arch", "audit.py", "tables.txt"].map(String::from));
    assert_eq!(there, known.collect());
}

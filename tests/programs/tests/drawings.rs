//! VOX files through `vox_shots`, against the oracle: what `quote` says of the file that it writes is what `quote_vox`
//! says of the drawing. And the note on further models, of both programs and their commands.

use oracle::quote::VOX_BYTES;
use oracle::vox_inputs::{any_file, chunk, crowded, main_put_right, model, size, xyzi};
use oracle::{inputs::Random, vox};
use programs::drawing::{note, vox_shots};
use programs::run::{in_pieces, on};
use programs::tree::Tree;

const ARCH: &[u8] = include_bytes!("../../../examples/arch.vox");
const SHOTS: [u8; 15] = [7, 8, 0, 2, 0, 2, 0, 0, 7, 1, 0, 1, 0, 1, 0];
const NOTE: &str = "note: the file has further models; only the first is read";

/// That the program writes what the oracle writes, and that it is quoted as the drawing is.
fn holds(file: &[u8], piece: usize) -> bool {
    let told = in_pieces("vox_shots", file, piece);
    assert_eq!(told, vox_shots(file), "{file:02x?}");
    let quote = on("quote_vox", file).text();
    if told.output.is_empty() {
        assert!(told.complaint.contains(quote.trim_end()), "{quote} {}", told.complaint);
        return false;
    }
    assert_eq!(on("quote", &told.output).text(), quote, "{file:02x?}");
    true
}

/// A file of two models.
fn two_models() -> Vec<u8> {
    model([2, 1, 1], &[[1, 0, 0, 1]], &[size([1, 1, 1]), xyzi(&[[0, 0, 0, 1]])].concat())
}

#[test]
fn known_drawings() {
    assert!(holds(ARCH, usize::MAX));
    let file = on("vox_shots", ARCH).good();
    let text = on("shots", &file).text();
    let list = vox::read(ARCH, 12_288).expect("the arch is accepted");
    // A shot a voxel, in file order.
    assert_eq!(text.lines().take(3).collect::<Vec<_>>(), ["field 7", "edge 1", "grid 1"]);
    for (line, shot) in text.lines().skip(3).zip(list.coords.chunks(3)) {
        assert!(line.starts_with(&format!("shot {} {} {} #", shot[0], shot[1], shot[2])), "{line}");
    }
    assert_eq!(text.lines().count(), 3 + 69);
    for voxels in [&[][..], &[[0, 0, 0, 1]], &[[8, 8, 8, 255], [8, 8, 8, 1]]] {
        assert!(holds(&model([9, 9, 9], voxels, &[]), usize::MAX));
    }
    assert_eq!(on("vox_shots", &model([256, 1, 1], &[], &[])).good(), [7, 0, 1, 1, 0, 1, 0]);
}

#[test]
fn cut_and_refused() {
    for length in 0..=60 {
        holds(&ARCH[..length], usize::MAX);
        holds(&main_put_right(ARCH[..length].to_vec()), usize::MAX);
    }
    assert!(!holds(&SHOTS, usize::MAX));
    for piece in 1..20 {
        assert!(holds(ARCH, piece));
    }
}

#[test]
fn generated_drawings() {
    let mut random = Random::new(95);
    let mut accepted = 0;
    for number in 0..300 {
        let file = any_file(&mut random, if number % 60 == 0 { 2000 } else { 30 });
        accepted += usize::from(holds(&file, if number % 3 == 0 { random.within(1, 40) } else { usize::MAX }));
    }
    assert!((50..250).contains(&accepted), "{accepted} of the files are accepted");
}

#[test]
fn as_many_voxels_as_allowed_and_one_more() {
    let voxels: Vec<[u8; 4]> = (0..4097u16).map(|n| [(n % 256) as u8, (n / 256) as u8, (n % 97) as u8, 1]).collect();
    assert!(holds(&model([256; 3], &voxels[..4096], &[]), 1000));
    assert!(!holds(&model([256; 3], &voxels, &[]), 1000));
    let mut random = Random::new(96);
    for _ in 0..10 {
        holds(&crowded(&mut random), usize::MAX);
    }
    assert_eq!(on("vox_shots", &vec![7; VOX_BYTES + 1]), vox_shots(&vec![7; VOX_BYTES + 1]));
}

#[test]
fn further_models_are_noted() {
    let two = two_models();
    let inner = chunk(b"nGRP", &xyzi(&[]), &xyzi(&[]));
    for (file, noted) in [
        (two.clone(), true),
        (model([2, 1, 1], &[[1, 0, 0, 1]], &xyzi(&[])), true),
        (model([2, 1, 1], &[[1, 0, 0, 1]], &size([1, 1, 1])), false),
        // The name within another chunk is no chunk of MAIN.
        (model([2, 1, 1], &[[1, 0, 0, 1]], &inner), false),
        (model([2, 1, 1], &[[1, 0, 0, 1]], &[inner.clone(), xyzi(&[])].concat()), true),
        (ARCH.to_vec(), false),
        // What is refused is not noted.
        (main_put_right(two[..two.len() - 1].to_vec()), false),
    ] {
        for program in ["quote_vox", "vox_shots"] {
            assert_eq!(note(program, &file) != "", noted);
            assert_eq!(on(program, &file).complaint.contains("note: "), noted, "{program} {file:02x?}");
        }
        holds(&file, usize::MAX);
    }
}

/// The commands add the file's name, and the answer and the status stay.
#[test]
fn further_models_through_the_commands() {
    let tree = Tree::built();
    tree.file("two", &two_models());
    tree.file("arch", ARCH);
    let quote = "volume 1\narea 6\nedge 12\ninner 0\ncorners 8\n";
    tree.run("quote_vox", &["two"]).is(quote, &format!("quote_vox: two: {NOTE}\n"), 0);
    tree.run("quote_vox", &["-t", "two", "arch"]).is(
        "two\t1\t6\t12\t0\t8\narch\t69\t142\t82\t6\t16\n",
        &format!("quote_vox: two: {NOTE}\n"),
        0,
    );
    tree.shell("heqdanu vox_shots two | heqdanu quote", &[]).is(quote, &format!("vox_shots: two: {NOTE}\n"), 0);
    tree.shell("heqdanu vox_shots arch >arch.shots; heqdanu drop arch.shots | heqdanu same arch.shots -", &[]).is(
        "arch.shots and standard input cure the same cells\n",
        "",
        0,
    );
}

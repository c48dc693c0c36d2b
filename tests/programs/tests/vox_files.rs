//! VOX files through `quote_vox`: known ones, generated ones, cut ones, and as long as can be.

use oracle::inputs::{self, Random, Size};
use oracle::quote::{quote, quote_vox, VOX_BYTES};
use oracle::vox_inputs::{any_file, chunk, crowded, main_put_right, model};
use programs::drawing::note;
use programs::run::{in_pieces, on, Told};

const ARCH: &[u8] = include_bytes!("../../../examples/arch.vox");
const ARCH_QUOTE: &str = "volume 69\narea 142\nedge 82\ninner 6\ncorners 16\n";
const SHOTS: [u8; 15] = [7, 8, 0, 2, 0, 2, 0, 0, 7, 1, 0, 1, 0, 1, 0];

/// That the program prints what the oracle prints, for an input in pieces of the given length.
fn holds(file: &[u8], piece: usize) {
    let told = in_pieces("quote_vox", file, piece);
    assert_eq!((told.text(), told.complaint), (quote_vox(file), note("quote_vox", file)), "{file:02x?}");
}

/// A file of two voxels with a later chunk that has a child: 94 bytes.
fn small() -> Vec<u8> {
    model([2, 1, 3], &[[1, 0, 2, 1], [0, 0, 0, 255]], &chunk(b"nTRN", b"ab", &chunk(b"note", &[], &[])))
}

#[test]
fn known_files() {
    assert_eq!(on("quote_vox", ARCH).text(), ARCH_QUOTE);
    assert_eq!(on("quote_vox", &small()).text(), "volume 2\narea 12\nedge 24\ninner 0\ncorners 16\n");
    assert_eq!(on("quote_vox", &model([9, 9, 9], &[], &[])).text(), "volume 0\narea 0\nedge 0\ninner 0\ncorners 0\n");
    let around: Vec<[u8; 4]> = (0..27u8).filter(|n| *n != 13).map(|n| [n / 9, n / 3 % 3, n % 3, 1]).collect();
    let shell = "volume 26\narea 60\nedge 36\ninner 12\ncorners 16\n";
    assert_eq!(on("quote_vox", &model([3, 3, 3], &around, &[])).text(), shell);
    let twice = model([256, 256, 256], &[[255, 255, 255, 1], [255, 255, 255, 2]], &[]);
    assert_eq!(on("quote_vox", &twice).text(), "volume 1\narea 6\nedge 12\ninner 0\ncorners 8\n");
}

#[test]
fn refusals_by_hand() {
    let refused = |file: &[u8], line: &str| assert_eq!(on("quote_vox", file).text(), format!("refused {line}\n"));
    refused(&[], "13 0");
    refused(&ARCH[..8], "13 8");
    refused(&ARCH[..300], "14 8");
    refused(&main_put_right(ARCH[..300].to_vec()), "14 44");
    refused(&model([0, 1, 1], &[], &[]), "15 20");
    refused(&model([2, 2, 2], &[[1, 1, 1, 1], [0, 2, 0, 1]], &[]), "15 64");
    refused(&model([2, 2, 2], &[[1, 1, 1, 0]], &[]), "15 60");
    refused(&model([2, 2, 2], &[], &[1, 2, 3]), "14 60");
}

#[test]
fn each_program_on_the_other_s_files() {
    assert_eq!(on("quote_vox", &SHOTS).text(), "refused 13 0\n");
    for name in ["quote", "recount"] {
        assert_eq!(on(name, ARCH).text(), "refused 4 0\n", "{name}");
    }
    let mut random = Random::new(61);
    for _ in 0..60 {
        holds(&inputs::file(&mut random, Size { field: 40, shots: 12 }), usize::MAX);
        let file = any_file(&mut random, 12);
        assert_eq!(on("quote", &file).text(), quote(&file), "{file:02x?}");
    }
}

#[test]
fn files_cut_at_every_byte_and_in_pieces() {
    let whole = small();
    for length in 0..=whole.len() {
        holds(&whole[..length], usize::MAX);
        holds(&main_put_right(whole[..length].to_vec()), usize::MAX);
    }
    for piece in 1..=40 {
        holds(&whole, piece);
        holds(ARCH, piece);
    }
}

#[test]
fn as_many_voxels_as_allowed_and_one_more() {
    let voxels: Vec<[u8; 4]> =
        (0..4097u16).map(|n| [(n % 256) as u8, (n / 256 * 7) as u8, (n % 97) as u8, 1]).collect();
    holds(&model([256; 3], &voxels[..4096], &[]), 1000);
    assert!(on("quote_vox", &model([256; 3], &voxels[..4096], &[])).text().starts_with("volume 4096\n"));
    assert_eq!(on("quote_vox", &model([256; 3], &voxels, &[])).text(), "refused 2 44\n");
    assert_eq!(on("quote_vox", &model([256; 3], &[[0; 4]; 4097], &[])).text(), "refused 2 44\n");
    let mut random = Random::new(62);
    for _ in 0..20 {
        holds(&crowded(&mut random), usize::MAX);
    }
}

/// A file of one voxel with a later chunk, so that it has so many bytes.
fn of_length(length: usize) -> Vec<u8> {
    let empty = model([2, 1, 3], &[[1, 0, 2, 1]], &chunk(b"RGBA", &[], &[])).len();
    model([2, 1, 3], &[[1, 0, 2, 1]], &chunk(b"RGBA", &vec![7; length - empty], &[]))
}

#[test]
fn as_many_bytes_as_allowed_and_more() {
    let quote = "volume 1\narea 6\nedge 12\ninner 0\ncorners 8\n";
    for piece in [usize::MAX, 65_536, 10_007] {
        for length in [VOX_BYTES - 1, VOX_BYTES] {
            let told = in_pieces("quote_vox", &of_length(length), piece);
            assert_eq!((told.text().as_str(), told.complaint.as_str()), (quote, ""), "{length} bytes");
        }
        for length in [VOX_BYTES + 1, VOX_BYTES + 2, 3_000_000] {
            let complaint = "quote_vox: the input has more than 1,048,575 bytes\n".to_string();
            let expected = Told { output: Vec::new(), complaint };
            assert_eq!(in_pieces("quote_vox", &of_length(length), piece), expected, "{length} bytes");
            // Whatever the bytes are.
            assert_eq!(in_pieces("quote_vox", &vec![7; length], piece), expected, "{length} bytes");
        }
    }
    holds(&vec![7; VOX_BYTES], usize::MAX);
    holds(&of_length(2_000_000)[..VOX_BYTES], usize::MAX);
    holds(&main_put_right(of_length(2_000_000)[..VOX_BYTES].to_vec()), usize::MAX);
}

#[test]
fn generated_files() {
    let mut random = Random::new(63);
    let mut refused = 0;
    for number in 0..600 {
        let file = any_file(&mut random, if number % 60 == 0 { 2000 } else { 30 });
        holds(&file, if number % 3 == 0 { random.within(1, 40) } else { usize::MAX });
        refused += usize::from(quote_vox(&file).starts_with("refused"));
    }
    assert!((100..500).contains(&refused), "{refused} of the files are refused");
}

#[test]
fn random_bytes() {
    let mut random = Random::new(64);
    for _ in 0..200 {
        let length = random.within(0, 90);
        let mut file: Vec<u8> = small()[..length.min(60)].to_vec();
        file.extend((0..random.within(0, 40)).map(|_| random.within(0, 5) as u8));
        holds(&main_put_right(file), usize::MAX);
        holds(&(0..length).map(|_| random.number() as u8).collect::<Vec<u8>>(), usize::MAX);
    }
}

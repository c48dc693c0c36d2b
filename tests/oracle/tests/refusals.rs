//! Refusals: their order, their details, and what they leave in the buffers.

use oracle::list::List;
use oracle::{calls, grid, shotfile};

fn list(field: u16, edge: u16, grid: u16, coords: &[u16]) -> List {
    List { field, edge, grid, coords: coords.to_vec() }
}

fn measure(list: &List) -> [u64; 7] {
    calls::measure(list, &mut vec![0; 300_000])
}

#[test]
fn one_comes_before_two() {
    assert_eq!(measure(&list(0, 0, 0, &vec![0; 12_289])), [1, 0, 0, 0, 0, 0, 0]);
    assert_eq!(measure(&list(0, 0, 0, &vec![0; 12_291])), [2, 0, 0, 0, 0, 0, 0]);
    assert_eq!(measure(&list(0, 0, 0, &vec![0; 12_288])), [6, 0, 0, 0, 0, 0, 0]);
}

#[test]
fn ranges_of_field_edge_and_grid() {
    let number = |field, edge, grid| measure(&list(field, edge, grid, &[]))[0];
    assert_eq!([number(0, 1, 1), number(1025, 1, 1), number(65535, 0, 0)], [6, 6, 6]);
    assert_eq!([number(8, 0, 1), number(8, 9, 1), number(8, 16, 0)], [7, 7, 7]);
    assert_eq!([number(8, 1, 0), number(8, 1, 3), number(8, 1, 16), number(650, 1, 65)], [8, 8, 8, 8]);
    assert_eq!([number(1, 1, 1), number(64, 1, 64), number(1024, 1024, 1)], [0, 0, 0]);
    assert_eq!([number(1, 2, 1), number(1, 1, 2)], [7, 8]);
}

#[test]
fn a_shot_that_leaves_the_field() {
    assert_eq!(measure(&list(1024, 16, 8, &[0, 0, 0, 0, 65_520, 0, 1009, 0, 0])), [9, 1, 0, 0, 0, 0, 0]);
    assert_eq!(measure(&list(1024, 16, 8, &[1008, 1008, 1008]))[0], 0);
    assert_eq!(calls::measure(&list(8, 2, 2, &[7, 0, 0]), &mut []), [9, 0, 0, 0, 0, 0, 0]);
}

#[test]
fn ten_changes_nothing_and_counts_first() {
    let shots = list(8, 2, 2, &[1, 1, 1, 2, 2, 2]);
    let mut work = vec![5; 17];
    assert_eq!(calls::measure(&shots, &mut work), [10, 18, 0, 0, 0, 0, 0]);
    assert_eq!(work, vec![5; 17]);
    assert_eq!(calls::measure(&list(8, 2, 2, &[]), &mut [0; 8]), [10, 9, 0, 0, 0, 0, 0]);
}

#[test]
fn eleven_leaves_the_finished_index_and_the_listing_as_lent() {
    let one = list(8, 2, 2, &[1, 1, 1]);
    let mut work = vec![5; 11];
    let mut listing = vec![9; 55];
    assert_eq!(calls::list(&one, &mut work, &mut listing), [11, 8, 0, 0, 0, 0, 0]);
    assert_eq!(work, [0, 1, 1, 1, 1, 1, 1, 1, 1, 0, 5]);
    assert_eq!(listing, vec![9; 55]);
    let mut listing = vec![9; 57];
    assert_eq!(calls::list(&one, &mut work, &mut listing), [0, 0, 8, 24, 24, 0, 8]);
    assert_eq!(listing[..14], [1, 0, 1, 0, 1, 0, 128, 1, 0, 1, 0, 3, 0, 64]);
    assert_eq!(listing[56], 9);
}

#[test]
fn twelve_gives_the_bytes_needed() {
    let two = list(8, 2, 2, &[0, 0, 0, 1, 1, 1]);
    let mut bytes = vec![9; 15];
    assert_eq!(calls::write(&two, &mut bytes[..14]), [12, 15, 0]);
    assert_eq!(bytes, vec![9; 15]);
    assert_eq!(calls::write(&two, &mut bytes), [0, 0, 15]);
    assert_eq!(bytes, [7, 8, 0, 2, 0, 2, 0, 0, 7, 1, 0, 1, 0, 1, 0]);
    assert_eq!(calls::write(&list(8, 2, 3, &[9, 9, 9]), &mut []), [8, 0, 0]);
    assert_eq!(calls::write(&list(8, 2, 2, &[6, 7, 0]), &mut []), [9, 0, 0]);
}

#[test]
fn sixteen_leaves_the_finished_index_and_the_credits_as_lent() {
    let two = list(8, 2, 2, &[1, 1, 1, 1, 1, 1]);
    let index = [0, 2, 2, 2, 2, 2, 2, 2, 2, 0, 1];
    for places in 0..5 {
        let (mut work, mut credits) = (vec![5; 12], vec![9; places]);
        let answer = calls::credit(&two, &mut work, &mut credits);
        assert_eq!(work, [&index[..], &[5]].concat());
        if places < 2 {
            assert_eq!((answer, credits), ([16, 2], vec![9; places]));
        } else {
            assert_eq!((answer, credits), ([0, 0], [&[8, 0], &vec![9; places - 2][..]].concat()));
        }
    }
    let (mut work, mut credits) = (vec![5; 10], vec![9; 4]);
    assert_eq!(calls::credit(&list(8, 2, 2, &[]), &mut work, &mut []), [0, 0]);
    assert_eq!(work, [0, 0, 0, 0, 0, 0, 0, 0, 0, 5]);
    assert_eq!(calls::credit(&list(8, 2, 2, &[]), &mut work, &mut credits), [0, 0]);
    assert_eq!(credits, [9; 4]);
}

#[test]
fn sixteen_comes_last() {
    // Each list has one fault fewer than the one before it; neither slice has a place.
    for (list, number, detail) in [
        (list(0, 9, 3, &vec![9; 12_289]), 1, 0),
        (list(0, 9, 3, &vec![9; 12_291]), 2, 0),
        (list(0, 9, 3, &[6, 6, 6, 7, 6, 6]), 6, 0),
        (list(8, 9, 3, &[6, 6, 6, 7, 6, 6]), 7, 0),
        (list(8, 2, 3, &[6, 6, 6, 7, 6, 6]), 8, 0),
        (list(8, 2, 2, &[6, 6, 6, 7, 6, 6]), 9, 1),
        (list(8, 2, 2, &[6, 6, 6, 6, 6, 6]), 10, 11),
    ] {
        assert_eq!(calls::credit(&list, &mut [], &mut []), [number, detail]);
        let (mut work, mut credits) = (vec![5; 10], vec![9; 5]);
        assert_eq!(calls::credit(&list, &mut work, &mut credits), [number, detail]);
        assert_eq!((work, credits), (vec![5; 10], vec![9; 5]));
    }
    assert_eq!(calls::credit(&list(8, 2, 2, &[6; 6]), &mut [0; 11], &mut []), [16, 2]);
}

#[test]
fn the_largest_need_fits_32_bits() {
    let all = list(1024, 1024, 64, &vec![0; 12_288]);
    assert_eq!(grid::need(&all), 1_074_003_969);
}

/// The number and the detail with which a file is read, where there are so many places. A refusal stores nothing.
fn read(file: &[u8], places: usize) -> (u64, u64) {
    let mut coords = vec![7; places];
    let answer = calls::read(file, &mut coords);
    if answer[0] != 0 {
        assert_eq!(coords, vec![7; places]);
        assert_eq!(answer[2..], [0; 4]);
    }
    (answer[0], answer[1])
}

#[test]
fn the_reader_s_first_faulty_record_decides() {
    assert_eq!(read(&[], 3), (5, 0));
    assert_eq!(read(&[8], 3), (4, 0));
    assert_eq!(read(&[1], 3), (5, 0));
    assert_eq!(read(&[1, 8], 3), (5, 0));
    assert_eq!(read(&[9], 3), (4, 0));
    assert_eq!(read(&[0, 1, 8], 3), (5, 1));
    assert_eq!(read(&[0, 0, 6, 0, 0, 0], 6), (5, 2));
    assert_eq!(read(&[0, 8], 2), (3, 1));
    assert_eq!(read(&[0, 8], 3), (4, 1));
    assert_eq!(read(&[0, 0, 0], 5), (3, 2));
    assert_eq!(read(&[0, 0, 255], 5), (3, 2));
    assert_eq!(read(&[0, 0, 0], 7), (0, 0));
    let mut crowded = vec![0; 4097];
    assert_eq!(read(&crowded, 12_288), (0, 0));
    crowded.push(255);
    assert_eq!(read(&crowded, 12_288), (2, 4097));
    assert_eq!(read(&crowded, 12_287), (3, 4096));
    crowded[4000] = 16;
    assert_eq!(read(&crowded, 20_000), (4, 4000));
}

/// A file whose first shot is (5, 6, 7), with more behind it, which begins at 8.
fn after_a_shot(more: &[u8]) -> Vec<u8> {
    [&[0, 7, 5, 0, 6, 0, 7, 0], more].concat()
}

#[test]
fn seventeen_is_a_field_that_says_what_its_absence_would_mean() {
    // F = 1,024, E = 16 and G = 16, each alone and beside the others.
    for header in [&[1, 0, 4][..], &[2, 16, 0], &[4, 16, 0]] {
        assert_eq!(read(header, 3), (17, 0), "{header:?}");
    }
    for header in [[7, 0, 4, 2, 0, 2, 0], [7, 8, 0, 16, 0, 2, 0], [7, 8, 0, 2, 0, 16, 0], [7, 0, 4, 16, 0, 16, 0]] {
        assert_eq!(read(&header, 3), (17, 0), "{header:?}");
    }
    // The first shot's 0.
    for shot in [&[1, 0, 0][..], &[2, 0, 0], &[4, 0, 0], &[7, 5, 0, 0, 0, 7, 0], &[7, 0, 0, 0, 0, 0, 0]] {
        assert_eq!(read(&[&[0], shot].concat(), 3), (17, 1), "{shot:?}");
    }
    // What the shot before says, also where it leaves that out, or where no shot says it.
    for shot in [&[1, 5, 0][..], &[2, 6, 0], &[4, 7, 0], &[7, 1, 0, 6, 0, 1, 0]] {
        assert_eq!(read(&after_a_shot(shot), 6), (17, 8), "{shot:?}");
        assert_eq!(read(&after_a_shot(&[&[0, 0], shot].concat()), 12), (17, 10), "{shot:?}");
    }
    for bit in [1, 2, 4] {
        assert_eq!(read(&[0, 0, 7 - bit, 1, 0, 1, 0, bit, 0, 0], 9), (17, 7), "{bit}");
    }
}

#[test]
fn what_is_like_a_needless_field() {
    // A byte of the value, 8 for the grid, a 0, what absence means of another field.
    for header in [[1, 0, 0], [1, 1, 4], [1, 16, 0], [2, 16, 1], [2, 0, 4], [2, 0, 0], [4, 8, 0], [4, 0, 4], [4, 0, 0]]
    {
        assert_eq!(read(&header, 3), (0, 0), "{header:?}");
    }
    for shot in [[1, 0, 1], [2, 1, 0], [4, 16, 0]] {
        assert_eq!(read(&[&[0], &shot[..]].concat(), 3), (0, 0), "{shot:?}");
    }
    // The same of shots: a 0, what another axis has, and what the shot before the one before said.
    for shot in [[1, 0, 0], [2, 0, 0], [4, 0, 0], [1, 6, 0], [2, 7, 0], [4, 5, 0], [1, 5, 1], [2, 6, 6], [4, 0, 7]] {
        assert_eq!(read(&after_a_shot(&shot), 6), (0, 0), "{shot:?}");
    }
    assert_eq!(read(&after_a_shot(&[7, 1, 0, 1, 0, 1, 0, 7, 5, 0, 6, 0, 7, 0]), 9), (0, 0));
}

#[test]
fn seventeen_comes_after_five_and_before_the_next_record() {
    // Cut and needless, wherever it is cut.
    for length in 1..7 {
        assert_eq!(read(&[7, 0, 4, 16, 0, 16, 0][..length], 3), (5, 0), "{length}");
        assert_eq!(read(&[&[0], &[7, 0, 0, 0, 0, 0, 0][..length]].concat(), 3), (5, 1), "{length}");
        assert_eq!(read(&after_a_shot(&[7, 5, 0, 6, 0, 7, 0][..length]), 6), (5, 8), "{length}");
    }
    // Needless with a bit that has no meaning, and without a place.
    for bit in [8, 16, 32, 64, 128] {
        assert_eq!(read(&[bit | 1, 0, 4], 3), (4, 0), "{bit}");
        assert_eq!(read(&after_a_shot(&[bit | 7, 5, 0, 6, 0, 7, 0]), 6), (4, 8), "{bit}");
    }
    assert_eq!(read(&[0, 1, 0, 0], 2), (3, 1));
    assert_eq!(read(&after_a_shot(&[1, 5, 0]), 5), (3, 8));
    // A needless record, then one at fault: without a place, with another bit, cut, or needless too.
    for (behind, places) in [(&[0][..], 6), (&[8], 9), (&[1], 9), (&[1, 0], 9), (&[4, 7, 0], 9)] {
        assert_eq!(read(&after_a_shot(&[&[2, 6, 0], behind].concat()), places), (17, 8), "{behind:?}");
        assert_eq!(read(&[&[4, 16, 0], behind].concat(), places - 6), (17, 0), "{behind:?}");
    }
    // The last shot that is allowed, and the first that is not.
    let needless = |records: usize, behind: &[u8]| [&vec![0; records][..], &[1, 0, 0], behind].concat();
    assert_eq!(read(&needless(4096, &[]), 12_288), (17, 4096));
    assert_eq!(read(&needless(4096, &[0]), 12_288), (17, 4096));
    assert_eq!(read(&needless(4096, &[]), 12_287), (3, 4096));
    assert_eq!(read(&needless(4097, &[]), 12_288), (2, 4097));
    assert_eq!(read(&needless(4097, &[]), 20_000), (2, 4097));
}

#[test]
fn absent_fields_repeat_axis_by_axis() {
    let mut coords = vec![7; 16];
    let file = [0, 5, 1, 0, 2, 0, 2, 3, 0, 1, 0, 0, 0];
    assert_eq!(calls::read(&file, &mut coords), [0, 0, 1024, 16, 16, 4]);
    assert_eq!(coords, [1, 0, 2, 1, 3, 2, 0, 3, 2, 0, 3, 2, 7, 7, 7, 7]);
    assert_eq!(calls::read(&[0], &mut coords), [0, 0, 1024, 16, 16, 0]);
    assert_eq!(calls::read(&[4, 8, 0], &mut coords), [0, 0, 1024, 16, 8, 0]);
    let read = shotfile::read(&file, 12).unwrap();
    assert_eq!(shotfile::shortest(&read), file);
    assert_eq!(shotfile::shortest(&list(1024, 16, 16, &[0, 0, 0])), [0, 0]);
    assert_eq!(shotfile::shortest(&list(1024, 16, 8, &[0, 0, 0])), [4, 8, 0, 0]);
}

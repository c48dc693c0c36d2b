//! The jobs whose totals the request gives.

use oracle::calls::{self, Calls};
use oracle::list::List;
use oracle::quote::{credits, quote};

fn job(field: u16, edge: u16, grid: u16, shots: &[[u16; 3]]) -> List {
    List { field, edge, grid, coords: shots.concat() }
}

/// A job's edge, its shots, and its volume, area, edge length, inner length and corners.
type Known<'a> = (u16, &'a [[u16; 3]], [u64; 5]);

/// The measuring call's answer with plenty of room; the listing call must give the same.
fn measure(list: &List) -> [u64; 7] {
    let calls = Calls::on(list);
    let answer = calls.measure(&mut vec![0; 2_000_000]);
    assert_eq!(answer, calls.list(&mut vec![0; 2_000_000], &mut vec![0; 70_000]));
    answer
}

#[test]
fn the_table_of_known_totals() {
    let mut about = Vec::new();
    for x in 0..3 {
        for y in 0..3 {
            for z in 0..3 {
                if [x, y, z] != [1, 1, 1] {
                    about.push([x, y, z]);
                }
            }
        }
    }
    for grid in [1, 2, 4, 8] {
        let known: [Known; 8] = [
            (2, &[], [0, 0, 0, 0, 0]),
            (2, &[[1, 1, 1]], [8, 24, 24, 0, 8]),
            (2, &[[1, 1, 1], [1, 1, 1]], [8, 24, 24, 0, 8]),
            (2, &[[0, 0, 0], [2, 0, 0]], [16, 40, 32, 0, 8]),
            (2, &[[0, 0, 0], [2, 2, 0]], [16, 48, 48, 0, 14]),
            (2, &[[0, 0, 0], [2, 2, 2]], [16, 48, 48, 0, 15]),
            (2, &[[0, 0, 0], [1, 1, 1]], [15, 42, 42, 6, 20]),
            (1, &about, [26, 60, 36, 12, 16]),
        ];
        for (edge, shots, figures) in known {
            let answer = measure(&job(8, edge, grid, shots));
            assert_eq!((&answer[..2], &answer[2..]), (&[0, 0][..], &figures[..]), "{shots:?}");
        }
    }
}

#[test]
fn the_whole_field_as_one_shot() {
    for shots in [1, 2, 4096] {
        let list = job(1024, 1024, 1, &vec![[0; 3]; shots]);
        assert_eq!(measure(&list), [0, 0, 1_073_741_824, 6_291_456, 12_288, 0, 8]);
    }
}

#[test]
fn credits_of_known_jobs() {
    for grid in [1, 2, 4, 8] {
        let known: [(&[[u16; 3]], &[u32]); 7] = [
            (&[], &[]),
            (&[[1, 1, 1]], &[8]),
            (&[[1, 1, 1], [1, 1, 1]], &[8, 0]),
            (&[[0, 0, 0], [2, 0, 0]], &[8, 8]),
            (&[[0, 0, 0], [1, 1, 1]], &[8, 7]),
            (&[[1, 1, 1], [0, 0, 0]], &[8, 7]),
            // The third lies in the first two.
            (&[[0, 0, 0], [2, 0, 0], [1, 0, 0], [2, 1, 0]], &[8, 8, 0, 4]),
        ];
        for (shots, expected) in known {
            let mut credits = vec![77; expected.len()];
            let answer = calls::credit(&job(8, 2, grid, shots), &mut vec![0; 2000], &mut credits);
            assert_eq!((answer, &credits[..]), ([0, 0], expected), "{shots:?}");
        }
    }
    let mut credits = [77; 4];
    let whole = job(1024, 1024, 1, &[[0; 3]; 3]);
    assert_eq!(calls::credit(&whole, &mut [0; 5], &mut credits), [0, 0]);
    assert_eq!(credits, [1_073_741_824, 0, 0, 77]);
}

#[test]
fn the_edges_of_the_ranges() {
    let number = |list: &List| measure(list)[..2].to_vec();
    assert_eq!(number(&job(8, 2, 2, &[[6, 6, 6]])), [0, 0]);
    assert_eq!(number(&job(8, 2, 2, &[[7, 6, 6]])), [9, 0]);
    assert_eq!(number(&job(8, 8, 2, &[[0, 0, 0]])), [0, 0]);
    assert_eq!(number(&job(8, 9, 2, &[[0, 0, 0]])), [7, 0]);
    assert_eq!(number(&job(8, 2, 3, &[])), [8, 0]);
}

#[test]
fn the_entries_that_an_index_needs() {
    for (shot, need) in [([1; 3], 10), ([2; 3], 17), ([3; 3], 17)] {
        let list = job(8, 2, 2, &[shot]);
        let mut work = vec![77; need - 1];
        assert_eq!(calls::measure(&list, &mut work), [10, need as u64, 0, 0, 0, 0, 0]);
        assert_eq!(work, vec![77; need - 1]);
        let mut work = vec![77; need + 1];
        assert_eq!(calls::measure(&list, &mut work)[0], 0);
        assert_eq!(work[need], 77);
    }
}

#[test]
fn the_quoting_program_s_example() {
    let file = [7, 8, 0, 2, 0, 2, 0, 0, 7, 1, 0, 1, 0, 1, 0];
    assert_eq!(quote(&file), "volume 15\narea 42\nedge 42\ninner 6\ncorners 20\n");
    assert_eq!(quote(&[]), "refused 5 0\n");
    assert_eq!(quote(b"VOX "), "refused 4 0\n");
    assert_eq!(quote(&[0]), "volume 0\narea 0\nedge 0\ninner 0\ncorners 0\n");
    assert_eq!(quote(&[0, 0]), "volume 4096\narea 1536\nedge 192\ninner 0\ncorners 8\n");
    assert_eq!(quote(&[1, 8, 0]), "refused 7 0\n");
    assert_eq!(quote(&[4, 64, 0]), "refused 10 262145\n");
    // The first shot's zeros stand there; a third shot says its z alone, and x again.
    let zeros = [7, 8, 0, 2, 0, 2, 0, 7, 0, 0, 0, 0, 0, 0, 7, 1, 0, 1, 0, 1, 0];
    assert_eq!(quote(&zeros), "refused 17 7\n");
    let third = |record: &[u8]| quote(&[&file[..], record].concat());
    assert_eq!(third(&[4, 3, 0]), "volume 23\narea 58\nedge 50\ninner 6\ncorners 20\n");
    assert_eq!(third(&[5, 1, 0, 3, 0]), "refused 17 15\n");
}

#[test]
fn what_credits_prints() {
    let file = [7, 8, 0, 2, 0, 2, 0, 0, 7, 1, 0, 1, 0, 1, 0];
    assert_eq!(credits(&file), "0 8\n1 7\n");
    assert_eq!(credits(&[7, 8, 0, 2, 0, 2, 0, 0, 0]), "0 8\n1 0\n");
    assert_eq!(credits(&[0]), "");
    assert_eq!(credits(&[]), "refused 5 0\n");
    assert_eq!(credits(&[1, 8, 0]), "refused 7 0\n");
    assert_eq!(credits(&[4, 16, 0]), "refused 17 0\n");
    assert_eq!(credits(&[4, 64, 0]), "refused 10 262145\n");
    // A list of the most shots has a place for each, so none is refused by 16.
    assert_eq!(credits(&[0; 4097]).lines().last(), Some("4095 0"));
    assert_eq!(credits(&[0; 4098]), "refused 2 4097\n");
}

#[test]
fn files_that_leave_out_the_grid() {
    // 16 does not divide the field side; 8, named, does.
    assert_eq!(quote(&[3, 8, 0, 2, 0, 0]), "refused 8 0\n");
    assert_eq!(quote(&[7, 8, 0, 2, 0, 8, 0, 0]), "volume 8\narea 24\nedge 24\ninner 0\ncorners 8\n");
    // 16 is not named, even where it divides the field side.
    assert_eq!(quote(&[7, 16, 0, 2, 0, 16, 0, 0]), "refused 17 0\n");
    assert_eq!(quote(&[3, 16, 0, 2, 0, 0]), "volume 8\narea 24\nedge 24\ninner 0\ncorners 8\n");
    // A shot of edge 16 at the origin needs 4,098 entries with 16, and 514 with 8.
    let one = |grid| job(1024, 16, grid, &[[0; 3]]);
    assert_eq!(calls::measure(&one(16), &mut vec![0; 514]), [10, 4098, 0, 0, 0, 0, 0]);
    for (grid, need) in [(8, 514), (16, 4098)] {
        assert_eq!(calls::measure(&one(grid), &mut vec![0; need]), [0, 0, 4096, 1536, 192, 0, 8]);
    }
}

#[test]
fn how_many_large_shots_the_quoting_program_has_entries_for() {
    // Shots of edge 512 in a field of 1,024: on grid planes they touch most grid cells, between them fewest.
    for (header, place, most, refused) in [
        (&[2, 0, 2][..], 64, 12, 4097 + 13 * 1000),
        (&[2, 0, 2], 1, 16, 4097 + 17 * 729),
        (&[6, 0, 2, 8, 0], 128, 73, 513 + 74 * 216),
        (&[6, 0, 2, 8, 0], 1, 126, 513 + 127 * 125),
    ] {
        let file = |shots: usize| [header, &[7, place, 0, place, 0, place, 0], &vec![0; shots - 1]].concat();
        assert_eq!(quote(&file(most)), "volume 134217728\narea 1572864\nedge 6144\ninner 0\ncorners 8\n");
        assert_eq!(quote(&file(most + 1)), format!("refused 10 {refused}\n"));
    }
}

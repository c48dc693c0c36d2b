//! Edge and inner length: what each way of covering the four cells about a unit edge counts, and both together.

use oracle::calls::measured;
use oracle::inputs::{accepted, Random, Size};
use oracle::list::List;
use oracle::literal;

/// A cell by its place along an axis and its places on the other two.
fn cell(axis: usize, along: i64, first: i64, second: i64) -> [i64; 3] {
    match axis {
        0 => [along, first, second],
        1 => [first, along, second],
        _ => [first, second, along],
    }
}

/// Some of four cells that share a unit edge along an axis: what they measure is known by how many they are.
#[test]
fn every_way_to_cover_four_cells() {
    for (axis, ways) in (0..48).map(|n| (n / 16, n % 16)) {
        let four = [[1, 1], [1, 2], [2, 1], [2, 2]].map(|[first, second]| cell(axis, 1, first, second));
        let shots = (0..4).filter(|place| ways >> place & 1 == 1).map(|place| four[place]);
        let coords: Vec<u16> = shots.flatten().map(|c| c as u16).collect();
        let expected = match (coords.len() / 3, ways) {
            (0, _) => [0, 0, 0, 0],
            (1, _) => [1, 6, 12, 0],
            (2, 0b1001 | 0b0110) => [2, 12, 24, 0],
            (2, _) => [2, 10, 16, 0],
            (3, _) => [3, 14, 21, 1],
            _ => [4, 16, 20, 0],
        };
        let list = List { field: 4, edge: 1, grid: 2, coords };
        assert_eq!(measured(&list).numbers[..4], expected, "{list:?}");
    }
}

/// The unit edges of a list, where one or three covered cells count 1 and two that share only the edge count 2.
fn length(list: &List) -> u64 {
    let field = i64::from(list.field);
    let mut length = 0;
    for axis in 0..3 {
        for along in 0..field {
            for (first, second) in (0..(field + 1).pow(2)).map(|n| (n / (field + 1), n % (field + 1))) {
                let covered = |p: i64, q: i64| {
                    let [i, j, k] = cell(axis, along, first - p, second - q);
                    literal::covered(list, i, j, k)
                };
                length += match [covered(1, 1), covered(1, 0), covered(0, 1), covered(0, 0)] {
                    [true, false, false, true] | [false, true, true, false] => 2,
                    four => four.into_iter().filter(|covered| *covered).count() as u64 % 2,
                };
            }
        }
    }
    length
}

#[test]
fn both_lengths_together() {
    let mut random = Random::new(9);
    let mut with_inner = 0;
    for turn in 0..1500 {
        let size = if turn % 10 == 0 { Size { field: 12, shots: 30 } } else { Size { field: 7, shots: 12 } };
        let list = accepted(&mut random, size);
        let [_, _, edge, inner, _] = measured(&list).numbers;
        assert_eq!(edge + inner, length(&list), "{list:?}");
        with_inner += usize::from(inner > 0);
    }
    assert!(with_inner > 500, "{with_inner} lists have an inner length");
}

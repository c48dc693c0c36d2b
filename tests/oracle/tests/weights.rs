//! The ten weights of the 256 patterns: known ones, their ranges, and which patterns have any.

use oracle::corners::Weights;

/// The four cells of a pattern that lie below (0) or above (1) the point on an axis; the first and the last share only
/// the unit edge there, and so do the second and the third.
fn four(pattern: u8, axis: usize, side: usize) -> [bool; 4] {
    let places = [[0, 1, 2, 3], [0, 1, 4, 5], [0, 2, 4, 6]][axis];
    places.map(|place| pattern >> (place + side * (4 >> axis)) & 1 == 1)
}

/// Whether a pattern has the same cells on both sides of some axis.
fn same_across_an_axis(pattern: u8) -> bool {
    (0..3).any(|axis| four(pattern, axis, 0) == four(pattern, axis, 1))
}

/// What a unit edge counts where one length takes in both: one or three covered cells 1, two opposite ones 2.
fn both_lengths(four: [bool; 4]) -> i64 {
    match four {
        [a, b, c, d] if a ^ b ^ c ^ d => 1,
        [a, b, c, d] if a == d && b == c && a != b => 2,
        _ => 0,
    }
}

#[test]
fn known_weights() {
    for (pattern, w, a, e, i) in [
        (0x80, -1, [1, 1, 1], [-1, -1, -1], [0, 0, 0]),
        (0x01, 1, [1, 1, 1], [1, 1, 1], [0, 0, 0]),
        (0x81, 0, [2, 2, 2], [0, 0, 0], [0, 0, 0]),
        (0x82, -2, [0, 0, 2], [0, 0, -2], [0, 0, 0]),
        (0x7f, 1, [1, 1, 1], [0, 0, 0], [-1, -1, -1]),
        (0xfe, -1, [1, 1, 1], [0, 0, 0], [1, 1, 1]),
        (0xc3, 0, [0, 0, 0], [0, 0, 0], [0, 0, 0]),
        // Three cells above on x, where an inner edge along x begins; three below on z, where one along z ends.
        (0x70, 1, [-1, 1, 1], [0, -1, -1], [-1, 0, 0]),
        (0x15, -1, [-1, -1, -1], [-1, -1, 0], [0, 0, 1]),
    ] {
        assert_eq!(Weights::of(pattern), Weights { w, a, e, i }, "{pattern:02x}");
    }
}

#[test]
fn the_weights_ranges() {
    let all: Vec<Weights> = (0..=255).map(Weights::of).collect();
    let range = |weight: &dyn Fn(&Weights) -> i64| (all.iter().map(weight).min(), all.iter().map(weight).max());
    assert_eq!(range(&|t| t.w), (Some(-4), Some(4)));
    for axis in 0..3 {
        assert_eq!(range(&|t| t.a[axis]), (Some(-2), Some(2)));
        assert_eq!(range(&|t| t.e[axis]), (Some(-2), Some(2)));
        assert_eq!(range(&|t| t.i[axis]), (Some(-1), Some(1)));
    }
}

#[test]
fn both_lengths_have_the_weights_of_one_that_takes_in_both() {
    for pattern in 0..=255 {
        let weights = Weights::of(pattern);
        for axis in 0..3 {
            let one = both_lengths(four(pattern, axis, 0)) - both_lengths(four(pattern, axis, 1));
            assert_eq!(weights.e[axis] + weights.i[axis], one, "{pattern:02x} along axis {axis}");
        }
    }
}

/// Ten weights, or seven with one length for both: any is other than 0 exactly where the pattern changes across every
/// axis. So no listing depends on how the length is split.
#[test]
fn the_218_patterns_that_have_weights() {
    let changing: Vec<u8> = (0..=255).filter(|pattern| !same_across_an_axis(*pattern)).collect();
    let by_ten: Vec<u8> = (0..=255).filter(|pattern| Weights::of(*pattern).corner()).collect();
    let seven = |pattern: &u8| {
        let Weights { w, a, .. } = Weights::of(*pattern);
        let length = |axis| both_lengths(four(*pattern, axis, 0)) != both_lengths(four(*pattern, axis, 1));
        w != 0 || a != [0; 3] || (0..3).any(length)
    };
    let by_seven: Vec<u8> = (0..=255).filter(seven).collect();
    assert_eq!(changing.len(), 218);
    assert_eq!(by_ten, changing);
    assert_eq!(by_seven, changing);
}

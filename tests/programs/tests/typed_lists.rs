//! Typed lists through `write_shots`, and back through `shots`.

use oracle::inputs::{self, Random, Size};
use oracle::shotfile;
use programs::records::{left_out, with_needless};
use programs::run::{in_pieces, on};
use programs::text;

/// What a text is written to, without a complaint.
fn written(text: &str) -> Vec<u8> {
    on("write_shots", text.as_bytes()).good()
}

/// The complaint about a text, of which nothing may be written.
fn complaint(text: &[u8]) -> String {
    let told = on("write_shots", text);
    assert_eq!(told.output, [], "a file for {}", String::from_utf8_lossy(text));
    assert!(told.complaint.starts_with("write_shots: ") && told.complaint.ends_with('\n'), "{:?}", told.complaint);
    assert_eq!(told.complaint.lines().count(), 1, "{:?}", told.complaint);
    told.complaint
}

#[test]
fn settings_shots_and_comments() {
    assert_eq!(written(""), [0]);
    assert_eq!(written("field 1024\nedge 16\ngrid 16\n"), [0]);
    assert_eq!(written("grid 8"), [4, 8, 0]);
    assert_eq!(
        written("field 8\nedge 2\ngrid 2\nshot 0 0 0\nshot 1 1 1\n"),
        [7, 8, 0, 2, 0, 2, 0, 0, 7, 1, 0, 1, 0, 1, 0]
    );
    assert_eq!(
        written("# the first part\n\n  shot\t1 0 2 # lower corner\r\nfield 00064\r\n"),
        [1, 64, 0, 5, 1, 0, 2, 0]
    );
    assert_eq!(written("shot 1 2 3"), [0, 7, 1, 0, 2, 0, 3, 0]);
}

#[test]
fn mistakes_name_their_line() {
    for (text, line) in [
        ("fields 8\n", 1),
        ("field\n", 1),
        ("field 8\nedge 2 3\n", 2),
        ("\n\nshot 1 2\n", 3),
        ("shot 1 2 3 4", 1),
        ("shot 1 2 65536\n", 1),
        ("shot 1 2 99999999999999999999999\n", 1),
        ("shot 1 2 -3\n", 1),
        ("shot 1 2 0x3\n", 1),
        ("grid 8\n# as before\ngrid 8\n", 3),
        ("field 8\nrefused 5 at byte 8: the file ends before a field of this map, or is empty\n", 2),
        ("shot 1, 2, 3\n", 1),
        ("\0\n", 1),
    ] {
        let told = complaint(text.as_bytes());
        assert!(told.starts_with(&format!("write_shots: line {line}: ")), "{told:?} for {text:?}");
    }
}

#[test]
fn lists_that_no_call_accepts() {
    for (text, number) in [
        ("field 0", 6),
        ("field 1025", 6),
        ("edge 0", 7),
        ("field 8", 7),
        ("grid 3", 8),
        ("field 24", 8),
        ("field 8\nedge 2", 8),
        ("shot 1009 0 0", 9),
    ] {
        let told = complaint(text.as_bytes());
        assert!(told.contains(&number.to_string()) && told.contains(text::sentence(number)), "{told:?} for {text:?}");
    }
}

#[test]
fn as_many_shots_as_allowed_and_one_more() {
    let most = "shot 0 0 0\n".repeat(4096);
    assert_eq!(written(&most), [0; 4097]);
    assert!(complaint((most.clone() + "shot 0 0 0\n").as_bytes()).starts_with("write_shots: line 4097: "));
}

#[test]
fn a_text_that_is_too_long() {
    complaint(" ".repeat(400_000).as_bytes());
}

#[test]
fn any_bytes() {
    let mut random = Random::new(43);
    let words = [
        "field", "edge", "grid", "shot", "1", "2", "16", "65535", "65536", "#", "\n", "\n", " ", "\t", "\r", "x",
        "refused",
    ];
    for _ in 0..300 {
        let mut text = Vec::new();
        for _ in 0..random.within(0, 30) {
            if random.once_in(20) {
                text.push(random.within(0, 255) as u8);
            } else {
                text.extend(random.one_of(&words).as_bytes());
                text.push(b' ');
            }
        }
        let told = on("write_shots", &text);
        assert!(told.output.is_empty() != told.complaint.is_empty(), "{told:?} for {text:?}");
    }
}

#[test]
fn a_list_typed_and_printed() {
    let mut random = Random::new(44);
    let mut longer = 0;
    for number in 0..300 {
        let size = if number % 30 == 0 { Size { field: 1024, shots: 4096 } } else { Size { field: 64, shots: 40 } };
        let list = inputs::accepted(&mut random, size);
        let file = shotfile::shortest(&list);
        assert_eq!(in_pieces("write_shots", text::typed(&list).as_bytes(), random.within(1, 5000)).good(), file);
        assert_eq!(on("write_shots", &on("shots", &file).good()).good(), file);
        // A longer file of the same list is refused, and of its text no file is written, not even a shorter one.
        let fields = left_out(&file);
        if !fields.is_empty() {
            let field = random.one_of(&fields);
            let text = on("shots", &with_needless(&file, field)).text();
            let verdict = format!("refused 17 at byte {}: {}", field.0, text::sentence(17));
            assert_eq!(text.lines().next_back(), Some(verdict.as_str()), "{list:?}");
            assert!(complaint(text.as_bytes()).starts_with(&format!("write_shots: line {}: ", text.lines().count())));
            longer += 1;
        }
    }
    assert!(longer > 200, "{longer} of the files leave out a field");
}

//! The tables of a shop as a text: what is read of it, each mistake with its line, and what is said of the table that
//! the library refuses.

#[path = "../examples/price/tables.rs"]
mod tables;

use heqdanu::{Band, Tables, TOP_AMOUNT};
use tables::{Shop, Table, LONGEST};

fn band(first: u64, last: u64, cents: u64) -> Band {
    Band { first, last, cents }
}

/// The mistake of a text.
fn mistake(text: impl AsRef<[u8]>) -> String {
    Shop::read(text.as_ref()).expect_err("a mistake")
}

/// What is said of a text whose tables are refused.
fn fault(text: &str) -> String {
    Shop::read(text.as_bytes()).expect("tables").fault().expect("a table that is refused")
}

#[test]
fn lines_in_any_mix() {
    let text = "# a shop\n\narea 0 9 3 # walls\n\tvolume  00 1099511627776\t10000\r\n\
                area 10 1099511627776 2#\n \t \r\nedge 5 6 7";
    let shop = Shop::read(text.as_bytes()).expect("tables");
    assert_eq!(
        shop.tables,
        [
            Table { bands: vec![band(0, TOP_AMOUNT, 10_000)], lines: vec![4] },
            Table { bands: vec![band(0, 9, 3), band(10, TOP_AMOUNT, 2)], lines: vec![3, 5] },
            Table { bands: vec![band(5, 6, 7)], lines: vec![7] },
        ]
    );
    let [volume, area, edge] = &shop.tables;
    assert_eq!(shop.lent(), Tables { volume: &volume.bands, area: &area.bands, edges: &edge.bands });
    for text in ["", "\n", "#", "# volume 1\n\r\n", " \t\n\t"] {
        assert_eq!(Shop::read(text.as_bytes()), Ok(Shop::default()), "{text:?}");
    }
    // Comments are text in any language.
    assert_eq!(Shop::read("# Größe, 価格\n".as_bytes()), Ok(Shop::default()));
}

#[test]
fn numbers_of_64_bits() {
    let text = format!("volume 18446744073709551615 {}1 0", "0".repeat(500));
    assert_eq!(Shop::read(text.as_bytes()).expect("tables").tables[0].bands, [band(u64::MAX, 1, 0)]);
    let large = "line 1: a number is above 18,446,744,073,709,551,615";
    for number in ["18446744073709551616", "18446744073709551625", "99999999999999999999999999999999999999999"] {
        for line in [format!("edge {number} 1 2"), format!("edge 0 {number} 2"), format!("edge 0 1 {number}")] {
            assert_eq!(mistake(line), large);
        }
    }
    for number in ["-1", "+1", "1.0", "1,000", "0x1", "1e3", "ten", "1_0", "٣", "1\u{a0}", "\u{2003}1"] {
        assert_eq!(
            mistake(format!("\nedge 0 {number} 2")),
            "line 2: a number is not of decimal digits only",
            "{number}"
        );
    }
}

#[test]
fn mistakes_name_their_line() {
    let few = "too few words; a band has three numbers, its first and last amount and its cents";
    let many = few.replace("few", "many");
    for (text, line, words) in [
        ("volumes 0 1 2\n", 1, "the first word is not volume, area or edge"),
        ("volume 0 1 2\n\nVolume 0 1 2\n", 3, "the first word is not volume, area or edge"),
        ("# bands\nedges 0 1 2", 2, "the first word is not volume, area or edge"),
        ("inner 0 1 2", 1, "the first word is not volume, area or edge"),
        ("0 1 2", 1, "the first word is not volume, area or edge"),
        ("\u{feff}volume 0 1 2", 1, "the first word is not volume, area or edge"),
        ("volume\u{a0}0 1 2", 1, "the first word is not volume, area or edge"),
        ("volume\n", 1, few),
        ("volume 0 1\n", 1, few),
        ("area 0 1 # 2\n", 1, few),
        ("volume 0 1#2\n", 1, few),
        ("\r\n\r\nedge 0 1 2 3\r\n", 3, &many),
        ("volume 0 1 2 cents", 1, &many),
        ("volume 0 x 99999999999999999999", 1, "a number is not of decimal digits only"),
        ("volume 0 99999999999999999999 x", 1, "a number is above 18,446,744,073,709,551,615"),
        ("volume 0 1 2\narea 0 1 2\0", 2, "these bytes are no text"),
        ("volume 0 1 2\rarea 0 1 2\r", 1, "these bytes are no text"),
        ("volume 0 1 2\r\r\n", 1, "these bytes are no text"),
        ("# bell \u{7}\n", 1, "these bytes are no text"),
        // The first mistake is the one that is said.
        ("volume 0 1 2\n1\n2\n", 2, "the first word is not volume, area or edge"),
    ] {
        assert_eq!(mistake(text), format!("line {line}: {words}"), "{text:?}");
    }
    assert_eq!(mistake([b"\n\n# ", &[0xff][..], b"\n"].concat()), "line 3: these bytes are no text");
    assert_eq!(mistake(b"v\0o\0l\0u\0m\0e\0"), "line 1: these bytes are no text");
}

/// A text whose other tables are good, and whose area has these lines from line 4 on.
fn with_area(lines: &str) -> String {
    format!("volume 0 1099511627776 1\nedge 0 1099511627776 1\n\n{lines}\n")
}

#[test]
fn the_table_that_is_refused() {
    for (lines, words) in [
        ("area 1 1099511627776 2", "line 4: this band of area is the first, and starts at 1 and not at 0"),
        ("area 0 1099511627777 2", "line 4: this band of area ends past 1,099,511,627,776"),
        ("area 0 1099511627775 2", "the bands of area end before 1,099,511,627,776"),
        ("", "area has no band"),
        ("area 0 9 1\n#\narea 11 20 1", "line 6: this band of area starts at 11, and the one before ends at 9"),
        ("area 0 9999 1\narea 9 20 1", "line 5: this band of area starts at 9, and the one before ends at 9,999"),
        ("area 0 9 1\narea 10 9 1", "line 5: this band of area ends at 9, before its start"),
        ("area 0 9 10001", "line 4: this band of area costs more than 10,000 cents for each unit"),
        (
            "area 0 1099511627776 1\narea 1099511627777 1099511627778 1",
            "line 5: this band of area stands behind the one that ends at 1,099,511,627,776",
        ),
        (
            "area 0 9 1\narea 18446744073709551615 0 1",
            "line 5: this band of area starts at 18,446,744,073,709,551,615, and the one before ends at 9",
        ),
    ] {
        assert_eq!(fault(&with_area(lines)), words, "{lines}");
        // The same of the first table and of the last.
        for name in ["volume", "edge"] {
            let text = with_area(lines).replace(name, "AREA").replace("area", name).replace("AREA", "area");
            assert_eq!(fault(&text), words.replace("area", name), "{text}");
        }
    }
    // The first of several: volume, area, edge, wherever their lines stand.
    assert_eq!(fault("edge 1 2 3\narea 1 2 3\nvolume 0 2 3\n"), "the bands of volume end before 1,099,511,627,776");
    assert_eq!(fault("volume 0 1099511627776 1\nedge 1 2 3\n"), "area has no band");
    assert_eq!(fault(""), "volume has no band");
    assert_eq!(Shop::read(with_area("area 0 1099511627776 10000").as_bytes()).expect("tables").fault(), None);
}

#[test]
fn as_many_bands_as_allowed_and_one_more() {
    let most: String = (0..63).map(|amount| format!("area {amount} {amount} 1\n")).collect();
    let top = |start: u64| format!("area {start} 1099511627776 1\n");
    assert_eq!(Shop::read(with_area(&(most.clone() + &top(63))).as_bytes()).expect("tables").fault(), None);
    assert_eq!(fault(&with_area(&(most.clone() + "area 63 63 1"))), "the bands of area end before 1,099,511,627,776");
    let words = "line 68: area has more than 64 bands";
    assert_eq!(fault(&with_area(&(most.clone() + "area 63 63 1\n" + &top(64)))), words);
    assert_eq!(fault(&with_area(&"area 5 4 99999\n".repeat(2000))), words);
}

/// The longest text is one of a good size, and is read in no time.
#[test]
fn the_longest_text() {
    let line = "volume 0 1 2\n";
    let text = line.repeat(LONGEST / line.len());
    let shop = Shop::read(text.as_bytes()).expect("tables");
    assert_eq!(shop.tables[0].bands.len(), LONGEST / line.len());
    assert_eq!(shop.fault(), Some("line 65: volume has more than 64 bands".into()));
}

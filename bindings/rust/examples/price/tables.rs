//! The tables of a shop as a text: a line `volume FIRST LAST CENTS` for each band, or `area ..`, or `edge ..`, in any
//! mix. The bands of a table stand in the order of their lines. `#` begins a comment, and blank lines pass. What bands
//! make a table is left to the library; here is how they are written, and what its refusal means in words.

use heqdanu::{charges, Band, List, Reason, Refusal, Tables, HIGHEST_RATE, MOST_BANDS, TOP_AMOUNT};

/// The bytes of the longest text.
pub const LONGEST: usize = 1_048_575;

/// What has a price, as the first word of a line names it, in the order in which the library tests the tables.
const NAMES: [&str; 3] = ["volume", "area", "edge"];

/// The bands of a table, and the line of each, from 1.
#[derive(Debug, Default, PartialEq, Eq)]
pub struct Table {
    pub bands: Vec<Band>,
    pub lines: Vec<usize>,
}

/// The tables of `NAMES`.
#[derive(Debug, Default, PartialEq, Eq)]
pub struct Shop {
    pub tables: [Table; 3],
}

impl Shop {
    /// The tables of a text, or its first mistake, with the line.
    pub fn read(text: &[u8]) -> Result<Shop, String> {
        let mut shop = Shop::default();
        for (number, line) in (1..).zip(text.split(|byte| *byte == b'\n')) {
            let read = words_of(line).and_then(|words| band_of(&words));
            if let Some((place, band)) = read.map_err(|mistake| format!("line {number}: {mistake}"))? {
                shop.tables[place].bands.push(band);
                shop.tables[place].lines.push(number);
            }
        }
        Ok(shop)
    }

    /// The tables as the library takes them.
    pub fn lent(&self) -> Tables<'_> {
        let [volume, area, edge] = &self.tables;
        Tables { volume: &volume.bands, area: &area.bands, edges: &edge.bands }
    }

    /// What is wrong with the first table that the library refuses; none where it refuses none.
    pub fn fault(&self) -> Option<String> {
        NAMES.iter().zip(&self.tables).find_map(|(name, table)| Some(table.fault(name, table.refused()?)))
    }
}

impl Table {
    /// The detail with which the library refuses this table alone: beside two that are good, on a list without shots.
    fn refused(&self) -> Option<usize> {
        let good = [Band { first: 0, last: TOP_AMOUNT, cents: 0 }];
        let tables = Tables { volume: &self.bands, area: &good, edges: &good };
        match charges(&List { field: 1, edge: 1, grid: 1, coords: &[] }, &tables) {
            Err(Refusal { reason: Reason::InvalidTable, detail }) => Some(detail as usize),
            _ => None,
        }
    }

    /// What is wrong with this table, which the library refuses with that detail.
    fn fault(&self, name: &str, detail: usize) -> String {
        if let Some(line) = self.lines.get(MOST_BANDS) {
            return format!("line {line}: {name} has more than {MOST_BANDS} bands");
        }
        match self.bands.get(detail) {
            Some(band) => {
                let before = detail.checked_sub(1).map(|place| self.bands[place]);
                format!("line {}: this band of {name} {}", self.lines[detail], band_fault(before, *band))
            }
            None if self.bands.is_empty() => format!("{name} has no band"),
            None => format!("the bands of {name} end before {}", grouped(TOP_AMOUNT)),
        }
    }
}

/// What is wrong with a band behind another that is good, or with the first.
fn band_fault(before: Option<Band>, band: Band) -> String {
    match before {
        None if band.first != 0 => return format!("is the first, and starts at {} and not at 0", grouped(band.first)),
        Some(before) if before.last == TOP_AMOUNT => {
            return format!("stands behind the one that ends at {}", grouped(TOP_AMOUNT));
        }
        Some(before) if band.first != before.last + 1 => {
            return format!("starts at {}, and the one before ends at {}", grouped(band.first), grouped(before.last));
        }
        _ => (),
    }
    if band.last < band.first {
        return format!("ends at {}, before its start", grouped(band.last));
    }
    if band.last > TOP_AMOUNT {
        return format!("ends past {}", grouped(TOP_AMOUNT));
    }
    format!("costs more than {} cents for each unit", grouped(HIGHEST_RATE))
}

/// The words of a line, up to a comment. A carriage return may stand before the line's end.
fn words_of(line: &[u8]) -> Result<Vec<&str>, String> {
    let line = line.strip_suffix(b"\r").unwrap_or(line);
    let text = std::str::from_utf8(line).ok().filter(|text| !text.contains(|letter: char| is_control(letter)));
    let text = text.ok_or("these bytes are no text")?;
    let said = text.split('#').next().unwrap_or_default();
    Ok(said.split([' ', '\t']).filter(|word| !word.is_empty()).collect())
}

/// Whether a character stands in no text.
fn is_control(letter: char) -> bool {
    letter.is_control() && letter != '\t'
}

/// The band that the words of a line say, with the place of its table; none of no words.
fn band_of(words: &[&str]) -> Result<Option<(usize, Band)>, String> {
    let [name, numbers @ ..] = words else { return Ok(None) };
    let place = NAMES.iter().position(|known| known == name);
    let place = place.ok_or("the first word is not volume, area or edge")?;
    let [first, last, cents] = numbers else {
        let many = if numbers.len() < 3 { "few" } else { "many" };
        return Err(format!("too {many} words; a band has three numbers, its first and last amount and its cents"));
    };
    Ok(Some((place, Band { first: number_of(first)?, last: number_of(last)?, cents: number_of(cents)? })))
}

/// The number that a word says in decimal digits.
fn number_of(word: &str) -> Result<u64, String> {
    if !word.bytes().all(|byte| byte.is_ascii_digit()) {
        return Err("a number is not of decimal digits only".into());
    }
    word.parse().map_err(|_| format!("a number is above {}", grouped(u64::MAX)))
}

/// A number with a comma before each three digits but the first ones.
fn grouped(number: u64) -> String {
    let digits = number.to_string();
    let mut text = String::new();
    for (place, digit) in digits.chars().enumerate() {
        if place > 0 && (digits.len() - place) % 3 == 0 {
            text.push(',');
        }
        text.push(digit);
    }
    text
}

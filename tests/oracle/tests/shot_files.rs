//! Shot files: a list has one, and only that one is read; and the generated files are of every kind, so that tests on
//! them meet acceptance and each refusal.

use oracle::inputs::{accepted, crowded_file, file, longer_file, Random, Size};
use oracle::list::refusal;
use oracle::literal::maps;
use oracle::met::Met;
use oracle::quote::{BYTES, PLACES};
use oracle::shotfile::{read, shortest};

/// The number with which a file is read, 0 where it is accepted.
fn number(file: &[u8], places: usize) -> u64 {
    read(file, places).map_or_else(|refusal| refusal.number, |_| 0)
}

#[test]
fn files_of_every_kind() {
    let mut random = Random::new(31);
    let mut met = Met::default();
    for _ in 0..20_000 {
        let file = file(&mut random, Size { field: 1024, shots: 12 });
        met.count(number(&file, random.one_of(&[9, PLACES])));
    }
    met.each(&[0, 3, 4, 5, 17], 1_000);
    met.each(&[2], 10);
}

/// Among them are accepted files of as many shots as are allowed, and as long as can be.
#[test]
fn crowded_files_of_every_kind() {
    let mut random = Random::new(32);
    let mut met = Met::default();
    let (mut full, mut longest) = (0, 0);
    for _ in 0..1_000 {
        let file = crowded_file(&mut random);
        met.count(number(&file, PLACES));
        if let Ok(list) = read(&file, PLACES) {
            full += usize::from(list.coords.len() == PLACES);
            longest += usize::from(file.len() == BYTES - 1);
        }
    }
    met.each(&[0, 2, 4, 5, 17], 20);
    assert!(full > 50 && longest > 10, "{full} of as many shots as are allowed, {longest} as long as can be");
}

/// A longer file is refused at the first map that is another than in the shortest file. One field alone may be
/// needless, any of the header, of the first shot, of a later one, or of one behind a shot that leaves that field out.
#[test]
fn longer_files() {
    let mut random = Random::new(33);
    let mut alone = [[0; 3]; 4];
    let mut none = 0;
    for _ in 0..20_000 {
        let list = accepted(&mut random, Size { field: 1024, shots: 8 });
        let (short, long) = (shortest(&list), longer_file(&mut random, &list));
        assert_eq!(read(&short, PLACES), Ok(list));
        let Some(map) = (0..long.len()).find(|place| short.get(*place) != Some(&long[*place])) else {
            none += 1;
            continue;
        };
        assert_eq!(read(&long, PLACES), Err(refusal(17, map)), "{long:02x?}");
        if long.len() == short.len() + 2 {
            let needless = long[map] ^ short[map];
            let maps = maps(&long);
            let record = maps.iter().position(|place| *place == map).expect("a record begins there");
            let repeated = record > 1 && long[maps[record - 1]] & needless == 0;
            let kind = if repeated { 3 } else { record.min(2) };
            alone[kind][needless.trailing_zeros() as usize] += 1;
        }
    }
    let kinds = alone.iter().flatten().all(|files| *files > 50);
    assert!(kinds && none < 10_000, "{alone:?} with one needless field, {none} with none");
}

/// Of files made any way, what is read is written back to the file's own bytes.
#[test]
fn what_is_read_is_written_back() {
    let mut random = Random::new(34);
    let mut taken = 0;
    for turn in 0..20_000 {
        let file = match turn % 20 {
            0 => crowded_file(&mut random),
            1..=9 => file(&mut random, Size { field: 1024, shots: 12 }),
            _ => (0..random.within(0, 12)).map(|_| random.one_of(&[0, 0, 1, 2, 4, 7, 16])).collect(),
        };
        if let Ok(list) = read(&file, PLACES) {
            assert_eq!(shortest(&list), file);
            taken += 1;
        }
    }
    assert!(taken > 5_000, "{taken} files are accepted");
}

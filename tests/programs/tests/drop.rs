//! `drop`: the list without its shots of credit 0, held to the first by its listing before anything is written.

use oracle::inputs::{accepted, coarsen, Random, Size};
use oracle::list::List;
use oracle::quote::credits;
use oracle::shotfile::{self, shortest};
use programs::run::on;
use programs::text::NOT_SHORTEST;
use programs::tree::Tree;

const OVERLAP: [u8; 15] = [7, 8, 0, 2, 0, 2, 0, 0, 7, 1, 0, 1, 0, 1, 0];

fn file(shots: &[[u16; 3]]) -> Vec<u8> {
    shortest(&List { field: 8, edge: 2, grid: 2, coords: shots.concat() })
}

/// The file without the shots to which the oracle credits nothing.
fn dropped(file: &[u8]) -> Vec<u8> {
    let mut list = shotfile::read(file, 12_288).expect("the list is accepted");
    let credits = credits(file);
    let kept = credits.lines().map(|line| !line.ends_with(" 0"));
    list.coords =
        list.coords.chunks(3).zip(kept).filter(|(_, keep)| *keep).flat_map(|(shot, _)| shot.to_vec()).collect();
    shortest(&list)
}

#[test]
fn repeats_and_shots_within_others() {
    let tree = Tree::built();
    let cube = file(&[[1, 1, 1]]);
    for (shots, left) in [
        (&[[1, 1, 1], [1, 1, 1], [1, 1, 1]][..], cube.clone()),
        (&[[0, 0, 0], [1, 1, 1], [1, 1, 1]], OVERLAP.to_vec()),
        (&[[0, 0, 0], [2, 0, 0], [1, 0, 0]], file(&[[0, 0, 0], [2, 0, 0]])),
        // Behind a shot that goes, a field that is needless then goes too, and one that is needed then comes.
        (&[[1, 1, 1], [3, 3, 1], [1, 1, 1], [3, 5, 1]], file(&[[1, 1, 1], [3, 3, 1], [3, 5, 1]])),
        (&[[1, 1, 1], [3, 1, 1], [2, 1, 1], [2, 3, 1]], file(&[[1, 1, 1], [3, 1, 1], [2, 3, 1]])),
        (&[[1, 1, 1]], cube),
        (&[], file(&[])),
    ] {
        tree.file("a part", &file(shots));
        let ended = tree.run("drop", &["a part"]);
        assert_eq!((ended.output, ended.complaint.as_str(), ended.status), (left.clone(), "", 0));
        assert_eq!(tree.shell("heqdanu drop", &file(shots)).output, left);
        assert_eq!(
            tree.shell("heqdanu drop 'a part' >out; heqdanu same out 'a part' && heqdanu drop out", &[]).status,
            0
        );
    }
    // The same bytes, where nothing is dropped.
    assert_eq!(tree.shell("heqdanu drop", &OVERLAP).output, OVERLAP);
}

#[test]
fn what_is_refused() {
    let tree = Tree::built();
    tree.file("cut", &OVERLAP[..14]);
    tree.file("outside", include_bytes!("../../../examples/outside.shots"));
    let cut = "drop: cut: refused 5 8: the file ends before a field of this map, or is empty\n";
    tree.run("drop", &["cut"]).is("", cut, 1);
    tree.run("drop", &["outside"]).is("", "drop: outside: refused 9 1: a shot leaves the field\n", 1);
    // A file that is not in its shortest form is not brought into it.
    let longer = [7, 8, 0, 2, 0, 2, 0, 7, 0, 0, 0, 0, 0, 0, 7, 1, 0, 1, 0, 1, 0];
    let needless = "drop: standard input: refused 17 7: a field of this map says what its absence would mean";
    let complaint = format!("{needless}\ndrop: standard input: {NOT_SHORTEST}\n");
    tree.shell("heqdanu drop", &longer).is("", &complaint, 1);
    // More bytes than a program takes.
    let ended = tree.shell("heqdanu drop", &vec![0; 100_000]);
    assert_eq!((ended.output.len(), ended.status), (0, 1));
    assert!(ended.complaint.starts_with("drop: standard input: refused 2 4097: "), "{}", ended.complaint);
}

#[test]
fn generated_lists() {
    let tree = Tree::built();
    let mut random = Random::new(93);
    let mut taken = 0;
    for _ in 0..25 {
        let mut list = accepted(&mut random, Size { field: 12, shots: 30 });
        coarsen(&mut list, 10_000);
        let file = shortest(&list);
        let ended = tree.shell("heqdanu drop", &file);
        assert_eq!((&ended.output, ended.complaint.as_str(), ended.status), (&dropped(&file), "", 0), "{list:?}");
        taken += usize::from(ended.output.len() < file.len());
    }
    assert!(taken > 8, "{taken} lists have a shot of credit 0");
}

#[test]
fn as_many_shots_as_allowed() {
    let tree = Tree::built();
    let mut random = Random::new(94);
    let coords: Vec<u16> = (0..3 * 4096).map(|_| random.within(0, 20) as u16).collect();
    let file = shortest(&List { field: 64, edge: 3, grid: 4, coords });
    let ended = tree.shell("heqdanu drop", &file);
    assert_eq!((&ended.output, ended.status), (&dropped(&file), 0));
    assert!(ended.output.len() < file.len() / 2);
}

/// What the programs say is not believed: nothing is written where the part is another.
#[test]
fn a_wrong_credit_writes_nothing() {
    let tree = Tree::built();
    tree.file("part", &OVERLAP);
    let other = "drop: part: without its shots of credit 0 it has other corners, so nothing is written\n";
    tree.replace_program("credits", "cat >/dev/null; echo 0 15; echo 1 0");
    tree.run("drop", &["part"]).is("", other, 2);
    // A shot without a credit.
    tree.replace_program("credits", "cat >/dev/null; echo 0 15");
    let ended = tree.run("drop", &["part"]);
    assert_eq!((ended.text().as_str(), ended.status), ("", 2));
    tree.replace_program("credits", "cat >/dev/null; echo credits: trouble >&2");
    tree.run("drop", &["part"]).is("", "drop: part: trouble\n", 2);
    assert_eq!(on("credits", &OVERLAP).text(), "0 8\n1 7\n");
}

//! Two shot files through `same`: it says that they cure the same cells, or names the first corner that differs.

use oracle::inputs::{accepted, coarsen, Random, Size};
use oracle::list::List;
use oracle::shotfile::shortest;
use programs::listing::compared;
use programs::tree::Tree;

fn file(field: u16, edge: u16, grid: u16, shots: &[[u16; 3]]) -> Vec<u8> {
    shortest(&List { field, edge, grid, coords: shots.concat() })
}

#[test]
fn the_examples() {
    let tree = Tree::built();
    let examples = concat!(env!("CARGO_MANIFEST_DIR"), "/../../examples");
    let line = |names: &str| format!("cd '{examples}' && heqdanu same {names}");
    tree.shell(&line("overlap.shots overlap_again.shots"), &[]).is(
        "overlap.shots and overlap_again.shots cure the same cells\n",
        "",
        0,
    );
    tree.shell(&line("one_cube.shots overlap.shots"), &[]).is(
        "overlap.shots alone has the corner 0 0 0 with pattern 128\n",
        "",
        1,
    );
    tree.shell(&line("overlap.shots face_to_face.shots"), &[]).is(
        "overlap.shots alone has the corner 1 1 2 with pattern 213\n",
        "",
        1,
    );
    tree.shell(&line("cut_off.shots overlap.shots"), &[]).is(
        "",
        "same: cut_off.shots: refused 5 8: the file ends before a field of this map, or is empty\n",
        2,
    );
    tree.shell(&line("overlap.shots outside.shots"), &[]).is(
        "",
        "same: outside.shots: refused 9 1: a shot leaves the field\n",
        2,
    );
    tree.shell(&line("overlap.shots -"), &[]).is(
        "",
        "same: standard input: refused 5 0: the file ends before a field of this map, or is empty\n",
        2,
    );
}

#[test]
fn standard_input_on_either_side() {
    let tree = Tree::built();
    let cube = file(8, 2, 2, &[[1, 1, 1]]);
    tree.file("a part", &cube);
    tree.shell("heqdanu same 'a part' -", &cube).is("a part and standard input cure the same cells\n", "", 0);
    tree.shell("heqdanu same - 'a part'", &cube).is("standard input and a part cure the same cells\n", "", 0);
    tree.shell("heqdanu same - 'a part' <&-", &[]).is("", "same: standard input cannot be read\n", 2);
    tree.shell("heqdanu same 'a part' - </", &[]).is("", "same: standard input cannot be read\n", 2);
}

/// Trouble with a tool is not taken for an answer.
#[test]
fn trouble_with_comparing() {
    let parts = [file(8, 2, 2, &[[1, 1, 1]]), file(8, 2, 2, &[[1, 1, 1], [5, 5, 5]])];
    for (tool, ended) in [("exit 2", 2), ("exit 127", 127), ("kill -9 $$", 137)] {
        let tree = Tree::built();
        tree.file("a", &parts[0]);
        tree.file("b", &parts[1]);
        tree.put_tool("cmp", tool);
        for names in [["a", "a"], ["a", "b"]] {
            let complaint =
                format!("same: the listings cannot be compared: cmp is missing, or ended with status {ended}\n");
            tree.run("same", &names).is("", &complaint, 2);
        }
    }
    // Where the corner cannot be named, none is.
    for tool in ["od", "awk"] {
        let tree = Tree::built();
        tree.file("a", &parts[0]);
        tree.file("b", &parts[1]);
        tree.put_tool(tool, "exit 1");
        let complaint = "same: the cells are not the same, and the first corner that differs cannot be named\n";
        tree.run("same", &["a", "b"]).is("", complaint, 2);
        tree.run("same", &["a", "a"]).is("a and a cure the same cells\n", "", 0);
    }
}

/// Holds the command to the oracle's listings.
fn holds(tree: &Tree, a: &[u8], b: &[u8]) -> i32 {
    tree.file("a", a);
    tree.file("b", b);
    let (said, status) = compared(["a", "b"], [a, b]);
    tree.run("same", &["a", "b"]).is(&said, "", status);
    status
}

#[test]
fn first_corners() {
    let tree = Tree::built();
    let nothing = file(8, 2, 2, &[]);
    let cube = file(8, 2, 2, &[[1, 1, 1]]);
    holds(&tree, &nothing, &nothing);
    holds(&tree, &nothing, &cube);
    holds(&tree, &cube, &nothing);
    // One listing is the start of the other.
    let two = file(16, 2, 2, &[[1, 1, 1], [9, 9, 9]]);
    tree.file("cube", &cube);
    tree.file("two", &two);
    tree.run("same", &["cube", "two"]).is("two alone has the corner 9 9 9 with pattern 128\n", "", 1);
    tree.run("same", &["two", "cube"]).is("two alone has the corner 9 9 9 with pattern 128\n", "", 1);
    // One point, two patterns: a cube beyond the first one's last corner.
    let beyond = file(8, 2, 2, &[[1, 1, 1], [3, 3, 3]]);
    tree.file("beyond", &beyond);
    tree.run("same", &["cube", "beyond"]).is(
        "the corner 3 3 3 has pattern 1 in cube and pattern 129 in beyond\n",
        "",
        1,
    );
    // The order is that of numbers, and bytes stand least first: 256 is after 2, and its first byte is 0.
    let far = file(1024, 2, 2, &[[256, 1, 1]]);
    tree.file("far", &far);
    tree.run("same", &["cube", "far"]).is("cube alone has the corner 1 1 1 with pattern 128\n", "", 1);
    tree.run("same", &["far", "cube"]).is("cube alone has the corner 1 1 1 with pattern 128\n", "", 1);
    holds(
        &tree,
        &file(1024, 16, 8, &[[300, 300, 511], [4, 700, 2]]),
        &file(1024, 16, 8, &[[300, 300, 767], [4, 700, 2]]),
    );
}

#[test]
fn parts_made_in_two_ways() {
    let tree = Tree::built();
    let mut random = Random::new(53);
    let mut same = 0;
    for number in 0..60 {
        let mut list = accepted(&mut random, Size { field: 20, shots: 12 });
        coarsen(&mut list, 10_000);
        let mut other = list.clone();
        // Another order, another field and grid, a shot twice; then, half the time, another shot.
        other.coords = other.coords.chunks(3).rev().flatten().copied().collect();
        other.coords.extend_from_within(..other.coords.len().min(3));
        (other.field, other.grid) = (2 * list.field, 2);
        if number % 2 == 0 && !other.coords.is_empty() {
            let place = random.within(0, other.coords.len() - 1);
            other.coords[place] += 1;
        }
        let status = holds(&tree, &shortest(&list), &shortest(&other));
        assert!(number % 2 == 0 || status == 0);
        same += usize::from(status == 0);
    }
    assert!((30..55).contains(&same), "{same} of the pairs are the same");
}

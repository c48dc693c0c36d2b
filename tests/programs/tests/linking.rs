//! The command `price` while its program is built: the library is proved, then Cargo makes the program of it, each
//! once; what is said meanwhile, and what is left when it fails or is ended.

use programs::tree::{spawn, Tree};
use std::process::{Command, Stdio};
use std::time::{Duration, Instant};

/// Stands in for `rt lib` in the folder of `capi_c`.
const PROVES: &str = r#"
[ "${PWD##*/} $*" = 'capi_c lib' ] || exit 2
mkdir -p out
echo 'crate ground: modules loaded=0 checked=4'
echo 'logic=proved functions=1 native=nat'
echo library >out/libcapi_c.a
"#;

/// Stands in for Cargo: a program that prints a line, where `--target-dir` and `--example` say.
const LINKS: &str = r#"
echo "cargo $HEQDANU_LIB_DIR$HEQDANU_LINK$*" | sed "s|$TREE|TREE|g" >>"$TREE/../calls"
[ -f "$TREE/target/staticlib/libcapi.a" ] || exit 3
while [ "$1" != --target-dir ]; do shift; done
mkdir -p "$2/release/examples"
printf '#!/bin/sh\ncat >/dev/null; echo volume 8\n' >"$2/release/examples/$4"
chmod +x "$2/release/examples/$4"
"#;

/// How Cargo is called.
const CARGO: &str = "cargo build --quiet --release --offline --manifest-path TREE/bindings/rust/Cargo.toml \
                     --target-dir TREE/bindings/rust/target --example price\n";
const RT: &str = "capi_c: lib\n";
/// The command, with standard input for the shot file.
const PRICE: &str = "heqdanu price \"$TREE/examples/tables.txt\"";
const LINKING: &str = "price: building price by Cargo, which takes some seconds once\n";

fn tree(rt: &str, cargo: &str) -> Tree {
    let tree = Tree::bare(rt);
    tree.put_tool("cargo", cargo);
    tree
}

/// The calls that a line of shell makes.
fn calls_of(tree: &Tree, line: &str) -> String {
    let before = tree.calls().len();
    let ended = tree.shell(line, &[]);
    assert_eq!((ended.text().as_str(), ended.status), ("volume 8\n", 0), "{}", ended.complaint);
    tree.calls()[before..].to_string()
}

#[test]
fn the_library_and_then_the_program() {
    let tree = tree(PROVES, LINKS);
    let ended = tree.shell(PRICE, &[]);
    assert_eq!((ended.text().as_str(), ended.status), ("volume 8\n", 0), "{}", ended.complaint);
    let lines: Vec<&str> = ended.complaint.lines().collect();
    assert!(lines[0].starts_with("price: proving and building ") && lines[1].contains(": 1 of "), "{lines:?}");
    assert_eq!(format!("{}\n", lines[2..].join("\n")), LINKING);
    assert_eq!(tree.calls(), format!("{RT}{CARGO}"));
    // Later runs build nothing, also where the crate of that name has a stamp, or none.
    tree.shell(PRICE, &[]).is("volume 8\n", "", 0);
    let line = "mkdir -p \"$TREE/target/stamp\"; touch \"$TREE/target/stamp/price\"";
    assert_eq!(calls_of(&tree, &format!("{line}; {PRICE}")), "");
    assert_eq!(tree.calls(), format!("{RT}{CARGO}"));
}

/// What is newer decides what is built again.
#[test]
fn a_source_that_is_newer() {
    let tree = tree(PROVES, LINKS);
    tree.shell(PRICE, &[]);
    let after = |change: &str| calls_of(&tree, &format!("cd \"$TREE\"; sleep 0.02; {change}; {PRICE}"));
    for change in ["touch bindings/rust/src/lib.rs", "touch bindings/rust/examples/price/main.rs"] {
        assert_eq!(after(change), CARGO, "{change}");
    }
    for change in ["touch bindings/rust/build.rs", "touch bindings/rust/Cargo.toml", "touch target/staticlib/libcapi.a"]
    {
        assert_eq!(after(change), CARGO, "{change}");
    }
    assert_eq!(after("rm target/bin/price"), CARGO);
    for change in
        ["touch crates/quote/src/main.rt", "touch crates.txt", "rm -r target", "rm target/staticlib/libcapi.a"]
    {
        assert_eq!(after(change), format!("{RT}{CARGO}"), "{change}");
    }
    for change in ["touch README.md", "touch scripts/program", "touch bindings/rust/tests.rs", "touch target/bin/quote"]
    {
        assert_eq!(after(change), "", "{change}");
    }
}

/// The program is made of the proved library, whatever the environment names.
#[test]
fn another_library_is_not_taken() {
    let tree = tree(PROVES, LINKS);
    let environment =
        "HEQDANU_LIB_DIR=/elsewhere HEQDANU_LINK=-lm CARGO_TARGET_DIR=/elsewhere CARGO_BUILD_TARGET=other";
    assert_eq!(calls_of(&tree, &format!("{environment} {PRICE}")), format!("{RT}{CARGO}"));
}

#[test]
fn no_toolchain_and_no_cargo() {
    let tree = tree(PROVES, LINKS);
    let without = |tool: &str| format!("rm ../bin/{tool}; hash -r; {PRICE}");
    if tree.shell("PATH=/usr/bin:/bin; command -v cargo || command -v rt", &[]).status == 0 {
        println!("left out: cargo or rt is where it cannot be taken off the path");
        return;
    }
    let complaint = "price: the library has to be built, and the Rattle toolchain (rt) is not on the path\n";
    tree.shell(&without("rt"), &[]).is("", complaint, 2);
    let complaint = "price: price has to be built, and Cargo (cargo) is not on the path\n";
    tree.shell(&without("cargo"), &[]).is("", complaint, 2);
    assert_eq!(tree.calls(), "");
    // Neither is needed where all is built.
    let tree = Tree::standing_in("echo volume 8");
    tree.shell(&without("rt"), &[]).is("volume 8\n", "", 0);
}

#[test]
fn a_build_that_fails() {
    let failing = tree(PROVES, "echo \"cargo\" >>\"$TREE/../calls\"; echo 'error: no' >&2; exit 101");
    let ended = failing.shell(PRICE, &[]);
    assert_eq!((ended.text().as_str(), ended.status), ("", 2));
    let end = format!("{LINKING}error: no\nprice: Cargo does not build price, so it is not run\n");
    assert!(ended.complaint.ends_with(&end), "{}", ended.complaint);
    // The library stays.
    failing.shell(PRICE, &[]).is("", &end, 2);
    assert_eq!(failing.calls(), format!("{RT}cargo\ncargo\n"));
    // Where Cargo leaves no program, none is run.
    failing.put_tool("cargo", "true");
    let ended = failing.shell(PRICE, &[]);
    let complaint =
        format!("{LINKING}price: what was built cannot be put into {}/target/bin\n", failing.root().display());
    assert_eq!((ended.complaint, ended.status), (complaint, 2));

    let unproved = tree("echo logic=not-proved; exit 1", LINKS);
    let ended = unproved.shell(PRICE, &[]);
    assert_eq!((ended.text().as_str(), ended.status), ("", 2));
    let end = "logic=not-proved\nprice: capi_c is not proved, so there is no library\n";
    assert!(ended.complaint.ends_with(end), "{}", ended.complaint);
    assert_eq!(unproved.calls(), RT);
}

/// Two of one pipe take turns, and only the first builds.
#[test]
fn scripts_of_one_pipe_take_turns() {
    let tree = tree(PROVES, LINKS);
    let ended = tree.shell(&format!("{PRICE} | {PRICE}"), &[]);
    assert_eq!((ended.text().as_str(), ended.status), ("volume 8\n", 0), "{}", ended.complaint);
    assert_eq!(tree.calls(), format!("{RT}{CARGO}"));
}

#[test]
fn a_signal_ends_cargo_and_frees_the_lock() {
    let tree = tree(PROVES, "echo $$ >\"$TREE/../number\"; sleep 60; true");
    let path = tree.root().join("../number");
    for signal in ["TERM", "HUP", "INT"] {
        let mut command = tree.command(tree.root().join("heqdanu"));
        command.arg("price").arg(tree.root().join("examples/tables.txt"));
        let mut child = spawn(command.stdin(Stdio::null()).stdout(Stdio::null()).stderr(Stdio::null()));
        let number = waits(|| std::fs::read_to_string(&path).ok().filter(|text| text.ends_with('\n')));
        std::fs::remove_file(&path).expect("it is removed");
        let kill = Command::new("kill").arg(format!("-{signal}")).arg(child.id().to_string()).status();
        assert!(kill.is_ok_and(|status| status.success()));
        let status = child.wait().expect("the command ends");
        assert!([Some(129), Some(130), Some(143)].contains(&status.code()), "{signal}: {status}");
        let line = format!("kill -0 {} 2>/dev/null", number.trim());
        waits(|| (tree.shell(&line, &[]).status != 0).then_some(()));
        tree.shell("flock -n \"$TREE/.building\" echo free", &[]).is("free\n", "", 0);
    }
}

/// Waits for something, some seconds.
fn waits<T>(mut found: impl FnMut() -> Option<T>) -> T {
    let start = Instant::now();
    loop {
        if let Some(there) = found() {
            return there;
        }
        assert!(start.elapsed() < Duration::from_secs(10), "waiting");
        std::thread::sleep(Duration::from_millis(2));
    }
}

/// `scripts/library`, which takes its turn and proves what is not proved yet.
#[test]
fn the_library_alone() {
    let tree = tree(PROVES, "exit 1");
    let library = "\"$TREE/scripts/library\"";
    tree.shell(&format!("{library} capi"), &[]).is(
        "",
        "scripts/library: it takes no words\nusage: scripts/library\n",
        2,
    );
    let ended = tree.shell(library, &[]);
    assert_eq!((ended.text().as_str(), ended.status), ("", 0), "{}", ended.complaint);
    tree.shell("cat \"$TREE/target/staticlib/libcapi.a\"", &[]).is("library\n", "", 0);
    tree.shell(library, &[]).is("", "", 0);
    assert_eq!(tree.calls(), RT);
}

/// `scripts/link`, which proves nothing and does not wait for its turn.
#[test]
fn linking_alone() {
    let tree = tree("exit 1", LINKS);
    let link = "\"$TREE/scripts/link\"";
    let missing = "target/staticlib/libcapi.a is missing; 'scripts/library' makes it\n";
    tree.shell(link, &[]).is("", &format!("scripts/link: {}/{missing}", tree.root().display()), 2);
    tree.shell(&format!("{link} price"), &[]).is("", "scripts/link: it takes no words\nusage: scripts/link\n", 2);
    let line = format!("mkdir -p \"$TREE/target/staticlib\"; touch \"$TREE/target/staticlib/libcapi.a\"; {link}");
    let held = format!("exec 8>\"$TREE/.building\"; flock 8; {line}");
    tree.shell(&held, &[]).is("", &LINKING.replace("price: ", "scripts/link: "), 0);
    tree.shell(link, &[]).is("", "", 0);
    assert_eq!(tree.calls(), CARGO);
    tree.shell(PRICE, &[]).is("volume 8\n", "", 0);
}

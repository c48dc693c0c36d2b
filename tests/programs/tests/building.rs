//! The commands while they prove and build: what they say meanwhile, that they do it once, and what is left when it
//! fails or is ended.

use programs::tree::{spawn, Ended, Tree, NEVER};
use std::collections::BTreeSet;
use std::path::Path;
use std::process::{Child, Command, Stdio};
use std::time::{Duration, Instant};

/// Stands in for `rt run` in the folder of a crate: three crates and a program that prints one line, which rt leaves
/// in out/ and runs.
const PROVES: &str = r#"
[ "$*" = run ] || exit 2
crate=$(basename "$PWD")
if ! mkdir ../busy; then echo 'rt: two at a time'; exit 1; fi
cat
for proved in ground buffer lattice; do
    echo "rt: chose --jobs 2 for $proved"
    echo "fn $proved::put: proved"
    echo "crate $proved: modules loaded=0 checked=4"
    echo 'logic=proved functions=1 native=nat'
done
sleep 0.2
mkdir -p out
printf '#!/bin/sh\ncat; echo volume 8\n' >out/$crate
chmod +x out/$crate
echo "crate $crate: modules loaded=4 checked=0"
echo 'logic=proved functions=2 native=nat'
echo "rt: running out/$crate; to give it other input, run that file yourself"
out/$crate
rmdir ../busy
"#;

/// What a command says of the stand-in's proving: how many crates are proved, and then the crate in work; times apart,
/// and the places of the three crates, which are those of crates.txt.
fn told(command: &str, crates: &[String]) -> String {
    let count = crates.len();
    let mut text = format!("{command}: proving and building {count} crates, which takes some minutes once\n");
    let mut known = 0;
    for proved in ["ground", "buffer", "lattice"] {
        let place = crates.iter().position(|crate_| crate_ == proved).expect("a crate below") + 1;
        if place > known {
            text += &format!("{command}: TIME: {place} of {count} crates proved, in work: {}\n", crates[place]);
            known = place;
        }
    }
    text + &format!("{command}: TIME: {count} of {count} crates proved, running the program\n")
}

/// What a command wrote, with the minutes and seconds taken out.
fn timeless(mut ended: Ended) -> Ended {
    let is_time = |word: &str| {
        let digits = |part: &str| !part.is_empty() && part.bytes().all(|byte| byte.is_ascii_digit());
        word.strip_suffix(':').and_then(|time| time.split_once(':')).is_some_and(|(m, s)| digits(m) && digits(s))
    };
    let words: Vec<&str> = ended.complaint.split(' ').map(|word| if is_time(word) { "TIME:" } else { word }).collect();
    ended.complaint = words.join(" ");
    ended
}

/// The crates of the repository that a program is made of, by crates.txt: each after those that it names.
fn crates_of(program: &str) -> Vec<String> {
    fn visit(name: &str, found: &mut Vec<String>) {
        let text = include_str!("../../../crates.txt");
        let below = text.lines().find_map(|line| {
            let (front, rest) = line.split('#').next().unwrap_or("").split_once(':')?;
            (front.split_whitespace().next() == Some(name)).then_some(rest)
        });
        let Some(below) = below else { return };
        for name in below.split_whitespace() {
            visit(name, found);
        }
        if !found.iter().any(|known| known == name) {
            found.push(name.to_string());
        }
    }
    let mut found = Vec::new();
    visit(program, &mut found);
    found
}

#[test]
fn plain_lines_where_there_is_no_terminal() {
    let tree = Tree::bare(PROVES);
    for command in ["quote", "quote_vox", "recount", "shots"] {
        // Standard input is the program's, not that of what proves it.
        timeless(tree.shell(&format!("heqdanu {command}"), b"area 6\n")).is(
            "area 6\nvolume 8\n",
            &told(command, &crates_of(command)),
            0,
        );
        tree.shell(&format!("heqdanu {command}"), &[]).is("volume 8\n", "", 0);
    }
    assert_eq!(tree.calls(), "quote: run\nquote_vox: run\nrecount: run\nshots: run\n");
}

#[test]
fn one_moving_line_on_a_terminal() {
    let tree = Tree::bare(&PROVES.replace("sleep 0.2", "sleep 2.5"));
    let ended = tree.shell("script -qec 'heqdanu quote </dev/null' /dev/null", &[]);
    let text = ended.text();
    let crates = crates_of("quote");
    let place = crates.iter().position(|crate_| crate_ == "lattice").expect("a crate below") + 1;
    let line = format!(": {place} of {} crates proved, in work: ", crates.len());
    let moved = text.split("\r\x1b[Kquote: ").filter_map(|shown| shown.split_once(&line));
    // The time goes on while nothing is proved.
    let times: BTreeSet<&str> = moved.map(|(time, _)| time).collect();
    assert!(times.len() > 1, "{text:?}");
    assert!(text.ends_with("\r\x1b[Kvolume 8\r\n"), "{text:?}");
}

/// The crate in work is the one behind the last that is proved, in the order in which rt goes; of a crate that it has
/// proved before it says nothing.
#[test]
fn the_crate_in_work() {
    let proves =
        "for crate in $WORK; do echo \"crate $crate: modules loaded=1\"; echo 'logic=proved functions=1'; done; exit 1";
    let tree = Tree::bare(proves);
    std::fs::write(tree.root().join("crates.txt"), "# ground\na:\nb staticlib: a io\nc: a\nquote: b c\n")
        .expect("written");
    let last = |work: &str| {
        let ended = timeless(tree.shell(&format!("WORK='{work}' heqdanu quote"), &[]));
        let lines: Vec<&str> = ended.complaint.lines().filter(|line| line.starts_with("quote: TIME")).collect();
        lines.last().expect("a line").to_string()
    };
    assert_eq!(last("a"), "quote: TIME: 1 of 4 crates proved, in work: b");
    assert_eq!(last("a b"), "quote: TIME: 2 of 4 crates proved, in work: c");
    assert_eq!(last("c"), "quote: TIME: 3 of 4 crates proved, in work: quote");
    assert_eq!(last("a b c quote"), "quote: TIME: 4 of 4 crates proved, running the program");
    // One that is not proved, and one of another name, do not count.
    let failing = Tree::bare(
        "echo 'crate a: modules'; echo logic=proved; echo 'crate b: modules'; echo logic=not-proved; exit 1",
    );
    std::fs::write(failing.root().join("crates.txt"), "a:\nb: a\nquote: b\n").expect("written");
    let ended = timeless(failing.shell("heqdanu quote", &[]));
    assert!(ended.complaint.contains("quote: TIME: 1 of 3 crates proved, in work: b\n"), "{}", ended.complaint);
    assert!(!ended.complaint.contains("2 of 3"), "{}", ended.complaint);
}

#[test]
fn a_source_that_is_newer() {
    let tree = Tree::bare(PROVES);
    tree.shell("heqdanu quote", &[]);
    tree.shell("heqdanu quote; touch -d '+1 second' \"$TREE/crates/quote/src/main.rt\"", &[]);
    assert_eq!(tree.calls(), "quote: run\n");
    let line = "sleep 1.1; heqdanu quote; heqdanu quote; rm \"$TREE/target/bin/quote\"; heqdanu quote";
    assert_eq!(tree.shell(line, &[]).text(), "volume 8\n".repeat(3));
    assert_eq!(tree.calls(), "quote: run\n".repeat(3));
    // Where it cannot be found out, it is proved again.
    tree.put_tool("find", "exit 1");
    tree.shell("heqdanu quote", &[]);
    assert_eq!(tree.calls(), "quote: run\n".repeat(4));
}

#[test]
fn scripts_of_one_pipe_take_turns() {
    let tree = Tree::bare(PROVES);
    let ended = tree.shell("heqdanu shots | heqdanu quote", &[]);
    assert_eq!((ended.text().as_str(), ended.status), ("volume 8\nvolume 8\n", 0), "{}", ended.complaint);
    // Of two for one program only the first builds.
    let ended = tree.shell("rm -r \"$TREE/target\"; heqdanu quote | heqdanu quote", &[]);
    assert_eq!((ended.text().as_str(), ended.status), ("volume 8\nvolume 8\n", 0), "{}", ended.complaint);
    assert_eq!(tree.calls().matches("quote: run\n").count(), 2);
}

#[test]
fn a_script_that_waits_says_so() {
    let tree = Tree::bare(PROVES);
    let line = "exec 8>\"$TREE/.building\"; flock 8; sleep 2 & exec 8>&-; heqdanu quote";
    let complaint = format!("quote: waiting for another script to build\n{}", told("quote", &crates_of("quote")));
    timeless(tree.shell(line, &[])).is("volume 8\n", &complaint, 0);
}

#[test]
fn a_proof_that_fails() {
    let tree = Tree::bare("echo 'fn quote::main: not proved'; echo 'an error' >&2; echo 'logic=not-proved'; exit 1");
    let ended = tree.shell("heqdanu quote", &[]);
    assert_eq!((ended.text().as_str(), ended.status), ("", 2));
    let end = "fn quote::main: not proved\nan error\nlogic=not-proved\nquote: quote is not proved, so it is not run\n";
    assert!(ended.complaint.ends_with(end), "{}", ended.complaint);
    let again = tree.shell("heqdanu quote", &[]);
    assert_eq!(timeless(again), timeless(ended));
    let silent = Tree::bare("exit 1").shell("heqdanu quote", &[]);
    assert!(
        silent.complaint.ends_with(" once\nquote: quote is not proved, so it is not run\n"),
        "{}",
        silent.complaint
    );
}

#[test]
fn a_program_whose_stamp_is_gone() {
    // A program without a stamp is not known to be proved.
    let tree = Tree::standing_in("echo volume 8");
    tree.shell("heqdanu quote", &[]).is("volume 8\n", "", 0);
    let ended = tree.shell("rm \"$TREE/target/stamp/quote\"; heqdanu quote", &[]);
    assert_eq!((ended.text().as_str(), ended.status), ("", 2));
    assert_eq!(tree.calls(), "quote: run\n");
}

#[test]
fn no_toolchain() {
    let tree = Tree::bare(NEVER);
    let complaint = "quote: quote has to be built, and the Rattle toolchain (rt) is not on the path\n";
    tree.shell("PATH=/usr/bin:/bin; \"$TREE/heqdanu\" quote", &[]).is("", complaint, 2);
}

#[test]
fn a_checkout_that_cannot_be_written() {
    let tree = Tree::bare(NEVER);
    let root = tree.root();
    // The superuser may write everywhere, so another user asks.
    let nobody = "setpriv --reuid=65534 --regid=65534 --clear-groups";
    let line = format!(
        "user=; [ $(id -u) != 0 ] || user='{nobody}'; chmod a-w \"$TREE\"; $user heqdanu quote; \
                        ended=$?; chmod u+w \"$TREE\"; exit $ended"
    );
    let complaint = format!("quote: quote has to be built, and {} cannot be written\n", root.display());
    tree.shell(&line, &[]).is("", &complaint, 2);
}

/// Stands in for an `rt` that goes on: it leaves its number, and so does a child of it.
const GOES_ON: &str = r#"
echo 'crate ground: modules loaded=0 checked=4'
echo 'logic=proved functions=1 native=nat'
sh -c 'echo $$ >"$TREE/../child"; sleep 60; true' &
echo $$ >"$TREE/../parent"
wait
"#;

/// A command that proves, once `rt` and its child are there, with their numbers.
fn proving(tree: &Tree) -> (Child, Vec<u32>) {
    let mut command = tree.command(tree.root().join("heqdanu"));
    command.arg("quote").stdin(Stdio::null()).stdout(Stdio::null()).stderr(Stdio::null());
    let child = spawn(&mut command);
    let mut numbers = Vec::new();
    for name in ["parent", "child"] {
        let path = tree.root().join("..").join(name);
        waits(|| std::fs::read_to_string(&path).is_ok_and(|text| text.ends_with('\n')), name);
        numbers.push(std::fs::read_to_string(&path).expect("it is there").trim().parse().expect("a number"));
        std::fs::remove_file(&path).expect("it is removed");
    }
    (child, numbers)
}

/// Waits for something, some seconds.
fn waits(mut holds: impl FnMut() -> bool, what: &str) {
    let start = Instant::now();
    while !holds() {
        assert!(start.elapsed() < Duration::from_secs(10), "waiting for {what}");
        std::thread::sleep(Duration::from_millis(2));
    }
}

/// Whether a process runs; one that has ended and is not waited for does not.
fn runs(number: u32) -> bool {
    let state = std::fs::read_to_string(Path::new("/proc").join(number.to_string()).join("stat")).unwrap_or_default();
    state.rsplit(')').next().and_then(|rest| rest.trim().chars().next()).is_some_and(|state| state != 'Z')
}

#[test]
fn a_signal_ends_what_it_started_and_frees_the_lock() {
    let tree = Tree::bare(GOES_ON);
    for signal in ["TERM", "HUP", "INT"] {
        let (mut child, numbers) = proving(&tree);
        assert!(numbers.iter().all(|number| runs(*number)));
        // The child does not hold the lock.
        let held =
            tree.shell("for file in /proc/[0-9]*/fd/9; do [ \"$file\" -ef \"$TREE/.building\" ] && echo; done", &[]);
        assert_eq!(held.text(), "\n", "who holds the lock");
        let kill = Command::new("kill").arg(format!("-{signal}")).arg(child.id().to_string()).status();
        assert!(kill.is_ok_and(|status| status.success()));
        let status = child.wait().expect("the command ends");
        assert!([Some(129), Some(130), Some(143)].contains(&status.code()), "{signal}: {status}");
        for number in numbers {
            waits(|| !runs(number), "the end of what rt started");
        }
        tree.shell("flock -n \"$TREE/.building\" echo free", &[]).is("free\n", "", 0);
        assert_eq!(tree.left_over(), 0, "{signal}");
    }
}

/// What a command that was ended left half in the place of a program goes when the program is put there.
#[test]
fn what_was_left_half_goes() {
    let tree = Tree::bare(PROVES);
    let line = "mkdir -p \"$TREE/target/bin\"; echo half >\"$TREE/target/bin/quote.new\"; heqdanu quote; \
                ls \"$TREE/target/bin\"";
    let ended = tree.shell(line, &[]);
    assert_eq!(ended.text(), "volume 8\nquote\n", "{}", ended.complaint);
}

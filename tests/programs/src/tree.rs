//! The command `heqdanu` in a folder of its own, whose name has a space, with a stand-in for `rt` on the path, and one
//! for Cargo where a test puts it there.

use crate::run::program;
use std::fs;
use std::io::Write;
use std::os::unix::fs::{symlink, PermissionsExt};
use std::path::{Path, PathBuf};
use std::process::{Child, Command, Stdio};
use std::sync::atomic::{AtomicUsize, Ordering};
use std::sync::{Mutex, MutexGuard};

/// The commands that run a program of the same name.
pub const PROGRAMS: [&str; 10] =
    ["quote", "quote_vox", "recount", "price", "shots", "write_shots", "vox_shots", "listing", "corners_at", "credits"];
/// The one of them that Cargo builds from the proved library; the others are crates.
pub const LINKED: &str = "price";
/// The crate whose archive that library is.
pub const LIBRARY: &str = "capi_c";
/// All commands.
pub const COMMANDS: [&str; 12] = [
    "quote",
    "quote_vox",
    "recount",
    "price",
    "shots",
    "write_shots",
    "vox_shots",
    "listing",
    "corners_at",
    "credits",
    "drop",
    "same",
];
/// A stand-in for `rt` that must not be called; `Tree::built` says whether it was.
pub const NEVER: &str = "echo 'rt: called'; exit 1";

/// A command with the words that it needs before its files: `corners_at` has an x, `price` its tables.
pub fn before_files(command: &str) -> &str {
    match command {
        "corners_at" => "corners_at 0",
        "price" => "price \"$TREE/examples/tables.txt\"",
        _ => command,
    }
}

/// What a command wrote, and its status.
#[derive(Debug, PartialEq, Eq)]
pub struct Ended {
    pub output: Vec<u8>,
    pub complaint: String,
    pub status: i32,
}

impl Ended {
    /// The output as text.
    pub fn text(&self) -> String {
        String::from_utf8(self.output.clone()).expect("the command prints text")
    }

    /// That it ended with this status and said these lines on its two streams.
    pub fn is(&self, output: &str, complaint: &str, status: i32) {
        assert_eq!((self.text().as_str(), self.complaint.as_str(), self.status), (output, complaint, status));
    }
}

/// The folder of the repository.
pub fn repository() -> PathBuf {
    Path::new(env!("CARGO_MANIFEST_DIR")).join("../..")
}

/// Copies a file, or a folder with all that is in it.
fn copy(from: &Path, to: &Path) {
    if from.is_dir() {
        fs::create_dir_all(to).expect("a folder is made");
        for entry in fs::read_dir(from).expect("a folder is read") {
            let name = entry.expect("an entry").file_name();
            copy(&from.join(&name), &to.join(&name));
        }
    } else {
        fs::copy(from, to).unwrap_or_else(|error| panic!("{}: {error}", from.display()));
    }
}

/// Held while a program is written and while a process is started: a program that a child has open for writing does
/// not run.
static ALONE: Mutex<()> = Mutex::new(());

fn alone() -> MutexGuard<'static, ()> {
    ALONE.lock().unwrap_or_else(|poisoned| poisoned.into_inner())
}

fn write_program(path: &Path, text: &str) {
    let _alone = alone();
    fs::write(path, text).expect("a program is written");
    fs::set_permissions(path, fs::Permissions::from_mode(0o755)).expect("a program may be run");
}

/// Starts a program.
pub fn spawn(command: &mut Command) -> Child {
    let _alone = alone();
    command.spawn().unwrap_or_else(|error| panic!("{command:?}: {error}"))
}

/// The folder, which goes with the value.
pub struct Tree {
    folder: PathBuf,
}

impl Tree {
    /// The command, nothing built, and a stand-in for `rt` with these lines of shell, which run in the tree or in the folder
    /// of a crate.
    pub fn bare(rt: &str) -> Tree {
        static NUMBER: AtomicUsize = AtomicUsize::new(0);
        let number = NUMBER.fetch_add(1, Ordering::Relaxed);
        let folder = std::env::temp_dir().join(format!("heqdanu-tree-{}-{number}", std::process::id()));
        let tree = Tree { folder };
        for part in ["bin", "scratch", "elsewhere", "a tree/crates/quote/src", "a tree/examples"] {
            fs::create_dir_all(tree.folder.join(part)).expect("the tree is made");
        }
        for name in PROGRAMS.iter().filter(|name| **name != LINKED).chain([&LIBRARY]) {
            fs::create_dir_all(tree.root().join("crates").join(name)).expect("the tree is made");
        }
        let bindings = tree.root().join("bindings/rust");
        for part in ["src", "examples/price"] {
            fs::create_dir_all(bindings.join(part)).expect("the tree is made");
        }
        for part in ["build.rs", "Cargo.toml", "Cargo.lock"] {
            fs::write(bindings.join(part), "").expect("the tree is made");
        }
        let copying = alone();
        for part in ["heqdanu", "test", "VERSION", "crates.txt", "scripts", "examples/tables.txt"] {
            copy(&repository().join(part), &tree.root().join(part));
        }
        drop(copying);
        symlink(tree.root().join("heqdanu"), tree.folder.join("bin/heqdanu")).expect("a link is made");
        let call = "case $PWD in */crates/*) set -- \"${PWD##*/}:\" \"$@\" ;; esac; echo \"$@\" >>\"$TREE/../calls\"";
        tree.put_tool("rt", &format!("({call})\n{rt}"));
        tree
    }

    /// The command with the programs built.
    pub fn built() -> Tree {
        let tree = Tree::bare(NEVER);
        for name in PROGRAMS {
            tree.put_program(name, |path| {
                assert!(program(name).exists(), "{name} is not built");
                symlink(program(name), path).expect("a link is made");
            });
        }
        tree
    }

    /// The command with stand-ins for the programs, all of these lines of shell.
    pub fn standing_in(shell: &str) -> Tree {
        let tree = Tree::bare(NEVER);
        for name in PROGRAMS {
            tree.put_program(name, |path| write_program(path, &format!("#!/bin/sh\n{shell}\n")));
        }
        tree
    }

    /// Puts a stand-in in a program's place.
    pub fn replace_program(&self, name: &str, shell: &str) {
        let path = self.root().join("target/bin").join(name);
        fs::remove_file(&path).expect("the program is there");
        write_program(&path, &format!("#!/bin/sh\n{shell}\n"));
    }

    /// Puts a program with its stamp, or with the library that Cargo builds it from.
    fn put_program(&self, name: &str, put: impl FnOnce(&Path)) {
        let target = self.root().join("target");
        for folder in ["bin", "stamp", "staticlib"] {
            fs::create_dir_all(target.join(folder)).expect("target is made");
        }
        let witness = if name == LINKED { target.join("staticlib/libcapi.a") } else { target.join("stamp").join(name) };
        fs::write(witness, "").expect("the stamp or the library is written");
        put(&target.join("bin").join(name));
    }

    /// Puts a stand-in for a tool on the path, before the others.
    pub fn put_tool(&self, name: &str, shell: &str) {
        write_program(&self.folder.join("bin").join(name), &format!("#!/bin/sh\n{shell}\n"));
    }

    /// The folder that the command takes for the repository.
    pub fn root(&self) -> PathBuf {
        self.folder.join("a tree")
    }

    /// Writes a file of the folder that commands run in, and gives its name.
    pub fn file<'a>(&self, name: &'a str, bytes: &[u8]) -> &'a str {
        fs::write(self.folder.join("elsewhere").join(name), bytes).expect("the file is written");
        name
    }

    /// What `rt` was called with, a line a call; in the folder of a crate with the crate before it.
    pub fn calls(&self) -> String {
        fs::read_to_string(self.folder.join("calls")).unwrap_or_default()
    }

    /// Runs a line of shell in a folder that is not the tree; `$TREE` is the tree, and `heqdanu` is on the path.
    pub fn shell(&self, line: &str, input: &[u8]) -> Ended {
        let mut command = self.command("sh");
        command.args(["-c", line]);
        command.stdin(Stdio::piped()).stdout(Stdio::piped()).stderr(Stdio::piped());
        let mut child = spawn(&mut command);
        // A script may end before it reads.
        let _ = child.stdin.take().expect("standard input is a pipe").write_all(input);
        let output = child.wait_with_output().expect("the shell ends");
        assert_eq!(self.left_over(), 0, "temporary files after {line}");
        Ended {
            output: output.stdout,
            complaint: String::from_utf8_lossy(&output.stderr).into_owned(),
            status: output.status.code().expect("the shell ends by itself"),
        }
    }

    /// A program that is to run in that folder, with that path. Signals do to it what they do by default, also where these
    /// tests run in the background or after `nohup`, where some are ignored.
    pub fn command(&self, program: impl AsRef<std::ffi::OsStr>) -> Command {
        let mut command = Command::new("/usr/bin/env");
        command.arg("--default-signal=HUP,INT,TERM").arg(program);
        let path = format!("{}:/usr/bin:/bin", self.folder.join("bin").display());
        command.current_dir(self.folder.join("elsewhere")).env("PATH", path);
        command.env("TREE", self.root()).env("TMPDIR", self.folder.join("scratch"));
        command
    }

    /// Runs a command of `heqdanu` on files.
    pub fn run(&self, command: &str, files: &[&str]) -> Ended {
        let words: Vec<String> = files.iter().map(|file| format!("'{file}'")).collect();
        self.shell(&format!("heqdanu {command} {}", words.join(" ")), &[])
    }

    /// The folder for temporary files.
    pub fn scratch(&self) -> PathBuf {
        self.folder.join("scratch")
    }

    /// How many temporary files there are.
    pub fn left_over(&self) -> usize {
        fs::read_dir(self.scratch()).expect("the folder is there").count()
    }
}

impl Drop for Tree {
    fn drop(&mut self) {
        let _ = fs::remove_dir_all(&self.folder);
    }
}

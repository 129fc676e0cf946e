//! Copies of the repository in which the command `./riscadru` is tried. A copy has the command with what
//! it reads, seven small crates, the programs and the archive as if just built, and a program in the place
//! of `rt`, so that no test proves or builds anything. The copies stand outside the repository, where
//! `rt` would take their crates for those of the repository.

use std::fs::{self, File, Permissions};
use std::io::{ErrorKind, Write};
use std::os::unix::fs::PermissionsExt;
use std::os::unix::process::ExitStatusExt;
use std::path::{Path, PathBuf};
use std::process::{Child, Command, Stdio};

use crate::linking::root;

/// The programs.
pub const PROGRAMS: [&str; 2] = ["riscadru_plan", "riscadru_check"];

/// The crates of a copy: a program is the third, the archive the fifth of those that it rests on.
const CRATES: &str = "\
# level 0
lists:
model: lists # the definitions
riscadru_plan: model
riscadru_check: model
c_text: model
c_interface: c_text model lists
c_interface_c staticlib: c_interface c_text model
";

/// An `rt` that is not to be called.
const NO_RT: &str = "echo 'rt was called' >&2; exit 1";

/// What a call ended with, printed, and said on standard error.
#[derive(Debug, PartialEq, Eq)]
pub struct Ended {
    /// Its status, or what a signal that ended it counts as in a shell: 128 and its number.
    pub status: i32,
    /// What it printed on standard output.
    pub printed: Vec<u8>,
    /// What it said on standard error.
    pub said: String,
}

impl Ended {
    /// Panics unless the call was done, printed these bytes, and said nothing.
    pub fn done(&self, printed: &[u8]) {
        assert_eq!((self.status, self.said.as_str()), (0, ""), "{self:?}");
        assert_eq!(self.printed, printed);
    }

    /// Panics unless the call ended with status 2, printed nothing, and said one line with these words.
    pub fn failed(&self, words: &str) {
        assert_eq!((self.status, self.said.lines().count()), (2, 1), "{self:?}");
        assert!(self.printed.is_empty(), "{self:?}");
        assert!(self.said.starts_with("riscadru: "), "{}", self.said);
        assert!(self.said.contains(words), "{words}: {}", self.said);
    }
}

/// A copy of the repository.
pub struct Tree {
    /// Its folder; the name has a blank.
    pub root: PathBuf,
}

impl Tree {
    /// A new copy, with everything built and an `rt` that is not to be called.
    pub fn new(name: &str) -> Self {
        let folder = std::env::temp_dir();
        let folder = folder.canonicalize().expect("a folder for the copies");
        let tree = Tree {
            root: folder.join(format!("riscadru-{} tree {name}", std::process::id())),
        };
        let _ = fs::remove_dir_all(&tree.root);
        for file in [
            "riscadru",
            "docs/REFUSALS.md",
            "draw/draw.awk",
            "examples/s.plan",
            "examples/s.listing",
            "include/riscadru.h",
            "where/text.awk",
            "where/where.awk",
            "where/table.awk",
            "where/listing.awk",
        ] {
            tree.copy(&root().join(file), file);
        }
        tree.write("crates.txt", CRATES);
        for line in CRATES.lines().skip(1) {
            let name = line.split([' ', ':']).next().unwrap();
            tree.write(&format!("crates/{name}/src/lib.rt"), "// a source\n");
        }
        fs::create_dir_all(tree.root.join("tmp")).expect("a folder for temporary files");
        tree.set_rt(NO_RT);
        for program in PROGRAMS {
            let built = format!("target/bin/{program}");
            tree.copy(&root().join(&built), &built);
        }
        let archive = root().join("target/staticlib/libc_interface.a");
        tree.copy(&archive, "target/riscadru/libriscadru.a");
        tree
    }

    /// Copies a file to a place in the copy.
    pub fn copy(&self, from: &Path, to: &str) {
        let to = self.root.join(to);
        fs::create_dir_all(to.parent().unwrap()).expect("a folder");
        fs::copy(from, to).expect("a file");
    }

    /// Writes a file of the copy.
    pub fn write(&self, name: &str, text: &str) {
        let to = self.root.join(name);
        fs::create_dir_all(to.parent().unwrap()).expect("a folder");
        fs::write(to, text).expect("a file");
    }

    /// A file of the copy, or nothing where it has none.
    pub fn read(&self, name: &str) -> Option<Vec<u8>> {
        fs::read(self.root.join(name)).ok()
    }

    /// Makes a shell program of the copy.
    pub fn program(&self, name: &str, lines: &str) {
        self.write(name, &format!("#!/bin/sh\n{lines}\n"));
        let runs = Permissions::from_mode(0o755);
        fs::set_permissions(self.root.join(name), runs).expect("a program");
    }

    /// Puts a shell program in the place of `rt`.
    pub fn set_rt(&self, lines: &str) {
        self.program("tools/rt", lines);
    }

    /// A call of the command, from the copy's folder.
    pub fn call(&self, words: &[&str]) -> Command {
        let mut call = Command::new(self.root.join("riscadru"));
        self.within(call.args(words));
        call
    }

    /// Lines of a shell, from the copy's folder.
    pub fn shell(&self, lines: &str) -> Command {
        let mut call = Command::new("sh");
        self.within(call.args(["-c", lines]));
        call
    }

    /// Runs a program in the copy's folder, with its `rt` and its folder for temporary files.
    fn within(&self, call: &mut Command) {
        let path = std::env::var("PATH").expect("a PATH");
        let tools = self.root.join("tools");
        call.current_dir(&self.root)
            .env("PATH", format!("{}:{path}", tools.display()))
            .env("TMPDIR", self.root.join("tmp"));
    }

    /// What a call of the command ends with.
    pub fn run(&self, words: &[&str]) -> Ended {
        self.fed(self.call(words), b"")
    }

    /// What a call ends with that is given these bytes on standard input.
    pub fn fed(&self, mut call: Command, input: &[u8]) -> Ended {
        call.stdin(Stdio::piped());
        let mut child = started(call);
        let mut stdin = child.stdin.take().expect("its standard input");
        match stdin.write_all(input) {
            Err(e) if e.kind() != ErrorKind::BrokenPipe => panic!("its standard input: {e}"),
            _ => drop(stdin),
        }
        self.ended(child)
    }

    /// What a call ends with that reads a file, or a folder, as standard input.
    pub fn reading(&self, mut call: Command, from: &Path) -> Ended {
        call.stdin(File::open(from).expect("what is to be read"));
        self.ended(started(call))
    }

    /// What a call that was started ends with; it leaves no temporary file, and no lock.
    pub fn ended(&self, child: Child) -> Ended {
        let output = child.wait_with_output().expect("its output");
        let left: Vec<_> = fs::read_dir(self.root.join("tmp")).unwrap().collect();
        assert!(left.is_empty(), "{left:?}");
        assert_eq!(self.read("target/riscadru/building"), None);
        let status = output.status;
        Ended {
            status: status
                .code()
                .unwrap_or_else(|| 128 + status.signal().unwrap()),
            printed: output.stdout,
            said: String::from_utf8(output.stderr).expect("text"),
        }
    }
}

impl Drop for Tree {
    /// Removes the copy.
    fn drop(&mut self) {
        let _ = fs::remove_dir_all(&self.root);
    }
}

/// Starts a call whose output is kept.
pub fn started(mut call: Command) -> Child {
    call.stdout(Stdio::piped())
        .stderr(Stdio::piped())
        .spawn()
        .expect("a program")
}

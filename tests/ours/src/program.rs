//! Runs our programs: bytes go to standard input, and what is printed comes back.

use std::io::{ErrorKind, Write};
use std::os::fd::OwnedFd;
use std::os::unix::net::{UnixDatagram, UnixStream};
use std::path::PathBuf;
use std::process::{Child, Command, Output, Stdio};

/// One of our programs, by its name in `target/bin`.
#[derive(Clone, Copy)]
pub struct Program(pub &'static str);

impl Program {
    /// Starts the program.
    pub fn start(self, stdin: Stdio, stdout: Stdio) -> Child {
        let root = PathBuf::from(env!("CARGO_MANIFEST_DIR"));
        Command::new(root.join("../../target/bin").join(self.0))
            .stdin(stdin)
            .stdout(stdout)
            .stderr(Stdio::piped())
            .spawn()
            .expect(self.0)
    }

    /// What the program prints for some bytes on standard input, and how many of them it took.
    pub fn run(self, input: &[u8]) -> (Vec<u8>, usize) {
        let mut child = self.start(Stdio::piped(), Stdio::piped());
        let mut stdin = child.stdin.take().expect("its standard input");
        let mut taken = 0;
        for part in input.chunks(4_096) {
            match stdin.write_all(part) {
                Ok(()) => taken += part.len(),
                Err(e) if e.kind() == ErrorKind::BrokenPipe => break,
                Err(e) => panic!("writing to the program: {e}"),
            }
        }
        drop(stdin);
        (printed(child), taken)
    }

    /// Puts a text on the program's standard input part by part, each of which is one read, then no
    /// bytes, which is the end; and gives what the program prints.
    pub fn run_by_parts(self, text: &[u8], mut part: impl FnMut() -> usize) -> Vec<u8> {
        let (ours, theirs) = UnixDatagram::pair().expect("two sockets");
        let child = self.start(Stdio::from(OwnedFd::from(theirs)), Stdio::piped());
        let mut rest = text;
        while !rest.is_empty() {
            let (first, others) = rest.split_at(part().min(rest.len()));
            assert_eq!(ours.send(first).expect("a part is sent"), first.len());
            rest = others;
        }
        // a program that has read as many bytes as it wants does not take this
        let _ = ours.send(&[]);
        printed(child)
    }

    /// Stops the test unless the program prints nothing for a standard input of which a read fails, and says this.
    pub fn prints_nothing(self, stdin: Stdio, says: &str) {
        let said = said(self.start(stdin, Stdio::piped()));
        assert_eq!(said, (String::new(), says.to_string()));
    }
}

/// A standard input that gives some bytes, and of which a read then fails: the other end of two sockets was closed with
/// bytes that nobody had read.
pub fn fails_after(bytes: &[u8]) -> Stdio {
    let (mut ours, mut theirs) = UnixStream::pair().expect("two sockets");
    theirs.write_all(b"unread").expect("bytes are sent");
    ours.write_all(bytes).expect("the bytes are sent");
    drop(ours);
    Stdio::from(OwnedFd::from(theirs))
}

/// What a program prints on standard output, once it has ended with nothing said on standard error.
pub fn printed(child: Child) -> Vec<u8> {
    let output = child.wait_with_output().expect("its output");
    assert!(output.status.success(), "{:?}", output.status);
    assert_eq!(String::from_utf8_lossy(&output.stderr), "");
    output.stdout
}

/// What a program printed on standard output and on standard error.
pub fn said(child: Child) -> (String, String) {
    let Output { stdout, stderr, .. } = child.wait_with_output().expect("its output");
    let text = |bytes| String::from_utf8(bytes).expect("letters");
    (text(stdout), text(stderr))
}

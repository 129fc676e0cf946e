//! The command `./riscadru` as a person or a script calls it: its words, what it prints, and the status
//! of every command. It runs in copies of the repository (see `ours::tree`) in which everything is
//! built; `building.rs` has the tests in which something is not.
//!
//! Not tested: a file without the right to be read, since root, as which the gate may run, reads every
//! file.
#![cfg(all(have_program, have_check_program, have_archive))]

use std::path::{Path, PathBuf};
use std::process::Command;

use generate::broken::{broken, NUMBERS};
use generate::{plan, Kind, Random, KINDS};
use ours::linking::root;
use ours::tree::{Ended, Tree};
use reference::print;
use suite::{S, S_LISTING};

/// The commands that there are.
const COMMANDS: [&str; 8] = [
    "plan", "check", "draw", "build", "install", "cases", "test", "help",
];

/// A text that is refused with 1.
const NO_PLAN: &[u8] = b"(plan\n";

/// A largest plan whose listing ends as wanted: planned, or refused.
fn largest(refused: bool) -> Vec<u8> {
    let text = |seed| print(&plan(Kind::Largest, &mut Random::new(seed)));
    (0..)
        .map(text)
        .find(|text| reference::program(text).starts_with(b"(refused ") == refused)
        .expect("such a plan")
}

/// The sentence that docs/REFUSALS.md has for a refusal.
fn sentence(number: &str) -> String {
    let page = std::fs::read_to_string(root().join("docs/REFUSALS.md")).expect("the page");
    let begins = format!("| {number} | ");
    let line = page.lines().find(|line| line.starts_with(&begins));
    let cells = line.expect("a line of the table")[begins.len()..].split(" | ");
    cells.map(str::to_string).next().expect("a sentence")
}

/// Panics unless a call refused a text as the reference does: with what was printed, or with nothing
/// printed; and gives the number.
fn refused(ended: &Ended, text: &[u8], shown: bool) -> String {
    let printed = reference::program(text);
    let wanted: &[u8] = if shown { &printed } else { b"" };
    assert_eq!((ended.status, &ended.printed[..]), (1, wanted), "{ended:?}");
    let printed = String::from_utf8(printed).expect("text");
    let number = printed.strip_prefix("(refused ").expect("a refusal");
    let number = number.strip_suffix(")\n").expect("a refusal").to_string();
    let says = format!("riscadru: refused {number}: {} (", sentence(&number));
    assert!(ended.said.starts_with(&says), "{}", ended.said);
    number
}

// ---- plan

#[test]
fn plan_reads_a_file_or_standard_input() {
    let tree = Tree::new("plan");
    tree.run(&["plan", "examples/s.plan"])
        .done(S_LISTING.as_bytes());
    for words in [&["plan"][..], &["plan", "-"], &["plan", "--", "-"]] {
        tree.fed(tree.call(words), S.as_bytes())
            .done(S_LISTING.as_bytes());
    }
    tree.reading(tree.call(&["plan"]), &tree.root.join("examples/s.plan"))
        .done(S_LISTING.as_bytes());
    refused(&tree.run(&["plan", "/dev/null"]), b"", true);
}

#[test]
fn plan_prints_what_the_program_prints() {
    let tree = Tree::new("kinds");
    for kind in KINDS {
        for seed in 0..3 {
            let text = print(&plan(kind, &mut Random::new(seed)));
            let ended = tree.fed(tree.call(&["plan"]), &text);
            let wanted = reference::program(&text);
            if wanted.starts_with(b"(refused ") {
                refused(&ended, &text, true);
            } else {
                ended.done(&wanted);
            }
        }
    }
}

#[test]
fn a_refusal_has_status_1_and_its_sentence() {
    let tree = Tree::new("refusals");
    let mut random = Random::new(7);
    let mut texts = vec![Vec::new(), NO_PLAN.to_vec(), vec![b'('; 1 << 20]];
    texts.push(S.replace('\n', "\0\n").into_bytes());
    for number in NUMBERS {
        let lines = (0..).find_map(|_| broken(&plan(Kind::Tiny, &mut random), number, &mut random));
        texts.push(print(&lines.expect("a broken plan")));
    }
    texts.push(largest(true));
    let mut numbers = Vec::new();
    for text in texts {
        tree.write("a plan", "");
        std::fs::write(tree.root.join("a plan"), &text).expect("a file");
        numbers.push(refused(&tree.run(&["plan", "a plan"]), &text, true));
        refused(&tree.fed(tree.call(&["plan"]), &text), &text, true);
        refused(&tree.run(&["draw", "a plan"]), &text, false);
    }
    numbers.dedup();
    assert!(numbers.len() >= 8, "{numbers:?}");
}

/// A text from before the head is refused, and it is said that the head is missing.
#[test]
fn a_text_without_a_head_is_refused() {
    let tree = Tree::new("no head");
    let text = S.replacen(" (head 0)", "", 1);
    let ended = tree.fed(tree.call(&["plan"]), text.as_bytes());
    assert_eq!(refused(&ended, text.as_bytes(), true), "1");
    let says = "from column 17 on, expected \"head\"\n";
    assert!(ended.said.contains(says), "{ended:?}");
}

/// The script that says where a text fails is called with the number and the text, for 1 to 9.
#[test]
fn a_refused_text_is_looked_at() {
    let tree = Tree::new("where");
    let looks = "END { print \"where \" refused \": \" NR \" lines, \" $0 }\n";
    tree.write("where/where.awk", looks);
    for ended in [
        tree.fed(tree.call(&["plan"]), b"1\n2\n3\n"),
        tree.fed(tree.call(&["draw"]), b"1\n2\n3\n"),
    ] {
        refused(&ended, b"1\n2\n3\n", ended.printed != b"");
        assert!(
            ended.said.ends_with(")\nwhere 1: 3 lines, 3\n"),
            "{ended:?}"
        );
    }
    let text = S.replace("(bytes 2) (when", "(bytes 3) (when");
    tree.write("a=b", &text);
    let ended = tree.run(&["plan", "a=b"]);
    assert_eq!(refused(&ended, text.as_bytes(), true), "9");
    assert!(
        ended.said.contains("\nwhere 9: 12 lines, (edge"),
        "{ended:?}"
    );
    let ended = tree.fed(tree.call(&["plan"]), &largest(true));
    assert_eq!(ended.said.lines().count(), 1, "{ended:?}");
    // of a text that is too long, as much as the program reads
    tree.write("long", &"\n".repeat(100_000));
    let ended = tree.run(&["plan", "long"]);
    assert!(
        ended.said.ends_with("where 1: 16385 lines, \n"),
        "{ended:?}"
    );
}

// ---- words

#[test]
fn names_of_files() {
    let tree = Tree::new("names");
    for name in ["a b.plan", "-c", "--help", "-", "a=b", "=", "e*", "é\n"] {
        tree.write(name, S);
        let absolute = tree.root.join(name);
        tree.run(&["plan", absolute.to_str().unwrap()])
            .done(S_LISTING.as_bytes());
        if name != "-" {
            tree.run(&["plan", "--", name]).done(S_LISTING.as_bytes());
            let drawn = tree.run(&["draw", "-c", "1", "--", name]);
            drawn.done(&tree.run(&["draw", "-c", "1", "examples/s.plan"]).printed);
        }
    }
    // a pipe with a name
    let ended = tree.shell("mkfifo pipe && { cat examples/s.plan >pipe & ./riscadru plan pipe; }");
    tree.fed(ended, b"").done(S_LISTING.as_bytes());
}

#[test]
fn from_another_folder_and_by_another_name() {
    let tree = Tree::new("folders");
    tree.write("below/it/a.plan", S);
    tree.program("bin/x", "");
    let mut call = tree.call(&["plan", "it/a.plan"]);
    call.current_dir(tree.root.join("below"));
    tree.fed(call, b"").done(S_LISTING.as_bytes());
    for lines in [
        "cd below/it && ../../riscadru plan a.plan",
        "cd below/it && sh ../../riscadru plan a.plan",
        "sh riscadru plan below/it/a.plan",
        "ln -s ../riscadru bin/link && ln -s \"$PWD/bin/link\" bin/again && cd below/it && ../../bin/again plan a.plan",
        "PATH=$PWD:$PATH && cd below/it && riscadru plan a.plan",
        "cd below/it && CDPATH=/:.. && export CDPATH && ../../riscadru plan a.plan",
    ] {
        tree.fed(tree.shell(lines), b"").done(S_LISTING.as_bytes());
    }
}

#[test]
fn wrong_words_have_status_2() {
    let tree = Tree::new("words");
    for (words, says) in [
        (&["plan", "nothing"][..], "there is no file 'nothing'"),
        (&["plan", ""], "there is no file ''"),
        (&["plan", "examples"], "'examples' is a folder"),
        (
            &["plan", "examples/s.plan", "b"],
            "'b' is one word too many",
        ),
        (&["plan", "-c", "1"], "there is no option '-c'"),
        (&["plan", "-x"], "there is no option '-x'"),
        (&["plan", "--long"], "there is no option '--long'"),
        (&["draw", "1"], "there is no file '1'"),
        (&["draw", "-c"], "nothing stands after -c"),
        (&["draw", "-c", ""], "'' is no number of a combination"),
        (&["draw", "-c", "-1"], "'-1' is no number of a combination"),
        (&["draw", "-cx"], "'x' is no number of a combination"),
        (
            &["draw", "-c", "2", "examples/s.plan"],
            "combinations 0 to 1, not 2",
        ),
        (
            &["draw", "-c", "99999999999999999999", "examples/s.plan"],
            "0 to 1, not",
        ),
        (&["draw", "a", "b"], "'b' is one word too many"),
        (&["build", "x"], "'x' is one word too many"),
        (&["install"], "a folder PREFIX is wanted"),
        (&["install", ""], "a folder PREFIX is wanted"),
        (&["install", "a", "b"], "'b' is one word too many"),
        (&["cases", "x"], "'x' is one word too many"),
        (&["test", "x"], "'x' is one word too many"),
        (&["help", "plan", "x"], "'x' is one word too many"),
        (&["help", "nothing"], "there is no command 'nothing'"),
        (&["nothing"], "there is no command 'nothing'"),
        (&[""], "there is no command ''"),
        (&["-x"], "there is no command '-x'"),
        (&["plan draw"], "there is no command 'plan draw'"),
        (&["../plan"], "there is no command '../plan'"),
    ] {
        tree.run(words).failed(says);
    }
}

#[test]
fn help_tells_of_every_command() {
    let tree = Tree::new("help");
    let all = tree.run(&["help"]);
    all.done(&all.printed);
    let text = String::from_utf8(all.printed.clone()).expect("text");
    for words in [&[][..], &["-h"], &["--help"]] {
        assert_eq!(tree.run(words), all);
    }
    let listed: Vec<&str> = text
        .lines()
        .filter(|line| line.starts_with("  "))
        .map(|line| line.split_whitespace().next().unwrap())
        .collect();
    assert_eq!(listed, COMMANDS);
    for command in COMMANDS {
        let one = tree.run(&["help", command]);
        one.done(&one.printed);
        for words in [[command, "--help"], [command, "-h"]] {
            assert_eq!(tree.run(&words), one);
        }
        let text = String::from_utf8(one.printed).expect("text");
        assert!(text.starts_with(&format!("usage: ./riscadru {command}")));
        for says in ["  prints   ", "  returns  0 "] {
            assert!(text.contains(says), "{text}");
        }
    }
    assert_eq!(
        tree.run(&["draw", "x", "--help"]),
        tree.run(&["help", "draw"])
    );
}

// ---- reading and writing

#[test]
fn what_cannot_be_read_has_status_2() {
    let tree = Tree::new("reading");
    for words in [&["plan"][..], &["plan", "-"], &["draw"]] {
        tree.reading(tree.call(words), &tree.root)
            .failed("standard input could not be read");
    }
    let closed = tree.shell("./riscadru plan <&-");
    tree.fed(closed, b"")
        .failed("standard input could not be read");
    // the program itself cannot read, and prints nothing
    tree.program(
        "target/bin/riscadru_plan",
        "echo 'it could not be read' >&2",
    );
    let ended = tree.run(&["plan", "examples/s.plan"]);
    assert_eq!((ended.status, &ended.printed[..]), (2, &b""[..]));
    tree.program("target/bin/riscadru_plan", "exit 3");
    tree.run(&["plan", "examples/s.plan"]).failed("failed");
}

#[test]
fn what_cannot_be_written_has_status_2() {
    let tree = Tree::new("writing");
    std::fs::write(tree.root.join("large.plan"), largest(false)).expect("a file");
    std::fs::write(tree.root.join("broken.plan"), NO_PLAN).expect("a file");
    for words in [
        "plan examples/s.plan",
        "plan large.plan",
        "plan broken.plan",
        "draw examples/s.plan",
        "build",
        "install below",
        "help",
        "help plan",
    ] {
        for to in [">/dev/full", ">&-"] {
            let call = tree.shell(&format!("./riscadru {words} {to}"));
            let ended = tree.fed(call, b"");
            assert_eq!(ended.status, 2, "{words} {to}: {ended:?}");
            let last = ended.said.lines().last().expect("a line");
            assert!(last.starts_with("riscadru: "), "{words} {to}: {ended:?}");
            assert!(last.contains("standard output"), "{words} {to}: {ended:?}");
        }
    }
    // nobody reads any more
    let call = "{ ./riscadru plan large.plan; echo $? >status; } | head -n 1";
    let ended = tree.fed(tree.shell(call), b"");
    assert!(ended.printed.starts_with(b"(delay "), "{ended:?}");
    assert_eq!(tree.read("status").as_deref(), Some(&b"2\n"[..]));
}

// ---- draw

#[test]
fn draw_prints_a_picture() {
    let tree = Tree::new("draw");
    let drawn = tree.run(&["draw", "examples/s.plan"]);
    drawn.done(&drawn.printed);
    let panels = |ended: &Ended| {
        let picture = String::from_utf8(ended.printed.clone()).expect("text");
        assert!(picture.starts_with("<svg ") && picture.ends_with("</svg>\n"));
        picture.matches("<g class=\"combination\">").count()
    };
    assert_eq!(panels(&drawn), 2);
    assert_eq!(tree.fed(tree.call(&["draw"]), S.as_bytes()), drawn);
    let one = tree.run(&["draw", "-c", "1", "examples/s.plan"]);
    one.done(&one.printed);
    assert_eq!(panels(&one), 1);
    for words in [
        ["draw", "-c1", "examples/s.plan"],
        ["draw", "examples/s.plan", "-c1"],
    ] {
        assert_eq!(tree.run(&words), one);
    }
    assert_eq!(
        tree.fed(tree.call(&["draw", "-c", "1", "-"]), S.as_bytes()),
        one
    );
    // where figures are written with a comma
    let mut call = tree.call(&["draw", "examples/s.plan"]);
    call.env("LC_ALL", "de_DE.UTF-8");
    assert_eq!(tree.fed(call, b""), drawn);
    let large = largest(false);
    assert_eq!(panels(&tree.fed(tree.call(&["draw"]), &large)), 64);
}

// ---- build, test

#[test]
fn build_prints_the_words_to_link_with() {
    let tree = Tree::new("words to link with");
    let ended = tree.run(&["build"]);
    assert_eq!(ended.status, 0);
    assert_eq!(ended.printed, b"-Ltarget/riscadru -lriscadru\n");
    assert_eq!(
        tree.read("target/riscadru/riscadru.h"),
        tree.read("include/riscadru.h")
    );
    let mut call = tree.call(&["build"]);
    call.current_dir(tree.root.join("examples"));
    let words = format!("-L{}/target/riscadru -lriscadru\n", tree.root.display());
    assert_eq!(tree.fed(call, b"").printed, words.as_bytes());
}

#[test]
fn test_is_the_gate() {
    let tree = Tree::new("gate");
    for status in [0, 1] {
        let lines = format!("echo '5 passed, {status} failed'; exit {status}");
        tree.program(".ci/run", &lines);
        let ended = tree.run(&["test"]);
        assert_eq!((ended.status, &ended.said[..]), (status, ""));
        assert_eq!(
            ended.printed,
            format!("5 passed, {status} failed\n").as_bytes()
        );
    }
}

// ---- install

/// The files below a folder with their rights, in order.
fn files(folder: &Path) -> Vec<String> {
    let words = ["-type", "f", "-printf", "%m %P\n"];
    let output = Command::new("find").arg(folder).args(words).output();
    let names = String::from_utf8(output.expect("find").stdout).expect("text");
    let mut names: Vec<String> = names.lines().map(str::to_string).collect();
    names.sort();
    names
}

/// What is installed, with the rights.
const INSTALLED: [&str; 6] = [
    "644 include/riscadru.h",
    "644 lib/libriscadru.a",
    "644 lib/pkgconfig/riscadru.pc",
    "644 share/doc/riscadru/REFUSALS.md",
    "755 bin/riscadru_check",
    "755 bin/riscadru_plan",
];

#[test]
fn install_writes_six_files() {
    let tree = Tree::new("install");
    let below = tree.root.join("below");
    std::fs::create_dir(&below).expect("a folder");
    for prefix in ["it", "a/b c", "-x"] {
        // twice: what is there is replaced
        for _ in 0..2 {
            let mut call = tree.call(&["install", "--", prefix]);
            call.current_dir(&below);
            let ended = tree.fed(call, b"");
            assert_eq!((ended.status, &ended.said[..]), (0, ""), "{ended:?}");
            assert_eq!(files(&below.join(prefix)), INSTALLED);
            let names = String::from_utf8(ended.printed).expect("text");
            assert_eq!(names.lines().count(), 6);
            assert!(
                names.lines().all(|name| Path::new(name).is_file()),
                "{names}"
            );
        }
        let same = |name: &str, of: &str| {
            let there = std::fs::read(below.join(prefix).join(name)).expect(name);
            assert_eq!(Some(there), tree.read(of), "{name}");
        };
        same("bin/riscadru_plan", "target/bin/riscadru_plan");
        same("bin/riscadru_check", "target/bin/riscadru_check");
        same("lib/libriscadru.a", "target/riscadru/libriscadru.a");
        same("include/riscadru.h", "include/riscadru.h");
        same("share/doc/riscadru/REFUSALS.md", "docs/REFUSALS.md");
    }
    let prefix = below.join("whole");
    assert_eq!(tree.run(&["install", prefix.to_str().unwrap()]).status, 0);
    assert_eq!(files(&prefix), INSTALLED);
}

/// Where a file cannot be written, none is, and nothing is left.
#[test]
fn install_writes_all_or_nothing() {
    let tree = Tree::new("no install");
    tree.write("file", "");
    tree.run(&["install", "file"])
        .failed("'file' could not be made");
    tree.run(&["install", "file/x"]).failed("could not be made");
    tree.run(&["install", "/dev/null"])
        .failed("could not be made");
    tree.run(&["install", "/proc"]).failed("'/proc");
    tree.write("prefix/share/doc/riscadru", "");
    tree.run(&["install", "prefix"])
        .failed("could not be written");
    assert_eq!(files(&tree.root.join("prefix")), ["644 share/doc/riscadru"]);
    tree.write("other/lib/libriscadru.a/x", "");
    tree.run(&["install", "other"]).failed("is a folder");
    assert_eq!(files(&tree.root.join("other")), ["644 lib/libriscadru.a/x"]);
}

/// The firmware example is linked by the words of pkg-config, and plans S.
#[test]
#[cfg_attr(not(have_pkg_config), ignore)]
fn firmware_is_linked_by_pkg_config() {
    let tree = Tree::new("pkg-config");
    for prefix in ["installed", "with a blank"] {
        let prefix = tree.root.join(prefix);
        assert_eq!(tree.run(&["install", prefix.to_str().unwrap()]).status, 0);
    }
    // the name of the copy has a blank, which only `eval` understands; another one does without
    let plain = PathBuf::from(env!("CARGO_TARGET_TMPDIR")).join("riscadru-installed");
    assert_eq!(tree.run(&["install", plain.to_str().unwrap()]).status, 0);
    let firmware = root().join("firmware");
    for (prefix, link) in [
        (
            plain.clone(),
            "gcc -std=c11 \"$F\"/*.c $(pkg-config --cflags --libs riscadru)",
        ),
        (
            tree.root.join("with a blank"),
            "eval gcc -std=c11 '\"$F\"'/*.c \"$(pkg-config --cflags --libs riscadru)\"",
        ),
    ] {
        let lines = format!("{link} -o unit && ./unit plan examples/s.plan s.table");
        let mut call = tree.shell(&lines);
        call.env("PKG_CONFIG_PATH", prefix.join("lib/pkgconfig"));
        call.env("F", &firmware);
        let ended = tree.fed(call, b"");
        assert_eq!(
            (ended.status, &ended.printed[..]),
            (0, &b"34\n"[..]),
            "{ended:?}"
        );
        std::fs::remove_file(tree.root.join("unit")).expect("the program");
    }
    std::fs::remove_dir_all(plain).expect("what was installed");
}

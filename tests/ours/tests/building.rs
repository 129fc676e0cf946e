//! The command `./riscadru` where something is to be built: when it builds, how it tells its progress,
//! and what it leaves where the build fails or is interrupted. A small program stands in the place of
//! `rt` (see `ours::tree`).
#![cfg(all(have_program, have_check_program, have_archive))]

use std::fs::{self, File};
use std::path::Path;
use std::process::Command;
use std::time::{Duration, Instant, SystemTime};

use ours::linking::root;
use ours::tree::{started, Ended, Tree, PROGRAMS};
use suite::S_LISTING;

/// An `rt` that says what the real one says of what it proves anew, and leaves a program or an archive in
/// the folder out of the crate that it is called in. It keeps its calls in the file `calls`.
const RT: &str = r#"
crate=${PWD##*/}
cd ../..
echo "$* $crate" >>calls
prove() {
    echo "rt: chose --jobs 2 for $1"
    echo "fn $1::f: proved"
    echo "statements std: modules loaded=21 checked=0"
    echo "crate $1: modules loaded=10 checked=$2"
    echo "logic=proved functions=1"
}
prove lists 0 >&2
prove model 33 >&2
case $1 in
run)
    prove $crate 54 >&2
    mkdir -p crates/$crate/out
    cp built/$crate crates/$crate/out/$crate
    echo "rt: running out/$crate; to give it other input, run that file yourself" >&2
    crates/$crate/out/$crate
    ;;
lib)
    prove c_text 33
    prove c_interface 33
    prove $crate 34
    mkdir -p crates/$crate/out
    echo archive >crates/$crate/out/lib$crate.a
    ;;
esac
"#;

/// An `rt` that proves a crate and refuses the next.
const REFUSING_RT: &str = r#"
exec >&2
echo 'fn lists::f: proved'
echo 'crate lists: modules loaded=0 checked=33'
echo 'logic=proved functions=1'
echo './src/lib.rt:1:1: error: a fact that fails'
echo 'logic=not-proved'
echo 'rt: the library model did not build, so nothing above it was checked' >&2
echo half >../../target/bin/riscadru_plan.tmp-1
exit 1
"#;

/// An `rt` that is interrupted: it has proved a crate, and one of its processes, started as the real one
/// starts its provers, goes on for long. Something half written lies there, too.
const SLOW_RT: &str = r#"
cd ../..
mkdir -p target/bin target/staticlib
echo half >target/bin/riscadru_plan.tmp-1
echo half >target/staticlib/libc_interface.a.tmp-1
echo 'crate lists: modules loaded=0 checked=33'
echo 'logic=proved functions=1'
sleep 600 &
echo $! >sleeper
wait
"#;

/// A copy in which nothing is built.
fn unbuilt(name: &str, rt: &str) -> Tree {
    let tree = Tree::new(name);
    for program in PROGRAMS {
        let from = root().join("target/bin").join(program);
        tree.copy(&from, &format!("built/{program}"));
        for file in ["stdin", "stdout"] {
            let file = format!("crates/{program}/{file}");
            tree.copy(&root().join(&file), &file);
        }
    }
    fs::remove_dir_all(tree.root.join("target")).expect("what is built");
    tree.set_rt(rt);
    tree
}

/// The calls of `rt` so far.
fn calls(tree: &Tree) -> Vec<String> {
    let calls = tree.read("calls").unwrap_or_default();
    let calls = String::from_utf8(calls).expect("text");
    calls.lines().map(str::to_string).collect()
}

/// Panics unless S was planned; gives what was said.
fn planned(ended: Ended) -> String {
    assert_eq!(ended.status, 0, "{ended:?}");
    assert_eq!(ended.printed, S_LISTING.as_bytes());
    ended.said
}

/// Panics unless a plan of S builds the program, and a second one does not.
fn builds(tree: &Tree) -> String {
    let before = calls(tree).len();
    let said = planned(tree.run(&["plan", "examples/s.plan"]));
    assert_eq!(calls(tree)[before..], ["run riscadru_plan"]);
    assert_eq!(planned(tree.run(&["plan", "examples/s.plan"])), "");
    assert_eq!(calls(tree).len(), before + 1);
    said
}

#[test]
fn what_is_missing_or_older_than_a_source_is_built() {
    let tree = unbuilt("older", RT);
    builds(&tree);
    tree.write("crates/model/src/lib.rt", "// another source\n");
    builds(&tree);
    tree.write("crates/model/proofs/f/Proof.antt", "");
    builds(&tree);
    fs::remove_file(tree.root.join("crates/model/proofs/f/Proof.antt")).expect("a file");
    builds(&tree);
    let text = tree.read("crates.txt").expect("a file");
    fs::write(tree.root.join("crates.txt"), text).expect("a file");
    builds(&tree);
    // proved and built, but it does not print what it must
    let wanted = tree.read("crates/riscadru_plan/stdout").expect("a file");
    tree.write("crates/riscadru_plan/stdout", "(delay 35)\n");
    let ended = tree.run(&["plan", "examples/s.plan"]);
    assert_eq!((ended.status, &ended.printed[..]), (2, &b""[..]));
    assert!(ended.said.contains("stdout out/stdout differ"), "{ended:?}");
    let file = tree.root.join("crates/riscadru_plan/stdout");
    fs::write(file, wanted).expect("a file");
    builds(&tree);
    fs::remove_file(tree.root.join("target/bin/riscadru_plan")).expect("a file");
    builds(&tree);
    // no source
    let before = calls(&tree);
    tree.write("README.md", "");
    tree.write("crates/model/must-fail/x.edit", "");
    tree.write("crates/model/out/x", "");
    assert_eq!(planned(tree.run(&["plan", "examples/s.plan"])), "");
    assert_eq!(calls(&tree), before);
}

/// Each program is built for its own command.
#[test]
fn the_checking_program_is_built() {
    let tree = unbuilt("check", RT);
    let words = ["check", "examples/s.plan", "examples/s.listing"];
    let ended = tree.run(&words);
    assert_eq!(
        (ended.status, &ended.printed[..]),
        (0, &b"(accepted)\n"[..]),
        "{ended:?}"
    );
    assert!(ended.said.contains("[3/3] riscadru_check\n"), "{ended:?}");
    assert_eq!(calls(&tree), ["run riscadru_check"]);
    tree.run(&words).done(b"(accepted)\n");
    assert_eq!(calls(&tree).len(), 1);
    builds(&tree);
    tree.run(&words).done(b"(accepted)\n");
    tree.write("crates/model/src/lib.rt", "// another source\n");
    assert_eq!(tree.run(&words).status, 0);
    assert_eq!(calls(&tree)[2..], ["run riscadru_check"]);
}

#[test]
fn a_source_that_is_changed_during_the_build_is_newer() {
    let change = "echo '// changed' >>../lists/src/lib.rt\n";
    let tree = unbuilt("meanwhile", &format!("{change}{RT}"));
    planned(tree.run(&["plan", "examples/s.plan"]));
    tree.run(&["build"]);
    tree.set_rt(RT);
    builds(&tree);
    let before = calls(&tree).len();
    tree.run(&["build"]);
    assert_eq!(calls(&tree).len(), before + 1);
}

#[test]
fn a_wrong_call_builds_nothing() {
    let tree = unbuilt("wrong", RT);
    tree.run(&["plan", "nothing"]).failed("there is no file");
    tree.run(&["check", "-", "-"]).failed("only one of");
    tree.run(&["check", "examples/s.plan", "nothing"])
        .failed("there is no file");
    tree.run(&["draw", "-c", "x"]).failed("no number");
    tree.run(&["build", "x"]).failed("one word too many");
    tree.run(&["install"]).failed("a folder PREFIX is wanted");
    assert_eq!(tree.run(&["plan", "--help"]).status, 0);
    assert!(calls(&tree).is_empty());
    assert!(!tree.root.join("target").exists());
}

#[test]
fn progress_is_told() {
    let tree = unbuilt("progress", RT);
    let said = builds(&tree);
    let lines: Vec<&str> = said.lines().collect();
    let begins = "riscadru: proving riscadru_plan and what it rests on, 3 crates; ";
    assert_eq!(lines.len(), 5, "{said}");
    assert_eq!(lines[0], format!("{begins}the first time may take an hour"));
    let told = ["[1/3] lists", "[2/3] model", "[3/3] riscadru_plan"];
    assert_eq!(lines[1..4], told);
    assert!(lines[4].starts_with("riscadru: riscadru_plan is proved, in "));
    tree.write(
        "crates.txt",
        &String::from_utf8(tree.read("crates.txt").unwrap()).unwrap(),
    );
    let said = builds(&tree);
    assert!(
        said.starts_with(&format!("{begins}the last time that took ")),
        "{said}"
    );
    let first = said.lines().next().unwrap();
    assert!(
        first.ends_with(" seconds, with 2 crates proved anew"),
        "{said}"
    );
}

#[test]
fn the_archive_is_built() {
    let tree = unbuilt("archive", RT);
    let ended = tree.run(&["build"]);
    assert_eq!(
        (ended.status, &ended.printed[..]),
        (0, &b"-Ltarget/riscadru -lriscadru\n"[..])
    );
    assert_eq!(calls(&tree), ["lib c_interface_c"]);
    let told: Vec<&str> = ended
        .said
        .lines()
        .filter(|line| line.starts_with('['))
        .collect();
    assert_eq!(
        told,
        [
            "[1/5] lists",
            "[2/5] model",
            "[3/5] c_text",
            "[4/5] c_interface",
            "[5/5] c_interface_c"
        ]
    );
    for archive in ["riscadru/libriscadru.a", "staticlib/libc_interface.a"] {
        let archive = format!("target/{archive}");
        assert_eq!(tree.read(&archive).unwrap(), b"archive\n");
    }
    assert_eq!(
        tree.read("target/riscadru/riscadru.h"),
        tree.read("include/riscadru.h")
    );
    assert_eq!(tree.run(&["build"]).printed, ended.printed);
    assert_eq!(calls(&tree).len(), 1);
    // the header alone is newer
    tree.write("include/riscadru.h", "/* changed */\n");
    assert_eq!(tree.run(&["build"]).status, 0);
    assert_eq!(
        tree.read("target/riscadru/riscadru.h").unwrap(),
        b"/* changed */\n"
    );
    assert_eq!(calls(&tree).len(), 1);
}

#[test]
fn install_builds_what_it_needs() {
    let tree = unbuilt("install builds", RT);
    let ended = tree.run(&["install", "prefix"]);
    assert_eq!(ended.status, 0, "{ended:?}");
    let wanted = [
        "run riscadru_plan",
        "run riscadru_check",
        "lib c_interface_c",
    ];
    assert_eq!(calls(&tree), wanted);
    assert_eq!(tree.read("prefix/lib/libriscadru.a").unwrap(), b"archive\n");
}

#[test]
fn cases_are_proved_or_not() {
    let tree = unbuilt("cases", RT);
    let ended = tree.run(&["cases"]);
    assert_eq!(ended.status, 0, "{ended:?}");
    assert_eq!(
        ended.printed,
        b"the worked cases of documents 01 and 02 are proved\n"
    );
    assert!(ended.said.contains("[2/2] model\n"), "{ended:?}");
    assert_eq!(calls(&tree), ["check model"]);
    let full = tree.fed(tree.shell("./riscadru cases >/dev/full"), b"");
    assert_eq!(full.status, 2, "{full:?}");
    tree.set_rt(REFUSING_RT);
    assert_eq!(tree.run(&["cases"]).status, 2);
}

#[test]
fn a_failed_build_has_status_2() {
    let tree = unbuilt("failed", REFUSING_RT);
    fs::create_dir_all(tree.root.join("target/bin")).expect("a folder");
    for words in [
        &["plan", "examples/s.plan"][..],
        &["check", "examples/s.plan", "examples/s.listing"],
        &["draw", "examples/s.plan"],
        &["build"],
        &["install", "x"],
    ] {
        let ended = tree.run(words);
        assert_eq!(
            (ended.status, &ended.printed[..]),
            (2, &b""[..]),
            "{ended:?}"
        );
        assert!(ended.said.contains("[1/"), "{ended:?}");
        assert!(
            ended
                .said
                .contains("error: a fact that fails\nlogic=not-proved\nrt: the library model"),
            "{ended:?}"
        );
        assert!(!ended.said.contains("fn lists"), "{ended:?}");
        assert!(
            ended.said.ends_with(" could not be proved and built\n"),
            "{ended:?}"
        );
        assert_eq!(tree.read("target/bin/riscadru_plan.tmp-1"), None);
    }
    // an `rt` that leaves nothing, and none at all
    tree.set_rt("exit 0");
    assert_eq!(tree.run(&["plan", "examples/s.plan"]).status, 2);
    assert_eq!(tree.run(&["build"]).status, 2);
    if !["/usr/bin/rt", "/bin/rt"]
        .iter()
        .any(|rt| Path::new(rt).exists())
    {
        for words in [
            &["plan", "examples/s.plan"][..],
            &["check", "examples/s.plan", "examples/s.listing"],
            &["build"],
            &["cases"],
            &["test"],
        ] {
            let mut call = tree.call(words);
            call.env("PATH", "/usr/bin:/bin");
            tree.fed(call, b"")
                .failed("the command rt of the Rattle toolchain");
        }
    }
}

/// Whether this process, and with it those it starts, ignores a signal by its number.
fn ignores(signal: u32) -> bool {
    let status = fs::read_to_string("/proc/self/status").expect("its status");
    let line = status.lines().find_map(|line| line.strip_prefix("SigIgn:"));
    let mask = u64::from_str_radix(line.expect("the signals").trim(), 16).expect("a mask");
    mask >> (signal - 1) & 1 == 1
}

/// Waits for something that comes about soon.
fn soon(mut done: impl FnMut() -> bool) {
    let begin = Instant::now();
    while !done() {
        assert!(
            begin.elapsed() < Duration::from_secs(60),
            "it does not come about"
        );
        std::thread::sleep(Duration::from_millis(10));
    }
}

#[test]
fn an_interrupted_build_leaves_nothing() {
    for (signal, number) in [("HUP", 1), ("INT", 2), ("TERM", 15)] {
        if ignores(number) {
            continue;
        }
        for words in [&["plan", "examples/s.plan"][..], &["build"], &["cases"]] {
            let tree = unbuilt("interrupted", SLOW_RT);
            let child = started(tree.call(words));
            soon(|| tree.read("sleeper").is_some_and(|pid| pid.ends_with(b"\n")));
            let pid = child.id().to_string();
            let sent = Command::new("kill").args(["-s", signal, &pid]).status();
            assert!(sent.expect("kill").success());
            let ended = tree.ended(child);
            assert_eq!(
                (ended.status, &ended.printed[..]),
                (128 + number as i32, &b""[..])
            );
            let sleeper = String::from_utf8(tree.read("sleeper").unwrap()).unwrap();
            let sleeper = format!("/proc/{}/cmdline", sleeper.trim());
            soon(|| fs::read(&sleeper).map_or(true, |words| words.is_empty()));
            assert_eq!(tree.read("target/bin/riscadru_plan.tmp-1"), None);
            assert_eq!(tree.read("target/staticlib/libc_interface.a.tmp-1"), None);
            tree.set_rt(RT);
            builds(&tree);
        }
    }
}

#[test]
fn one_build_at_a_time() {
    let tree = unbuilt("lock", RT);
    let lock = tree.root.join("target/riscadru/building");
    fs::create_dir_all(lock.parent().unwrap()).expect("a folder");
    fs::write(&lock, format!("{}\n", std::process::id())).expect("a file");
    let output = tree.call(&["plan", "examples/s.plan"]).output().unwrap();
    assert_eq!(output.status.code(), Some(2));
    let said = String::from_utf8(output.stderr).expect("text");
    assert!(said.contains(&format!(
        "process {} is building already",
        std::process::id()
    )));
    assert!(lock.exists() && calls(&tree).is_empty());
    // what built has ended, without the time to say so
    let mut child = Command::new("true").spawn().expect("a program");
    child.wait().expect("its end");
    fs::write(&lock, format!("{}\n", child.id())).expect("a file");
    builds(&tree);
    fs::remove_file(tree.root.join("target/bin/riscadru_plan")).expect("a file");
    fs::write(&lock, "").expect("a file");
    builds(&tree);
}

/// On a terminal the lines overwrite each other.
#[test]
#[cfg_attr(not(have_terminal), ignore)]
fn progress_on_a_terminal_is_one_line() {
    let tree = unbuilt("terminal", RT);
    let call = tree.shell("script -qec './riscadru plan examples/s.plan' /dev/null </dev/null");
    let ended = tree.fed(call, b"");
    let shown = String::from_utf8(ended.printed).expect("text");
    let told: Vec<&str> = shown.split('\r').collect();
    for line in ["[1/3] lists", "[2/3] model", "[3/3] riscadru_plan"] {
        assert!(told.contains(&line), "{shown:?}");
    }
    let between = shown.split("[1/3]").nth(1).unwrap();
    let between = between.split("[3/3]").next().unwrap();
    assert!(!between.contains('\n'), "{shown:?}");
}

/// The copies that these tests go by are not the repository, which nothing here may touch.
#[test]
fn the_repository_stays_as_it_is() {
    let program = root().join("target/bin/riscadru_plan");
    let time = || File::open(&program).and_then(|file| file.metadata()?.modified());
    let before: SystemTime = time().expect("the program");
    builds(&unbuilt("apart", RT));
    assert_eq!(time().expect("the program"), before);
}

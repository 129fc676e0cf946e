//! The command `./riscadru check` as a person or a script calls it: what it reads and prints, the status
//! of every call, and the lines that it names. It runs in copies of the repository (see `ours::tree`) in
//! which everything is built. Which line a refusal is about is compared with the second implementation
//! in the suite; here it is tried that the command asks for it and passes it on.
#![cfg(all(have_program, have_check_program, have_archive))]

use generate::broken::{broken, NUMBERS};
use generate::{plan, Kind, Random};
use ours::linking::root;
use ours::tree::{Ended, Tree};
use reference::{print, When};
use suite::listings::{behind_s, inputs, s_listing_with};
use suite::{bus, With, S, S_LISTING};

/// What is printed for a listing that is accepted.
const ACCEPTED: &[u8] = b"(accepted)\n";

/// S and its listing as one text.
fn whole() -> String {
    format!("{S}\n{S_LISTING}")
}

/// The listing of S with process 3 a tick too early.
fn early() -> String {
    s_listing_with(&[("(at 32)", "(at 31)")])
}

/// What is said of that line.
const EARLY: &str = " (start 3 (when (true 0)) (at 31))
  in combination 1, (true 0), edge 2 from process 1 delivers at tick 32, and this starts at tick 31
";

/// The sentence that docs/REFUSALS.md has for a refusal.
fn sentence(number: u8) -> String {
    let page = std::fs::read_to_string(root().join("docs/REFUSALS.md")).expect("the page");
    let begins = format!("| {number} | ");
    let line = page.lines().find(|line| line.starts_with(&begins));
    let cells = line.expect("a line of the table")[begins.len()..].split(" | ");
    cells.map(str::to_string).next().expect("a sentence")
}

/// Panics unless a call refused its input with this number; gives what was said behind the sentence.
fn refused(ended: &Ended, number: u8) -> String {
    let printed = format!("(refused {number})\n");
    assert_eq!(
        (ended.status, &ended.printed[..]),
        (1, printed.as_bytes()),
        "{ended:?}"
    );
    let says = format!(
        "riscadru: refused {number}: {} (docs/REFUSALS.md says what to do)\n",
        sentence(number)
    );
    let behind = ended.said.strip_prefix(&says);
    behind
        .unwrap_or_else(|| panic!("{says}{}", ended.said))
        .to_string()
}

/// Panics unless a call ended as the reference does with this input, 0 for acceptance.
fn answered(ended: &Ended, number: u8) {
    match number {
        0 => ended.done(ACCEPTED),
        number => drop(refused(ended, number)),
    }
}

// ---- what is read

#[test]
fn one_text_or_two_files() {
    let tree = Tree::new("check reads");
    tree.write("whole", &whole());
    let two = ["check", "examples/s.plan", "examples/s.listing"];
    tree.run(&two).done(ACCEPTED);
    tree.run(&["check", "whole"]).done(ACCEPTED);
    tree.run(&["check", "--", "whole"]).done(ACCEPTED);
    for words in [&["check"][..], &["check", "-"], &["check", "--", "-"]] {
        tree.fed(tree.call(words), whole().as_bytes())
            .done(ACCEPTED);
    }
    tree.reading(tree.call(&["check"]), &tree.root.join("whole"))
        .done(ACCEPTED);
    let plan_there = tree.call(&["check", "examples/s.plan", "-"]);
    tree.fed(plan_there, S_LISTING.as_bytes()).done(ACCEPTED);
    let listing_there = tree.call(&["check", "-", "examples/s.listing"]);
    tree.fed(listing_there, S.as_bytes()).done(ACCEPTED);
}

#[test]
fn what_plan_prints_is_accepted() {
    let tree = Tree::new("check planned");
    let lines =
        "./riscadru plan examples/s.plan >s.listing && ./riscadru check examples/s.plan s.listing";
    tree.fed(tree.shell(lines), b"").done(ACCEPTED);
    let lines =
        "{ cat examples/s.plan && echo && ./riscadru plan examples/s.plan; } | ./riscadru check";
    tree.fed(tree.shell(lines), b"").done(ACCEPTED);
    let lines = "./riscadru plan examples/s.plan | ./riscadru check examples/s.plan -";
    tree.fed(tree.shell(lines), b"").done(ACCEPTED);
    for seed in 0..6 {
        let text = print(&plan(Kind::ManyConditions, &mut Random::new(seed)));
        let input = [&text[..], b"\n", &reference::program(&text)].concat();
        tree.fed(tree.call(&["check"]), &input).done(ACCEPTED);
    }
}

#[test]
fn names_of_files() {
    let tree = Tree::new("check names");
    for name in ["a b", "-c", "--help", "a=b", "=", "e*", "é\n", "it's"] {
        tree.write(name, S);
        tree.write(&format!("{name}.listing"), S_LISTING);
        let listing = format!("{name}.listing");
        tree.run(&["check", "--", name, &listing]).done(ACCEPTED);
        tree.write(&listing, &early());
        let ended = tree.run(&["check", "--", name, &listing]);
        let says = format!("listing ('{listing}'), line 8:{EARLY}");
        assert_eq!(refused(&ended, 16), says);
        tree.write(name, &whole());
        tree.run(&["check", "--", name]).done(ACCEPTED);
    }
    // from another folder, and pipes with names
    let lines = "cd examples && ../riscadru check s.plan s.listing";
    tree.fed(tree.shell(lines), b"").done(ACCEPTED);
    let lines = "mkfifo one two && { cat examples/s.plan >one & cat examples/s.listing >two & \
                 ./riscadru check one two; }";
    tree.fed(tree.shell(lines), b"").done(ACCEPTED);
}

// ---- refusals

/// Each case by hand, as one text and as two files.
#[test]
fn cases_by_hand() {
    let tree = Tree::new("check cases");
    for (what, input, number) in inputs() {
        let ended = tree.fed(tree.call(&["check"]), input.as_bytes());
        println!("{what}");
        answered(&ended, number);
    }
    for (what, listing, number) in behind_s() {
        tree.write("s.listing", &listing);
        let ended = tree.run(&["check", "examples/s.plan", "s.listing"]);
        println!("{what}");
        answered(&ended, number);
        if number != 0 && number != 14 {
            assert!(
                ended.said.contains("\nlisting ('s.listing'), line "),
                "{ended:?}"
            );
        }
    }
}

#[test]
fn which_of_the_two_is_told() {
    let tree = Tree::new("check which");
    let text = format!("{S}\n{}", early());
    let ended = tree.fed(tree.call(&["check"]), text.as_bytes());
    let says = format!("listing line 8 (line 21 of the whole text):{EARLY}");
    assert_eq!(refused(&ended, 16), says);
    tree.write("early", &early());
    let ended = tree.run(&["check", "examples/s.plan", "early"]);
    let says = format!("listing ('early'), line 8:{EARLY}");
    assert_eq!(refused(&ended, 16), says);
    let there = tree.call(&["check", "examples/s.plan", "-"]);
    let says = format!("listing (standard input), line 8:{EARLY}");
    assert_eq!(refused(&tree.fed(there, early().as_bytes()), 16), says);

    let longer = S.replace("(bytes 2) (when", "(bytes 3) (when");
    let behind = " (edge (from 1) (to 3) (bytes 3) (when always))
  bytes is 3, and the slot of its sender's node 1 (line 3) has 2
";
    let text = format!("{longer}\n{S_LISTING}");
    let ended = tree.fed(tree.call(&["check"]), text.as_bytes());
    assert_eq!(refused(&ended, 9), format!("plan line 11:{behind}"));
    tree.write("a=b", &longer);
    let ended = tree.run(&["check", "a=b", "examples/s.listing"]);
    assert_eq!(
        refused(&ended, 9),
        format!("plan ('a=b'), line 11:{behind}")
    );
}

/// The lines of the plan are told as `plan` tells them.
#[test]
fn a_broken_plan_is_told_as_by_plan() {
    let tree = Tree::new("check broken");
    let mut random = Random::new(8);
    for number in NUMBERS {
        let lines = (0..).find_map(|_| broken(&plan(Kind::Tiny, &mut random), number, &mut random));
        let text = print(&lines.expect("a broken plan"));
        let said = tree.fed(tree.call(&["plan"]), &text).said;
        let (_, said) = said.split_once('\n').expect("a sentence");
        let input = [&text[..], b"\n", S_LISTING.as_bytes()].concat();
        let ended = tree.fed(tree.call(&["check"]), &input);
        let told = refused(&ended, number);
        let said = said.replace("\n  line ", "\n  plan line ");
        assert_eq!(told, format!("plan {said}"));
    }
}

/// An empty listing, with and without an empty line.
#[test]
fn an_empty_listing_is_21() {
    let tree = Tree::new("check empty");
    for text in [S.to_string(), format!("{S}\n")] {
        let ended = tree.fed(tree.call(&["check"]), text.as_bytes());
        let told = refused(&ended, 21);
        assert!(
            told.starts_with(
                "listing line 1 (line 14 of the whole text):\n  the listing is empty\n"
            ),
            "{told}"
        );
        assert!(told.contains("behind the plan, with an empty line between them\n"));
    }
    let ended = tree.run(&["check", "examples/s.plan", "/dev/null"]);
    let told = refused(&ended, 21);
    let says = "listing ('/dev/null'), line 1:\n  the listing is empty\n  expected";
    assert!(told.starts_with(says), "{told}");
    let ended = tree.run(&["check", "/dev/null"]);
    assert!(refused(&ended, 1).starts_with("plan line 1:\n  the text is empty"));
}

/// Where the empty line is missing, all of it is a plan that is not of the form.
#[test]
fn the_empty_line_is_missing() {
    let tree = Tree::new("check no empty line");
    let text = format!("{S}{S_LISTING}");
    let told = refused(&tree.fed(tree.call(&["check"]), text.as_bytes()), 1);
    assert!(told.starts_with("plan line 13: (delay 34)\n"), "{told}");
    assert!(told.contains("an empty line stands before it\n"), "{told}");
}

// ---- a plan that is not to be joined

/// A plan file without its last line feed is refused, whatever the listing is: the join repairs nothing.
#[test]
fn a_plan_without_its_last_line_feed_is_1() {
    let tree = Tree::new("check no feed");
    tree.write("plan", &S[..S.len() - 1]);
    tree.write("0", "");
    tree.write("1", S_LISTING);
    tree.write("2", &format!("\n{S_LISTING}"));
    tree.write("3", &format!("\n\n{S_LISTING}"));
    for listing in ["0", "1", "2", "3"] {
        let told = refused(&tree.run(&["check", "plan", listing]), 1);
        let says = "plan ('plan'), line 12: (edge (from 2) (to 3) (bytes 1) (when always))
  the line feed at the end of the last line is missing
";
        assert_eq!(told, says);
    }
}

/// A plan file with an empty line is refused, also where what stands above it is a plan.
#[test]
fn a_plan_with_an_empty_line_is_1() {
    let tree = Tree::new("check empty line");
    let told_at = |plan: &str, line: &str| {
        tree.write("plan", plan);
        for listing in ["", S_LISTING, &S_LISTING[1..]] {
            tree.write("listing", listing);
            let told = refused(&tree.run(&["check", "plan", "listing"]), 1);
            let says = format!("plan ('plan'), line {line}");
            assert!(told.starts_with(&says), "{told}");
        }
    };
    let empty = |line| format!("{line}:\n  the line is empty\n");
    told_at(&format!("{S}\n"), &empty(13));
    told_at(&format!("{S}\n{S_LISTING}"), &empty(13));
    // without the line feed that the join would add
    told_at(&whole()[..whole().len() - 1], &empty(13));
    told_at(&format!("{S}\n\n"), &empty(13));
    told_at(&format!("\n{S}"), &empty(1));
    told_at("\n", &empty(1));
    told_at("\n\n", &empty(1));
    told_at("", "1:\n  the text is empty");
    told_at(&format!("{S}\n{}", "(edge)\n".repeat(3_000)), &empty(13));
}

/// Texts that are too long are copied as far as it takes to refuse them.
#[test]
fn texts_that_are_too_long() {
    let tree = Tree::new("check long");
    let edges = "(edge (from 2) (to 3) (bytes 1) (when always))\n".repeat(400);
    let long_plan = format!("{S}{edges}");
    let is_351 = |told: String, begins: &str| {
        assert!(told.starts_with(begins), "{told}");
        let says = "\n  column 26 is byte 16385 of the text, and a text has at most 16384\n";
        assert!(told.ends_with(says), "{told}");
    };
    tree.write("plan", &long_plan);
    let ended = tree.run(&["check", "plan", "examples/s.listing"]);
    is_351(refused(&ended, 1), "plan ('plan'), line 351: (edge ");
    let text = format!("{long_plan}\n{S_LISTING}");
    let ended = tree.fed(tree.call(&["check"]), text.as_bytes());
    is_351(refused(&ended, 1), "plan line 351: (edge ");

    let start = "(start 0 (when) (at 0))\n";
    let totals = "(delay 34)\n(passed (node 0) 0)\n(passed (node 1) 0)\n";
    let long_listing = format!("{totals}{}", start.repeat(40_000));
    let behind = " (start 0 (when) (at 0))
  a listing has at most 3000 entries: start, send and tell lines
";
    tree.write("listing", &long_listing);
    let ended = tree.run(&["check", "examples/s.plan", "listing"]);
    let says = format!("listing ('listing'), line 3004:{behind}");
    assert_eq!(refused(&ended, 21), says);
    let text = format!("{S}\n{long_listing}");
    let says = format!("listing line 3004 (line 3017 of the whole text):{behind}");
    let ended = tree.fed(tree.call(&["check"]), text.as_bytes());
    assert_eq!(refused(&ended, 21), says);
    tree.write("whole", &text);
    assert_eq!(refused(&tree.run(&["check", "whole"]), 21), says);
}

/// The longest listing of the form is copied whole: its places are refused, and not its form.
#[test]
fn the_longest_listing() {
    let tree = Tree::new("check longest");
    let slots: Vec<(u64, u64)> = (0..8).map(|node| (node, 1)).collect();
    let mut lines = bus(1, &slots);
    for process in 0..64 {
        lines = lines.all(process % 8, 1);
    }
    for condition in 0..6 {
        lines = lines.decides(condition);
    }
    for edge in 0..128 {
        lines = lines.edge(edge / 4, edge / 4 + 1 + edge % 4, 1, When::Always);
    }
    let plan = print(&lines);
    let when: String = (0..6).map(|c| format!(" (false {c})")).collect();
    let most = 999_999_999;
    let entry = format!("(send 127 (when{when}) (at {most}) (place {most}))\n");
    let frame = format!("(frame {most} (node {most}) (bytes {most}))\n");
    let passed: String = (0..8)
        .map(|node| format!("(passed (node {node}) {most})\n"))
        .collect();
    let listing = format!(
        "(delay {most})\n{passed}{}{}",
        entry.repeat(3_000),
        frame.repeat(2_000)
    );
    assert_eq!(listing.len(), 439_242);
    std::fs::write(tree.root.join("plan"), &plan).expect("a file");
    for (listing, number) in [(listing.clone(), 13), (listing + &frame, 21)] {
        let ended = tree.fed(tree.call(&["check", "plan", "-"]), listing.as_bytes());
        refused(&ended, number);
        let whole = [&plan[..], b"\n", listing.as_bytes()].concat();
        refused(&tree.fed(tree.call(&["check"]), &whole), number);
    }
}

// ---- wrong use, reading and writing

#[test]
fn wrong_words_have_status_2() {
    let tree = Tree::new("check words");
    let (plan, listing) = ("examples/s.plan", "examples/s.listing");
    for (words, says) in [
        (
            &["check", plan, listing, "c"][..],
            "'c' is one word too many",
        ),
        (
            &["check", "-", "-"],
            "only one of PLAN and LISTING may be -",
        ),
        (&["check", "-x"], "there is no option '-x'"),
        (&["check", "--long", plan], "there is no option '--long'"),
        (&["check", "-c", "1", plan], "there is no option '-c'"),
        (&["check", "nothing"], "there is no file 'nothing'"),
        (&["check", ""], "there is no file ''"),
        (&["check", "", ""], "there is no file ''"),
        (&["check", "nothing", listing], "there is no file 'nothing'"),
        (&["check", plan, "nothing"], "there is no file 'nothing'"),
        (&["check", plan, ""], "there is no file ''"),
        (&["check", "examples"], "'examples' is a folder"),
        (&["check", "examples", listing], "'examples' is a folder"),
        (&["check", plan, "examples"], "'examples' is a folder"),
    ] {
        tree.run(words).failed(says);
    }
    let help = tree.run(&["check", "--help"]);
    help.done(&tree.run(&["help", "check"]).printed);
    let text = String::from_utf8(help.printed).expect("text");
    assert!(text.starts_with("usage: ./riscadru check [FILE | PLAN LISTING]\n"));
}

#[test]
fn what_cannot_be_read_has_status_2() {
    let tree = Tree::new("check reading");
    let says = "standard input could not be read";
    for words in [
        &["check"][..],
        &["check", "-"],
        &["check", "-", "examples/s.listing"],
        &["check", "examples/s.plan", "-"],
    ] {
        tree.reading(tree.call(words), &tree.root).failed(says);
    }
    tree.fed(tree.shell("./riscadru check <&-"), b"")
        .failed(says);
    // the program itself cannot read, and prints nothing
    let words = ["check", "examples/s.plan", "examples/s.listing"];
    tree.program(
        "target/bin/riscadru_check",
        "echo 'it could not be read' >&2",
    );
    let ended = tree.run(&words);
    assert_eq!((ended.status, &ended.printed[..]), (2, &b""[..]));
    let says = "'examples/s.plan' and 'examples/s.listing' could not be read\n";
    assert!(ended.said.ends_with(says), "{ended:?}");
    tree.program("target/bin/riscadru_check", "exit 3");
    tree.run(&words).failed("failed");
}

#[test]
#[cfg_attr(not(have_full), ignore)]
fn what_cannot_be_written_has_status_2() {
    let tree = Tree::new("check writing");
    tree.write("early", &early());
    for listing in ["examples/s.listing", "early"] {
        for to in [">/dev/full", ">&-"] {
            let call = format!("./riscadru check examples/s.plan {listing} {to}");
            tree.fed(tree.shell(&call), b"")
                .failed("standard output could not be written");
        }
    }
}

/// The scripts are called with the number and the texts; where they are missing the sentence is said all
/// the same.
#[test]
fn a_refused_listing_is_looked_at() {
    let tree = Tree::new("check where");
    let looks =
        "BEGIN { print \"where \" refused \" \" above \" \" ENVIRON[\"RISCADRU_LISTING\"] ARGC }\n";
    tree.write("where/listing.awk", looks);
    tree.write("early", &early());
    let ended = tree.run(&["check", "examples/s.plan", "early"]);
    assert_eq!(refused(&ended, 16), "where 16 0 listing ('early'), 3\n");
    let text = format!("{S}\n{}", early());
    let ended = tree.fed(tree.call(&["check"]), text.as_bytes());
    assert_eq!(refused(&ended, 16), "where 16 13 listing 3\n");
    std::fs::remove_file(tree.root.join("where/listing.awk")).expect("a script");
    let ended = tree.run(&["check", "examples/s.plan", "early"]);
    assert_eq!(refused(&ended, 16), "");
}

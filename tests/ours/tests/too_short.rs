//! Whose slots are too short, document 02, point 3: on a terminal `./riscadru plan` says so on standard
//! error, node by node, and elsewhere it says nothing. Without the programs and the archive there are no
//! tests here; the gate builds them first.
#![cfg(all(have_program, have_check_program, have_archive))]

use ours::tree::Tree;
use reference::{print, Lines};
use suite::passed_lines::{three_counts, three_slots_turned, two_slots_turned};
use suite::{listed, S, S_LISTING};

/// Plans with their counts, node 0 first.
fn plans() -> [(Lines, &'static [u32]); 3] {
    [
        (two_slots_turned(), &[2, 1]),
        (three_slots_turned(), &[0, 0, 3]),
        (three_counts(), &[1, 2, 3]),
    ]
}

/// What is said of these counts.
fn wanted(counts: &[u32]) -> String {
    let too_short = counts.iter().enumerate().filter(|(_, &count)| count != 0);
    let says = |(node, count)| {
        format!(
            "riscadru: the slot of node {node} is too short: over all combinations {count} of them \
             left a ready item waiting\n"
        )
    };
    too_short.map(says).collect()
}

/// What `./riscadru plan` says on a terminal of a plan text; its listing goes to a file, and must be
/// the one given.
fn said_on_a_terminal(tree: &Tree, text: &[u8], listing: &str) -> String {
    std::fs::write(tree.root.join("a.plan"), text).expect("a file");
    let call = tree.shell("script -qec './riscadru plan a.plan >a.listing' /dev/null </dev/null");
    let ended = tree.fed(call, b"");
    assert_eq!(ended.status, 0, "{ended:?}");
    let printed = tree.read("a.listing").expect("a listing");
    assert_eq!(String::from_utf8(printed).expect("text"), listing);
    let shown = String::from_utf8(ended.printed).expect("text");
    shown.replace('\r', "")
}

#[test]
#[cfg_attr(not(have_terminal), ignore)]
fn each_node_whose_count_is_not_0_is_named() {
    let tree = Tree::new("too short");
    for (lines, counts) in plans() {
        let said = said_on_a_terminal(&tree, &print(&lines), &listed(&lines));
        assert_eq!(said, wanted(counts));
    }
    assert_eq!(said_on_a_terminal(&tree, S.as_bytes(), S_LISTING), "");
}

#[test]
fn elsewhere_nothing_is_said() {
    let tree = Tree::new("no terminal");
    for (lines, _) in plans() {
        let ended = tree.fed(tree.call(&["plan"]), &print(&lines));
        assert_eq!(ended.said, "");
        ended.done(listed(&lines).as_bytes());
    }
}

//! Where a refused listing fails: the words of `where/listing.awk`, case by case.

use reference::Lines;
use suite::listings::s_listing_with;
use suite::telling::WIDEST;
use suite::telling_listings::{self, expected};
use suite::{bus, s, With, S_LISTING};

/// Panics unless exactly this is said of a listing of a plan, refused with this number.
fn says_of(lines: &Lines, listing: &str, number: u8, expected: &str) {
    telling_listings::says_of(
        env!("CARGO_TARGET_TMPDIR"),
        lines,
        listing,
        number,
        expected,
    );
}

/// Panics unless exactly this is said of S's listing with a part replaced, refused with this number.
fn says(number: u8, (old, new): (&str, &str), expected: &str) {
    says_of(&s(), &s_listing_with(&[(old, new)]), number, expected);
}

#[test]
fn lines_out_of_order() {
    let (tell, frame) = (
        "(tell 0 (when) (at 8) (place 0))\n",
        "(frame 8 (node 0) (bytes 1))\n",
    );
    let (both, exchanged) = (format!("{tell}{frame}"), format!("{frame}{tell}"));
    says(
        21,
        (&both, &exchanged),
        &format!(
            "line 12: {tell}  a tell line cannot stand below a frame line\n{}",
            expected("(frame N (node N) (bytes N))")
        ),
    );
    says(
        21,
        ("(start 2 ", "(start 0 (when) (at 0))\n(start 2 "),
        "\
line 6: (start 0 (when) (at 0))
  a line of process 0 cannot stand below one of process 1
",
    );
    says_of(
        &s(),
        &format!("{S_LISTING}\n"),
        21,
        &format!(
            "\
line 15:
  the line is empty
  an empty line stands between the plan and the listing only
{}",
            expected("(frame N (node N) (bytes N))")
        ),
    );
    says(
        21,
        ("(tell 0", "(x\n(tell 0"),
        "\
line 11: (x
  no line that may stand here begins so
  expected a line of one of these forms, N a number of one to nine digits without a needless leading zero
    (send N (when) (at N) (place N)), or with conditions: (when (true N) (false N) ..)
    (tell N (when) (at N) (place N)), or with conditions: (when (true N) (false N) ..)
    (frame N (node N) (bytes N))
",
    );
}

/// The form of a start line in words.
const START: &str = "  the form of the line: (start N (when) (at N)), or with conditions: \
                     (when (true N) (false N) ..)\n";

#[test]
fn lines_that_differ_inside() {
    let inside = |change: (&str, &str), line: &str| {
        says(21, change, &format!("{line}\n{START}"));
    };
    inside(
        ("(start 1 (when (true", "(start 1 (when(true"),
        "\
line 5: (start 1 (when(true 0)) (at 20))
  from column 15 on, expected \")\", or (true N) or (false N) behind a blank",
    );
    inside(
        ("(start 0 (when)", "(start 0 (when )"),
        "line 4: (start 0 (when ) (at 0))\n  from column 16 on, expected \"(\"",
    );
    inside(
        ("(start 1 (when (true", "(start 1 (when (True"),
        "\
line 5: (start 1 (when (True 0)) (at 20))
  from column 17 on, expected \"true\" or \"false\"",
    );
    inside(
        ("(at 0))", "(at 0) (place 0))"),
        "line 4: (start 0 (when) (at 0) (place 0))\n  from column 23 on, expected \")\"",
    );
    inside(
        ("(at 12))", "(at 12))\r"),
        "\
line 6: (start 2 (when (false 0)) (at 12))\\x0d
  from column 35 on, expected the end of the line; a carriage return (\\x0d) stands there, and must not",
    );
    let when = "(true 0) ".repeat(12);
    inside(
        ("(start 1 (when (", &format!("(start 1 (when {when}(")),
        &format!(
            "line 5: (start 1 (when {} .. (cut here)\n  the line is longer than any of its form",
            &when[..WIDEST - "(start 1 (when ".len()]
        ),
    );
    says(
        21,
        ("(at 16) (place 0)", "(at 16)"),
        "\
line 9: (send 0 (when (true 0)) (at 16))
  from column 32 on, expected a blank
  the form of the line: (send N (when) (at N) (place N)), or with conditions: (when (true N) (false N) ..)
",
    );
    says(
        21,
        ("(delay 34)", "(delay 1000000000)"),
        "\
line 1: (delay 1000000000)
  from column 8 on, expected a number of one to nine digits without a needless leading zero
  the form of the line: (delay N)
",
    );
}

#[test]
fn numbers_that_the_plan_lacks() {
    says(
        21,
        ("(start 1 ", "(start 4 "),
        "\
line 5: (start 4 (when (true 0)) (at 20))
  there is no process 4: the number of process lines in the plan is 4, and they are numbered from 0
",
    );
    says(
        21,
        ("(send 2 ", "(send 4 "),
        "\
line 10: (send 4 (when (true 0)) (at 28) (place 0))
  there is no edge 4: the number of edge lines in the plan is 4, and they are numbered from 0
",
    );
    for change in [
        ("(tell 0 (when)", "(tell 1 (when)"),
        ("(tell 0 (when)", "(tell 0 (when (true 1))"),
    ] {
        let line = format!("line 11: {} (at 8) (place 0))", change.1);
        let says = "there is no condition 1: the number of condition lines in the plan is 1";
        self::says(
            21,
            change,
            &format!("{line}\n  {says}, and they are numbered from 0\n"),
        );
    }
    says(
        21,
        (
            "(start 1 (when (true 0))",
            "(start 1 (when (true 0) (true 0))",
        ),
        "\
line 5: (start 1 (when (true 0) (true 0)) (at 20))
  condition 0 stands behind condition 0, and they must ascend
",
    );
}

#[test]
fn entries_alone() {
    says(
        13,
        ("(send 0 ", "(send 1 "),
        "\
line 9: (send 1 (when (true 0)) (at 16) (place 0))
  edge 1 is local: processes 0 and 2 are both on node 0, and nothing is sent
",
    );
    says(
        13,
        ("(at 8) (place 0)", "(at 8) (place 64)"),
        "\
line 11: (tell 0 (when) (at 8) (place 64))
  place is 64, and must be from 0 to 63
",
    );
}

#[test]
fn rows_of_a_combination() {
    let start = "(start 0 (when) (at 0))\n";
    says(
        14,
        (start, ""),
        "\
no entry of process 0 is met in combination 0, (false 0)
  process 0 is active there, and needs exactly one entry whose column is met
",
    );
    says(
        14,
        ("(send 2 (when (true 0)) (at 28) (place 0))\n", ""),
        "\
no entry of edge 2 is met in combination 1, (true 0)
  edge 2 carries there, and needs exactly one entry whose column is met
",
    );
    says(
        14,
        ("(tell 0 (when) (at 8) (place 0))\n", ""),
        "\
no entry of condition 0 is met in combination 0, (false 0)
  process 0, which decides condition 0, is active there, and needs exactly one entry whose column is met
",
    );
    says(
        14,
        (start, &start.repeat(2)),
        "\
line 5: (start 0 (when) (at 0))
  in combination 0, (false 0), this is the second entry of process 0 whose column is met, and there must be exactly one:
  line 4: (start 0 (when) (at 0))
",
    );
    says(
        14,
        ("(start 1 (when (true 0))", "(start 1 (when)"),
        "\
line 5: (start 1 (when) (at 20))
  in combination 0, (false 0), this column is met
  process 1 is not active there, and must have no entry whose column is met
",
    );
    says(
        14,
        ("(send 0 (when (true 0))", "(send 0 (when)"),
        "\
line 9: (send 0 (when) (at 16) (place 0))
  in combination 0, (false 0), this column is met
  edge 0 does not carry there, and must have no entry whose column is met
",
    );
}

#[test]
fn ticks_of_a_combination() {
    says(
        15,
        ("(at 12)", "(at 11)"),
        "\
line 6: (start 2 (when (false 0)) (at 11))
  in combination 0, (false 0), condition 0 is known from tick 12 on, and this is at tick 11
",
    );
    says(
        16,
        ("(at 32)", "(at 31)"),
        "\
line 8: (start 3 (when (true 0)) (at 31))
  in combination 1, (true 0), edge 2 from process 1 delivers at tick 32, and this starts at tick 31
",
    );
    says(
        16,
        ("(at 8)", "(at 0)"),
        "\
line 11: (tell 0 (when) (at 0) (place 0))
  in combination 0, (false 0), the sender, process 0, ends at tick 4, and this is sent at tick 0
",
    );
    says(
        17,
        ("(at 28)", "(at 27)"),
        "\
line 10: (send 2 (when (true 0)) (at 27) (place 0))
  in combination 1, (true 0), the slot of node 1 begins at ticks 20 and 28, and not at 27
",
    );
    says(
        20,
        ("(delay 34)", "(delay 33)"),
        "\
line 1: (delay 33)
  the greatest delay is 34: in combination 1, (true 0), process 3 ends at tick 34
",
    );
}

#[test]
fn lines_that_collide() {
    let two = bus(1, &[(0, 1)]).all(0, 1).all(0, 5);
    says_of(
        &two,
        "(delay 5)\n(passed (node 0) 0)\n(start 0 (when) (at 0))\n(start 1 (when) (at 0))\n",
        18,
        "\
line 4: (start 1 (when) (at 0))
  in combination 0, process 1 runs on node 0 from tick 0 to 5, and process 0 from 0 to 1:
  line 3: (start 0 (when) (at 0))
",
    );
    says(
        19,
        ("(at 28) (place 0)", "(at 28) (place 1)"),
        "\
line 10: (send 2 (when (true 0)) (at 28) (place 1))
  in combination 1, (true 0), the item has places 1 to 2, and the last place of node 1's slot is 1
",
    );
    // the slot of node 1 begins at tick 4, after the only process of node 1 has ended
    let sends = bus(1, &[(0, 4), (1, 4)]).all(1, 1).all(0, 1).all(0, 1);
    let always = reference::When::Always;
    let sends = sends.edge(0, 1, 3, always).edge(0, 2, 1, always);
    says_of(
        &sends,
        "\
(delay 10)
(passed (node 0) 0)
(passed (node 1) 0)
(start 0 (when) (at 0))
(start 1 (when) (at 8))
(start 2 (when) (at 9))
(send 0 (when) (at 4) (place 0))
(send 1 (when) (at 4) (place 2))
(frame 4 (node 1) (bytes 3))
",
        19,
        "\
line 8: (send 1 (when) (at 4) (place 2))
  in combination 0, the item has places 2 to 2, and another of this frame has places 0 to 2:
  line 7: (send 0 (when) (at 4) (place 0))
",
    );
}

/// A slot that has not begun yet, and a value that is never known.
#[test]
fn what_comes_late_or_never() {
    let always = reference::When::Always;
    let sends = bus(1, &[(0, 4), (1, 4)]).all(1, 1).all(0, 1);
    says_of(
        &sends.edge(0, 1, 3, always),
        "(delay 8)\n(passed (node 0) 0)\n(passed (node 1) 0)\n(start 0 (when) (at 0))\n(start 1 (when) (at 7))\n\
         (send 0 (when) (at 3) (place 0))\n(frame 3 (node 1) (bytes 3))\n",
        17,
        "\
line 6: (send 0 (when) (at 3) (place 0))
  in combination 0, the slot of node 1 first begins at tick 4, and not at 3
",
    );
    // condition 1 is decided only if condition 0 is true; process 2 is always active
    let nested = bus(1, &[(0, 2)]).all(0, 1).all(0, 1).all(0, 1);
    let nested = nested.decides(0).decides(1);
    says_of(
        &nested.edge(0, 1, 1, reference::When::True(0)),
        "\
(delay 20)
(passed (node 0) 0)
(start 0 (when) (at 0))
(start 1 (when (true 0)) (at 4))
(start 2 (when (false 1)) (at 19))
(start 2 (when (true 1)) (at 19))
(tell 0 (when) (at 2) (place 0))
(tell 1 (when (true 0)) (at 6) (place 0))
(frame 2 (node 0) (bytes 1))
(frame 6 (node 0) (bytes 1))
",
        15,
        "\
line 5: (start 2 (when (false 1)) (at 19))
  in combination 0, (false 0) (false 1), condition 1 is never known: process 1, which decides it, is not active
",
    );
}

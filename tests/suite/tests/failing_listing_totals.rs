//! Where a refused listing fails: the words of `where/listing.awk` on lines that are missing, on the passed
//! lines, and on the frame lines.

use reference::Lines;
use suite::listings::s_listing_with;
use suite::telling_listings::{self, expected};
use suite::{bus, s, With, S_LISTING};

/// Panics unless exactly this is said of a listing of a plan, refused with this number.
fn says_of(lines: &Lines, listing: &str, number: u8, expected: &str) {
    telling_listings::says_of(
        env!("CARGO_TARGET_TMPDIR"),
        lines,
        listing,
        number,
        expected,
    );
}

/// Panics unless exactly this is said of S's listing with a part replaced, refused with this number.
fn says(number: u8, (old, new): (&str, &str), expected: &str) {
    says_of(&s(), &s_listing_with(&[(old, new)]), number, expected);
}

#[test]
fn lines_that_are_missing() {
    let missing = |listing: &str, line: &str, form: &str| {
        let says = format!("{line}\n{}", expected(form));
        says_of(&s(), listing, 21, &says);
    };
    missing("", "line 1:\n  the listing is empty", "(delay N)");
    missing(
        "(delay 34)\n",
        "line 2:\n  the listing ends, and the passed line of node 0 is missing",
        "(passed (node N) N)",
    );
    missing(
        "(delay 34)\n(passed (node 0) 0)\n",
        "line 3:\n  the listing ends, and the passed line of node 1 is missing",
        "(passed (node N) N)",
    );
    missing(
        "(passed (node 0) 0)\n",
        "line 1: (passed (node 0) 0)\n  the delay line must stand first",
        "(delay N)",
    );
    missing(
        &s_listing_with(&[("(passed (node 0) 0)\n(passed (node 1) 0)\n", "")]),
        "line 2: (start 0 (when) (at 0))\n  the passed line of node 0 must stand here",
        "(passed (node N) N)",
    );
    missing(
        &s_listing_with(&[("(passed (node 1) 0)\n", "")]),
        "line 3: (start 0 (when) (at 0))\n  the passed line of node 1 must stand here",
        "(passed (node N) N)",
    );
    missing(
        "(delay 34)\n(p",
        "line 2: (p\n  the listing ends within this line",
        "(passed (node N) N)",
    );
    says_of(
        &s(),
        &S_LISTING[..S_LISTING.len() - 1],
        21,
        "\
line 14: (frame 28 (node 1) (bytes 2))
  the line feed at the end of the last line is missing
",
    );
}

#[test]
fn passed_lines() {
    let passed = |(old, new): (&str, &str), line: &str| says(21, (old, new), line);
    let (first, second) = ("(passed (node 0) 0)\n", "(passed (node 1) 0)\n");
    let both = format!("{first}{second}");
    passed(
        (&both, "(passed 0)\n"),
        "\
line 2: (passed 0)
  from column 9 on, expected \"(\"
  the form of the line: (passed (node N) N)
",
    );
    passed(
        (&both, &format!("{second}{first}")),
        "\
line 2: (passed (node 1) 0)
  the passed line of node 0 must stand here
",
    );
    passed(
        (second, "(passed (node 2) 0)\n"),
        "\
line 3: (passed (node 2) 0)
  there is no node 2: the number of slot lines in the plan is 2, and the nodes are numbered from 0
",
    );
    passed(
        (second, "(passed (node 01) 0)\n"),
        "\
line 3: (passed (node 01) 0)
  from column 15 on, expected a number of one to nine digits without a needless leading zero
  the form of the line: (passed (node N) N)
",
    );
    for more in [second, "(passed (node 2) 0)\n", "(passed 0)\n"] {
        says(
            21,
            (second, &format!("{second}{more}")),
            &format!(
                "\
line 4: {more}  the passed lines of all nodes of the plan, as many as 2, stand above
  expected a line of one of these forms, N a number of one to nine digits without a needless leading zero
    (start N (when) (at N)), or with conditions: (when (true N) (false N) ..)
    (send N (when) (at N) (place N)), or with conditions: (when (true N) (false N) ..)
    (tell N (when) (at N) (place N)), or with conditions: (when (true N) (false N) ..)
    (frame N (node N) (bytes N))
"
            ),
        );
    }
}

#[test]
fn frames_and_the_passed_lines() {
    let last = "(frame 28 (node 1) (bytes 2))\n";
    says(
        22,
        ("(frame 8 (node 0) (bytes 1))\n", ""),
        "\
line 12: (frame 16 (node 0) (bytes 1))
  the frame that the entries give here is (frame 8 (node 0) (bytes 1))
",
    );
    says(
        22,
        (last, ""),
        "\
line 14:
  the listing ends, and the entries give another frame: (frame 28 (node 1) (bytes 2))
",
    );
    says(
        22,
        (last, &last.repeat(2)),
        "\
line 15: (frame 28 (node 1) (bytes 2))
  the entries give no frame behind that of tick 28
",
    );
    for (node, shown) in [(0, 1), (1, 0)] {
        says(
            22,
            (
                &format!("(passed (node {node}) 0)"),
                &format!("(passed (node {node}) 1)"),
            ),
            &format!(
                "\
line 2: (passed (node 0) {shown})
  the frame lines are those that the entries give, so that this count, or one in a passed line below, is not the plan's
  ./riscadru plan prints the counts of all nodes
"
            ),
        );
    }
    says_of(
        &bus(1, &[(0, 1)]).all(0, 7),
        "(delay 7)\n(passed (node 0) 0)\n(start 0 (when) (at 0))\n(frame 0 (node 0) (bytes 1))\n",
        22,
        "line 4: (frame 0 (node 0) (bytes 1))\n  the entries give no frame\n",
    );
}

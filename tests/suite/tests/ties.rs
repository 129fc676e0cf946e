//! What goes first among several that could go.

use suite::cases::{misfit_in_the_middle, three_messages, two_broadcasts};
use suite::{listed_from, With};

#[test]
fn messages_go_by_urgency_of_the_receiver_then_by_edge_number() {
    let sent = [
        "(send 0 (when) (at 4) (place 2))",
        "(send 1 (when) (at 4) (place 0))",
        "(send 2 (when) (at 4) (place 1))",
    ];
    assert_eq!(listed_from(&three_messages(), "(send"), sent);
}

#[test]
fn messages_go_by_edge_number_alone_with_pick_number() {
    let sent = [
        "(send 0 (when) (at 4) (place 0))",
        "(send 1 (when) (at 4) (place 1))",
        "(send 2 (when) (at 4) (place 2))",
    ];
    assert_eq!(listed_from(&three_messages().by_number(), "(send"), sent);
}

#[test]
fn processes_go_by_urgency_then_by_number() {
    let starts = [
        "(start 1 (when) (at 17))",
        "(start 2 (when) (at 7))",
        "(start 3 (when) (at 12))",
    ];
    assert_eq!(listed_from(&three_messages(), "(start")[1..], starts);
    let starts = [
        "(start 1 (when) (at 7))",
        "(start 2 (when) (at 8))",
        "(start 3 (when) (at 13))",
    ];
    assert_eq!(
        listed_from(&three_messages().by_number(), "(start")[1..],
        starts
    );
}

#[test]
fn broadcasts_go_before_messages_by_condition_number() {
    for lines in [two_broadcasts(), two_broadcasts().by_number()] {
        let told = [
            "(tell 0 (when) (at 4) (place 0))",
            "(tell 1 (when) (at 4) (place 1))",
        ];
        assert_eq!(listed_from(&lines, "(tell"), told);
        assert_eq!(
            listed_from(&lines, "(send"),
            ["(send 0 (when) (at 4) (place 2))"]
        );
    }
}

#[test]
fn an_item_that_fits_goes_before_a_more_urgent_one_that_does_not() {
    let sent = [
        "(send 0 (when) (at 3) (place 0))",
        "(send 1 (when) (at 6) (place 0))",
        "(send 2 (when) (at 3) (place 1))",
    ];
    assert_eq!(listed_from(&misfit_in_the_middle(), "(send"), sent);
}

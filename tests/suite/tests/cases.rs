//! Every case that document 01 prints, starred or not.

use reference::lookup::Answer;
use reference::table::{entries, words, Entry};
use reference::{check, plan, print, program, read, row_query, run};
use suite::cases::{self, packing, s_with_a_long_message, s_with_first_ticks};
use suite::{listed, listed_from, planned, s, With, S, S_LISTING};

/// What the checker says of S's table with one entry changed.
fn check_s(number: usize, change: fn(&mut Entry)) -> Option<u8> {
    let lines = s();
    let mut all = entries(&planned(&lines).words);
    change(&mut all[number]);
    check(&lines, &words(&all), 34)
}

const START_2: usize = 2;
const START_3_TRUE: usize = 4;
const SEND_2: usize = 6;

#[test]
fn s_gives_the_printed_listing() {
    assert_eq!(program(S.as_bytes()), S_LISTING.as_bytes());
}

#[test]
fn s_is_its_own_printed_form() {
    assert_eq!(print(&s()), S.as_bytes());
}

#[test]
fn s_words_are_those_of_the_listing() {
    #[rustfmt::skip]
    let expected = [
        0, 0, 0, 0, 0,
        1, 1, 1, 20, 0,
        2, 1, 0, 12, 0,
        3, 1, 0, 17, 0,
        3, 1, 1, 32, 0,
        4, 1, 1, 16, 0,
        6, 1, 1, 28, 0,
        8, 0, 0, 8, 0,
    ];
    assert_eq!(planned(&s()).words, expected);
    assert_eq!(planned(&s()).frames, [8, 0, 1, 16, 0, 1, 28, 1, 2]);
}

#[test]
fn s_with_process_0_at_8_ticks() {
    assert_eq!(planned(&s_with_first_ticks(8)).delay, 34);
}

#[test]
fn s_with_process_0_at_9_ticks() {
    let planned = planned(&s_with_first_ticks(9));
    assert_eq!(planned.delay, 42);
    assert_eq!(planned.delays, [27, 42]);
}

#[test]
fn s_third_edge_at_3_bytes() {
    let text = S.replace("(to 3) (bytes 2)", "(to 3) (bytes 3)");
    assert_eq!(print(&s_with_a_long_message()), text.as_bytes());
    assert_eq!(read(text.as_bytes()), Err(9));
    assert_eq!(program(text.as_bytes()), b"(refused 9)\n");
}

#[test]
fn s_table_is_accepted() {
    assert_eq!(check_s(0, |_| ()), None);
}

#[test]
fn s_start_2_at_11() {
    assert_eq!(check_s(START_2, |e| e.tick = 11), Some(15));
}

#[test]
fn s_start_3_true_at_31() {
    assert_eq!(check_s(START_3_TRUE, |e| e.tick = 31), Some(16));
}

#[test]
fn s_send_2_at_27() {
    assert_eq!(check_s(SEND_2, |e| e.tick = 27), Some(17));
}

#[test]
fn s_start_2_with_an_empty_column() {
    assert_eq!(check_s(START_2, |e| (e.known, e.values) = (0, 0)), Some(14));
}

#[test]
fn s_delay_33() {
    assert_eq!(check(&s(), &planned(&s()).words, 33), Some(20));
}

#[test]
fn s_words_lent() {
    assert_eq!(plan(&s(), 39, 9), Err(10));
    assert_eq!(plan(&s(), 40, 8), Err(11));
    assert!(plan(&s(), 40, 9).is_ok());
}

#[test]
fn s_with_no_words_at_all() {
    assert_eq!(check(&s(), &[], 34), Some(14));
}

#[test]
fn empty_text() {
    assert_eq!(read(b""), Err(1));
    assert_eq!(program(b""), b"(refused 1)\n");
}

#[test]
fn one_process_of_7_ticks_alone() {
    let planned = planned(&cases::alone());
    assert_eq!(planned.words, [0, 0, 0, 0, 0]);
    assert_eq!(planned.frames, []);
    assert_eq!(planned.delay, 7);
}

#[test]
fn packing_case() {
    let expected = [
        "(send 0 (when) (at 5) (place 0))",
        "(send 1 (when) (at 10) (place 0))",
        "(send 2 (when) (at 5) (place 3))",
    ];
    assert_eq!(listed_from(&packing(), "(send"), expected);
    assert_eq!(planned(&packing()).passed, 1);
    assert_eq!(planned(&packing()).passed_by_node, [1, 0]);
    assert_eq!(planned(&packing()).delay, 16);
}

#[test]
fn packing_case_with_place_2_for_the_third() {
    let mut all = entries(&planned(&packing()).words);
    let third = all.iter().position(|e| e.row == 6).unwrap();
    assert_eq!(all[third].place, 3);
    all[third].place = 2;
    assert_eq!(check(&packing(), &words(&all), 16), Some(19));
}

#[test]
fn processes_of_1_and_5_ticks_on_one_node() {
    let lines = cases::one_and_five_ticks();
    let starts = ["(start 0 (when) (at 5))", "(start 1 (when) (at 0))"];
    assert_eq!(listed_from(&lines, "(start"), starts);
    let starts = ["(start 0 (when) (at 0))", "(start 1 (when) (at 1))"];
    assert_eq!(listed_from(&lines.clone().by_number(), "(start"), starts);
    let both_at_0 = [0, 0, 0, 0, 0, 1, 0, 0, 0, 0];
    assert_eq!(check(&lines, &both_at_0, 5), Some(18));
}

#[test]
fn a_message_ready_as_the_slot_begins_is_sent_in_it() {
    assert_eq!(
        listed_from(&cases::ready_as_the_slot_begins(), "(send"),
        ["(send 0 (when) (at 4) (place 0))"]
    );
}

#[test]
fn a_column_lists_values_heard_only() {
    let first = &listed_from(&s(), "(start 0")[0];
    assert_eq!(first, "(start 0 (when) (at 0))");
    assert_eq!(
        listed_from(&s(), "(tell"),
        ["(tell 0 (when) (at 8) (place 0))"]
    );
}

#[test]
fn an_any_process_waits_while_another_input_may_come() {
    let starts = [
        "(start 2 (when (false 0)) (at 6))",
        "(start 2 (when (true 0)) (at 10))",
    ];
    assert_eq!(listed_from(&cases::any_waits(), "(start 2"), starts);
}

#[test]
fn a_row_is_handed_back_as_a_part_of_the_table() {
    let table = planned(&s()).words;
    assert_eq!(row_query(&table, 3), 15..25);
    assert_eq!(row_query(&table, 8), 35..40);
    assert_eq!(row_query(&table, 5), 0..0);
}

#[test]
fn a_lookup_that_only_says_none_does_not_keep_demand_3() {
    let lines = s();
    let table = planned(&lines).words;
    let times = [4, 3, 5, 2];
    let run = run(&lines, &table, 1, &times, &mut |_| Answer::None);
    assert!(!run.keeps_demand_three(34));
}

#[test]
fn refusals_are_printed_alone() {
    assert_eq!(reference::refused(11), b"(refused 11)\n");
    assert!(listed(&s()).starts_with("(delay 34)\n"));
}

//! Each reading of sections A to F that shows in an answer, and of section G those of the points
//! that are there. The names begin with its number.

use reference::lookup::{c_lookup, lookup, Answer, Question};
use reference::run::Run;
use reference::table::{entries, words};
use reference::{check, listing, plan, print, program, read, refuse_plan, row_query, run};
use reference::{Lines, When};
use suite::cases::{self, alone, inner_decision};
use suite::{bus, listed_from, planned, question, s, With, S};

/// S with a part of its text replaced.
fn s_with(old: &str, new: &str) -> Vec<u8> {
    assert!(S.contains(old));
    S.replacen(old, new, 1).into_bytes()
}

// A. Not settled by the text at all.

#[test]
fn a2_a_delay_of_ten_digits_is_accepted() {
    let table = [0, 0, 0, 999_999_999, 0];
    assert_eq!(check(&alone(), &table, 1_000_000_006), None);
    assert_eq!(check(&alone(), &table, 1_000_000_005), Some(20));
}

#[test]
fn a3_an_entry_of_a_row_that_the_plan_lacks_gives_no_line() {
    let table = [0, 0, 0, 0, 0, 1, 0, 0, 5, 0];
    let expected = b"(delay 7)\n(passed (node 0) 0)\n(start 0 (when) (at 0))\n";
    assert_eq!(listing(&alone(), 7, &[0], &table, &[]), expected);
}

#[test]
fn a4_one_number_tells_entry_none_and_refusal_apart() {
    let ask = |text: &[u8], tick| c_lookup(text, &[0; 20], question(0, tick, 0, 0, 0));
    assert_eq!(ask(S.as_bytes(), 0), 0);
    assert_eq!(ask(S.as_bytes(), 1), u64::MAX);
    assert_eq!(ask(b"", 0), u64::MAX - 1);
    assert_eq!(
        ask(&s_with("(to 3) (bytes 2)", "(to 3) (bytes 3)"), 0),
        u64::MAX - 9
    );
}

#[test]
fn a5_the_longest_lines_of_a_listing() {
    let mut lines = bus(1, &[(0, 64), (1, 64)]);
    for process in 0..64 {
        lines = lines.all(process % 2, 1);
    }
    for from in 0..6 {
        lines = lines.decides(from);
    }
    for number in 0..128 {
        let (from, to) = (number / 40, 1 + number / 40 + number % 40);
        lines = lines.edge(from, to, 1, When::Always);
    }
    assert_eq!(refuse_plan(&lines), None);
    let entry = [64 + 127, 63, 0, 999_999_999, 63];
    let listing = listing(&lines, 0, &[0, 0], &entry, &[999_999_999, 7, 64]);
    let listing = String::from_utf8(listing).unwrap();
    let lengths: Vec<usize> = listing.split_inclusive('\n').map(str::len).collect();
    assert_eq!(lengths[1..], [20, 20, 104, 38]);
}

// B. Plan text and refusals 1 to 9.

#[test]
fn b1_no_lines_of_a_kind_are_of_the_form() {
    assert_eq!(read(b"(plan (byte 2) (head 0) (pick urgency))\n"), Err(2));
}

#[test]
fn b2_more_lines_than_allowed_only_after_the_form() {
    let edge = "(edge (from 0) (to 1) (bytes 1) (when always))\n";
    let text = format!("{}{}", S, edge.repeat(200));
    assert_eq!(read(text.as_bytes()), Err(2));
    assert_eq!(read(format!("{text}x").as_bytes()), Err(1));
    let process = "(process (node 1) (ticks 3) (waits all))\n";
    assert_eq!(read(&s_with(process, &process.repeat(62))), Err(2));
    assert!(read(&s_with(process, &process.repeat(61))) != Err(2));
}

#[test]
fn b3_digits() {
    assert_eq!(read(&s_with("(byte 2)", "(byte 1000000000)")), Err(1));
    assert_eq!(read(&s_with("(byte 2)", "(byte 999999999)")), Err(3));
    assert_eq!(read(&s_with("(byte 2)", "(byte 00)")), Err(1));
    assert_eq!(read(&s_with("(byte 2)", "(byte 02)")), Err(1));
    assert_eq!(read(&s_with("(byte 2)", "(byte 0)")), Err(3));
    assert_eq!(read(&s_with("(byte 2)", "(byte )")), Err(1));
}

#[test]
fn b4_line_ends() {
    assert_eq!(read(&S.as_bytes()[..S.len() - 1]), Err(1));
    assert_eq!(read(S.replace('\n', "\r\n").as_bytes()), Err(1));
    assert_eq!(read(format!("\u{feff}{S}").as_bytes()), Err(1));
    assert_eq!(read(format!("{S}\0").as_bytes()), Err(1));
    assert_eq!(read(format!("{S}\n").as_bytes()), Err(1));
    assert_eq!(read(format!("\n{S}").as_bytes()), Err(1));
    assert_eq!(read(&s_with(" (pick", "\t(pick")), Err(1));
}

#[test]
fn b5_length() {
    let longest = generate::texts::of_length(&s(), 16_384);
    assert_eq!(read(&longest), Err(2));
    let longer = generate::texts::of_length(&s(), 16_385);
    assert_eq!(read(&longer), Err(1));
    assert_eq!(read(&vec![b'x'; 16_385]), Err(1));
}

#[test]
fn b6_each_sentence_over_the_whole_input() {
    let mut lines = s();
    lines.slots[0].node = 7;
    lines.edges[3].bytes = 0;
    assert_eq!(refuse_plan(&lines), Some(3));
    let mut lines = s();
    lines.edges[0].when = When::True(1);
    assert_eq!(refuse_plan(&lines), Some(8));
}

#[test]
fn b7_a_broken_edge_is_6_whatever_else_it_breaks() {
    let lines = s()
        .edge(9, 9, 64, When::True(5))
        .edge(9, 9, 64, When::True(5));
    assert_eq!(refuse_plan(&lines), Some(6));
}

#[test]
fn b8_a_long_local_edge_is_fine() {
    let lines = bus(1, &[(0, 1)])
        .all(0, 1)
        .all(0, 1)
        .edge(0, 1, 64, When::Always);
    assert_eq!(refuse_plan(&lines), None);
    assert_eq!(planned(&lines).delay, 2);
}

#[test]
fn b9_an_any_process_without_edges_into_it_stays_any() {
    let any = bus(1, &[(0, 1)]).any(0, 7);
    assert_eq!(planned(&any).words, [0, 0, 0, 0, 0]);
    assert_ne!(any, alone());
    assert_eq!(read(&print(&any)), Ok(any));
}

#[test]
fn b10_reading_tries_2_to_9() {
    let mut lines = s();
    lines.plan.byte = 0;
    assert_eq!(read(&print(&lines)), Err(3));
}

// C. Planning.

#[test]
fn c1_a_slot_counts_once_however_many_items_stay_behind() {
    let lines = cases::three_full_slots();
    assert_eq!(planned(&lines).passed, 2);
    assert_eq!(planned(&lines).passed_by_node, [2, 0]);
}

#[test]
fn c2_slots_after_the_last_end_count_too() {
    let lines = cases::broadcast_after_the_last_end();
    assert_eq!(planned(&lines).delay, 2);
    assert_eq!(planned(&lines).passed, 4);
    assert_eq!(planned(&lines).passed_by_node, [4, 0]);
}

#[test]
fn c3_an_item_is_ready_by_the_beginning_of_the_slot() {
    let lines = cases::ready_within_a_slot();
    assert_eq!(planned(&lines).passed, 0);
    let sent = [
        "(send 0 (when) (at 4) (place 0))",
        "(send 1 (when) (at 8) (place 0))",
    ];
    assert_eq!(listed_from(&lines, "(send"), sent);
    // One that does not carry is no item: nothing is left behind in the false combination.
    assert_eq!(planned(&s()).passed, 0);
}

#[test]
fn c4_a_message_to_a_receiver_that_will_not_run_is_sent() {
    let lines = cases::receiver_that_will_not_run();
    let sent = listed_from(&lines, "(send 1");
    assert_eq!(sent, ["(send 1 (when) (at 4) (place 1))"]);
    assert_eq!(listed_from(&lines, "(start 2").len(), 1);
    let without: Vec<_> = entries(&planned(&lines).words)
        .into_iter()
        .filter(|e| e.row != 4)
        .collect();
    assert_eq!(
        check(&lines, &words(&without), planned(&lines).delay),
        Some(14)
    );
}

#[test]
fn c5_ends_come_with_the_arrivals() {
    let lines = cases::end_as_the_slot_begins();
    assert_eq!(listed_from(&lines, "(start 1"), ["(start 1 (when) (at 8))"]);
    assert_eq!(
        listed_from(&lines, "(send"),
        ["(send 1 (when) (at 8) (place 0))"]
    );
}

#[test]
fn c6_urgency_counts_edges_that_do_not_carry() {
    let lines = cases::urgent_by_a_conditional_edge();
    assert_eq!(listed_from(&lines, "(start 0"), ["(start 0 (when) (at 0))"]);
    let starts = listed_from(&lines, "(start 1");
    assert_eq!(starts, ["(start 1 (when) (at 1))"]);
}

#[test]
fn c7_a_conditional_local_edge_waits_for_the_broadcast() {
    let starts = listed_from(&s(), "(start 2");
    assert_eq!(starts, ["(start 2 (when (false 0)) (at 12))"]);
}

#[test]
fn c8_an_any_process_needs_the_value_heard_equality_included() {
    let starts = &listed_from(&s(), "(start 3")[0];
    assert_eq!(starts, "(start 3 (when (false 0)) (at 17))");
    let lines = cases::any_starts_as_the_value_comes();
    let starts = [
        "(start 2 (when (false 0)) (at 4))",
        "(start 2 (when (true 0)) (at 4))",
    ];
    assert_eq!(listed_from(&lines, "(start 2"), starts);
}

#[test]
fn c9_known_inactive_goes_up_from_process_0() {
    let lines = cases::inactive_in_turn();
    let starts = [
        "(start 4 (when (false 0)) (at 2))",
        "(start 4 (when (true 0)) (at 4))",
    ];
    assert_eq!(listed_from(&lines, "(start 4"), starts);
}

#[test]
fn c10_a_condition_whose_decider_does_not_run_stands_in_no_column() {
    let lines = inner_decision();
    let starts = listed_from(&lines, "(start 2");
    assert_eq!(starts, ["(start 2 (when (false 0)) (at 6))"]);
    let delays = planned(&lines).delays;
    assert_eq!(delays[0b00], delays[0b10]);
}

#[test]
fn c10_pass_overs_count_for_both_values() {
    let lines = cases::pass_over_without_the_inner_decision();
    let sent = [
        "(send 1 (when (false 0)) (at 8) (place 0))",
        "(send 2 (when (false 0)) (at 12) (place 0))",
    ];
    assert_eq!(listed_from(&lines, "(send"), sent);
    assert_eq!(planned(&lines).passed, 2);
}

#[test]
fn c11_a_condition_that_no_when_names_is_broadcast() {
    let lines = cases::unused_condition();
    assert_eq!(
        listed_from(&lines, "(tell"),
        ["(tell 0 (when) (at 1) (place 0))"]
    );
    let starts = [
        "(start 2 (when (false 0)) (at 2))",
        "(start 2 (when (true 0)) (at 2))",
    ];
    assert_eq!(listed_from(&lines, "(start 2"), starts);
}

#[test]
fn c12_broadcasts_that_do_not_fit_are_passed_over() {
    let lines = cases::broadcasts_that_do_not_fit();
    let told = [
        "(tell 0 (when) (at 5) (place 0))",
        "(tell 1 (when (false 0)) (at 10) (place 0))",
        "(tell 1 (when (true 0)) (at 10) (place 0))",
    ];
    assert_eq!(listed_from(&lines, "(tell"), told);
    assert_eq!(listed_from(&lines, "(send").len(), 4);
    assert_eq!(planned(&lines).passed, 8);
    assert_eq!(planned(&lines).passed_by_node, [8, 0]);
}

#[test]
fn c13_a_column_has_the_values_that_arrive_at_its_tick() {
    let starts = listed_from(&s(), "(start 2");
    assert_eq!(starts, ["(start 2 (when (false 0)) (at 12))"]);
    let sent = listed_from(&inner_decision(), "(tell 1");
    assert_eq!(sent, ["(tell 1 (when (true 0)) (at 8) (place 0))"]);
}

#[test]
fn c14_false_stands_before_true() {
    let all = entries(&planned(&s()).words);
    assert_eq!((all[3].row, all[3].values), (3, 0));
    assert_eq!((all[4].row, all[4].values), (3, 1));
    // At one tick and with equal known bits as well.
    let lines = cases::false_and_true_at_one_tick();
    let all = entries(&planned(&lines).words);
    assert!(all.windows(2).all(|two| {
        let key = |e: &reference::Entry| (e.row, e.tick, e.known, e.values);
        key(&two[0]) < key(&two[1])
    }));
}

#[test]
fn c15_a_frame_has_the_greatest_bytes_of_any_combination() {
    let lines = cases::frame_of_two_lengths();
    let frames = [
        "(frame 4 (node 0) (bytes 1))",
        "(frame 8 (node 0) (bytes 3))",
    ];
    assert_eq!(listed_from(&lines, "(frame"), frames);
}

#[test]
fn c17_10_comes_before_11() {
    assert_eq!(plan(&s(), 39, 8), Err(10));
    assert_eq!(plan(&s(), 0, 0), Err(10));
}

// D. Row query and lookup.

/// The lookup with a table for a process of 7 ticks alone.
fn ask_alone(table: &[u32], asked: Question) -> Answer {
    lookup(&alone(), table, asked)
}

#[test]
fn d1_only_the_first_stretch_of_a_scattered_row() {
    let table = [3, 0, 0, 0, 0, 0, 0, 0, 0, 0, 3, 0, 0, 0, 0];
    assert_eq!(row_query(&table, 3), 0..5);
    assert_eq!(row_query(&table, 0), 5..10);
    assert_eq!(row_query(&table[5..], 3), 5..10);
    assert_eq!(row_query(&table[..13], 0), 5..10);
    assert_eq!(row_query(&table[..4], 3), 0..0);
}

#[test]
fn d2_an_empty_part_lies_at_the_front() {
    assert_eq!(row_query(&[1, 0, 0, 0, 0], 0), 0..0);
    assert_eq!(row_query(&[], 0), 0..0);
}

#[test]
fn d3_the_lookup_does_not_look_at_the_condition_count() {
    let table = [0, 512, 512, 0, 0];
    assert_eq!(
        ask_alone(&table, question(0, 0, 512, 512, 0)),
        Answer::Entry(0)
    );
    assert_eq!(ask_alone(&table, question(0, 0, 512, 0, 0)), Answer::None);
    assert_eq!(ask_alone(&table, question(0, 0, 0, 512, 0)), Answer::None);
}

#[test]
fn d4_values_outside_the_bits_are_ignored() {
    assert_eq!(
        ask_alone(&[0, 0, 7, 0, 0], question(0, 0, 0, 0, 0)),
        Answer::Entry(0)
    );
    assert_eq!(
        ask_alone(&[0, 0, 0, 0, 0], question(0, 0, 0, 7, 0)),
        Answer::Entry(0)
    );
    assert_eq!(
        ask_alone(&[0, 1, 7, 0, 0], question(0, 0, 1, 1, 0)),
        Answer::Entry(0)
    );
}

#[test]
fn d5_an_entry_of_a_local_edge_is_given_to_its_sender() {
    let lines = s();
    let table = [4 + 1, 0, 0, 3, 0];
    assert_eq!(
        lookup(&lines, &table, question(0, 3, 0, 0, 0)),
        Answer::Entry(0)
    );
    assert_eq!(
        lookup(&lines, &table, question(1, 3, 0, 0, 0)),
        Answer::None
    );
}

#[test]
fn d5_edges_and_broadcasts_count_to_their_sender() {
    let (lines, table) = (s(), planned(&s()).words);
    let ask = |node, tick| lookup(&lines, &table, question(node, tick, 1, 1, 0));
    assert_eq!(ask(0, 8), Answer::Entry(7));
    assert_eq!(ask(1, 8), Answer::None);
    assert_eq!(ask(1, 28), Answer::Entry(6));
    assert_eq!(ask(0, 16), Answer::Entry(5));
}

#[test]
fn d6_past_the_table_and_past_the_last_tick() {
    let table = [0, 0, 0, 1_000_000_000, 0];
    let ask = |tick, begin| ask_alone(&table, question(0, tick, 0, 0, begin));
    assert_eq!(ask(1_000_000_000, 0), Answer::Entry(0));
    assert_eq!(ask(1_000_000_000, 1), Answer::None);
    assert_eq!(ask(1_000_000_000, u64::MAX), Answer::None);
    assert_eq!(ask(1_000_000_000 + (1 << 32), 0), Answer::None);
}

#[test]
fn d7_an_unknown_node_gives_none_but_a_broken_plan_its_refusal() {
    let mut lines = s();
    let asked = question(2, 0, 0, 0, 0);
    assert_eq!(lookup(&lines, &[0; 5], asked), Answer::None);
    lines.plan.byte = 0;
    assert_eq!(lookup(&lines, &[0; 5], asked), Answer::Refused(3));
}

#[test]
fn d7_a_row_that_the_plan_lacks_belongs_to_no_node() {
    let table = [9, 0, 0, 0, 0, u32::MAX, 0, 0, 0, 0, 0, 0, 0, 0, 0];
    let ask = |node| lookup(&s(), &table, question(node, 0, 0, 0, 0));
    assert_eq!(ask(0), Answer::Entry(2));
    assert_eq!(ask(1), Answer::None);
}

#[test]
fn d8_up_to_19_stray_bytes_are_ignored() {
    for stray in 0..=20 {
        let bytes = vec![0; 20 + stray];
        let asked = question(0, 0, 0, 0, 1);
        let expected = if stray == 20 { 1 } else { u64::MAX };
        assert_eq!(c_lookup(S.as_bytes(), &bytes, asked), expected);
    }
    assert_eq!(ask_alone(&[0; 9], question(0, 0, 0, 0, 1)), Answer::None);
}

// E. Checker.

/// S's table with the tick of the first entry of a row changed.
fn s_with_tick(row: u32, old: u32, new: u32) -> Vec<u32> {
    let mut all = entries(&planned(&s()).words);
    let entry = all.iter_mut().find(|e| e.row == row && e.tick == old);
    entry.unwrap().tick = new;
    words(&all)
}

#[test]
fn e1_a_broadcast_sent_too_early_makes_its_value_known_in_15() {
    assert_eq!(check(&s(), &s_with_tick(8, 8, 0), 34), Some(16));
}

#[test]
fn e2_a_conditional_local_edge_delivers_to_an_any_process_as_the_value_is_known() {
    // The column of process 2 is empty: it starts at one tick whatever the value.
    let lines = bus(1, &[(0, 2)])
        .all(0, 1)
        .all(0, 1)
        .any(0, 1)
        .decides(0)
        .edge(0, 2, 1, When::True(0))
        .edge(1, 2, 1, When::Always);
    let table = |tick| {
        let starts = [0, 0, 0, 0, 0, 1, 0, 0, 1, 0, 2, 0, 0, tick, 0];
        [&starts[..], &[5, 0, 0, 2, 0]].concat()
    };
    assert_eq!(check(&lines, &table(3), 4), Some(16));
    assert_eq!(check(&lines, &table(4), 5), None);
}

#[test]
fn e3_a_column_may_not_name_a_condition_whose_decider_does_not_run() {
    let lines = inner_decision();
    let planned = planned(&lines);
    let mut all = entries(&planned.words);
    let start_2 = all.iter().position(|e| e.row == 2).unwrap();
    all[start_2].known = 0b11;
    let mut other = all[start_2];
    other.values = 0b10;
    all.push(other);
    assert_eq!(check(&lines, &words(&all), planned.delay), Some(15));
}

#[test]
fn e4_an_item_arrives_a_slot_after_its_own_tick() {
    assert_eq!(check(&s(), &s_with_tick(6, 28, 27), 34), Some(17));
    assert_eq!(check(&s(), &s_with_tick(6, 28, 29), 34), Some(16));
}

#[test]
fn e5_one_may_start_as_another_ends() {
    let lines = bus(1, &[(0, 1)]).all(0, 2).all(0, 3);
    let table = |tick| [0, 0, 0, 0, 0, 1, 0, 0, tick, 0];
    assert_eq!(check(&lines, &table(2), 5), None);
    assert_eq!(check(&lines, &table(1), 4), Some(18));
}

#[test]
fn e5_places_reach_to_the_last_byte_of_the_slot() {
    let lines = bus(1, &[(0, 4), (1, 1)])
        .all(0, 1)
        .all(1, 1)
        .edge(0, 1, 3, When::Always);
    let table = |place| [0, 0, 0, 0, 0, 1, 0, 0, 9, 0, 2, 0, 0, 5, place];
    assert_eq!(check(&lines, &table(0), 10), None);
    assert_eq!(check(&lines, &table(1), 10), None);
    assert_eq!(check(&lines, &table(2), 10), Some(19));
}

#[test]
fn e6_items_of_different_combinations_share_bytes() {
    let lines = bus(1, &[(0, 3), (1, 1)])
        .all(0, 1)
        .all(1, 1)
        .all(1, 1)
        .decides(0)
        .edge(0, 1, 2, When::True(0))
        .edge(0, 2, 3, When::False(0));
    let sent = [
        "(send 0 (when (true 0)) (at 8) (place 0))",
        "(send 1 (when (false 0)) (at 8) (place 0))",
    ];
    assert_eq!(listed_from(&lines, "(send"), sent);
    let planned = planned(&lines);
    assert_eq!(check(&lines, &planned.words, planned.delay), None);
}

#[test]
fn e7_any_order_but_nothing_twice() {
    let mut all = entries(&planned(&s()).words);
    all.reverse();
    assert_eq!(check(&s(), &words(&all), 34), None);
    all.push(all[0]);
    assert_eq!(check(&s(), &words(&all), 34), Some(14));
}

#[test]
fn e8_one_entry_serves_both_values_of_an_undecided_condition() {
    let lines = inner_decision();
    let planned = planned(&lines);
    let start_2 = entries(&planned.words).into_iter().filter(|e| e.row == 2);
    assert_eq!(
        start_2.map(|e| (e.known, e.values)).collect::<Vec<_>>(),
        [(1, 0)]
    );
    assert_eq!(check(&lines, &planned.words, planned.delay), None);
}

#[test]
fn e9_no_words_and_a_few() {
    assert_eq!(check(&alone(), &[], 7), Some(14));
    for count in 1..5 {
        assert_eq!(check(&alone(), &[0; 5][..count], 7), Some(12));
    }
}

// F. A run.

/// Runs a table with the lookup of document 01.
fn run_of<'a>(lines: &'a Lines, table: &[u32], combination: u32, times: &'a [u64]) -> Run<'a> {
    let mut answers = |asked| lookup(lines, table, asked);
    run(lines, table, combination, times, &mut answers)
}

#[test]
fn f1_both_starts_are_kept_and_the_first_end_counts() {
    let lines = bus(1, &[(0, 1)])
        .all(0, 2)
        .all(0, 1)
        .edge(0, 1, 1, When::Always);
    let table = [0, 0, 0, 0, 0, 0, 0, 0, 5, 0, 1, 0, 0, 2, 0];
    let run = run_of(&lines, &table, 0, &[2, 1]);
    let starts: Vec<_> = run
        .starts
        .iter()
        .map(|s| (s.process, s.tick, s.end))
        .collect();
    assert_eq!(starts, [(0, 0, 2), (1, 2, 3), (0, 5, 7)]);
    assert!(run.each_after_its_inputs());
    assert!(!run.each_due_starts_once());
}

#[test]
fn f2_an_item_at_the_tick_of_a_start_with_running_time_0_is_ready() {
    // The broadcast stands before the start in the table; the value is heard at 1.
    let lines = bus(1, &[(0, 1)])
        .all(0, 1)
        .all(0, 1)
        .decides(0)
        .edge(0, 1, 1, When::True(0));
    let table = [3, 0, 0, 0, 0, 0, 0, 0, 0, 0, 1, 1, 1, 1, 0];
    assert!(run_of(&lines, &table, 1, &[0, 1]).keeps_demand_three(2));
    let late = run_of(&lines, &table, 1, &[1, 1]);
    assert_eq!(late.starts.len(), 1);
}

#[test]
fn f3_alone_with_a_running_time_of_0() {
    let lines = bus(1, &[(0, 1)]).all(0, 4).all(0, 4);
    let at = |tick| [0, 0, 0, 1, 0, 1, 0, 0, tick, 0];
    assert!(run_of(&lines, &at(1), 0, &[4, 0]).each_alone());
    assert!(!run_of(&lines, &at(2), 0, &[4, 0]).each_alone());
    assert!(!run_of(&lines, &at(4), 0, &[4, 0]).each_alone());
    assert!(run_of(&lines, &at(5), 0, &[4, 0]).each_alone());
    assert!(!run_of(&lines, &at(4), 0, &[4, 1]).each_alone());
}

#[test]
fn f5_a_conditional_local_edge_delivers_as_the_value_is_heard() {
    let lines = bus(1, &[(0, 2)])
        .all(0, 2)
        .all(0, 1)
        .decides(0)
        .edge(0, 1, 1, When::True(0));
    // The column of process 1 is empty, so that it starts whether or not the value is heard.
    let at = |tick| [0, 0, 0, 0, 0, 1, 0, 0, tick, 0, 3, 0, 0, 2, 0];
    assert!(!run_of(&lines, &at(3), 1, &[0, 1]).each_after_its_inputs());
    assert!(run_of(&lines, &at(4), 1, &[0, 1]).each_after_its_inputs());
}

#[test]
fn f6_the_first_item_that_counts_decides() {
    let lines = bus(1, &[(0, 1), (1, 1)])
        .all(0, 2)
        .all(1, 1)
        .edge(0, 1, 1, When::Always);
    // Sent at 0, before the sender's end, and again at 2 and at 4.
    let start = |tick| {
        let sent = [2, 0, 0, 0, 0, 2, 0, 0, 2, 0, 2, 0, 0, 4, 0];
        [&[0, 0, 0, 0, 0, 1, 0, 0, tick, 0][..], &sent[..]].concat()
    };
    assert!(!run_of(&lines, &start(2), 0, &[2, 1]).each_after_its_inputs());
    assert!(run_of(&lines, &start(3), 0, &[2, 1]).each_after_its_inputs());
    assert_eq!(run_of(&lines, &start(3), 0, &[2, 1]).items.len(), 3);
}

#[test]
fn f6_a_conditional_message_sent_before_its_value_is_heard_counts_for_nothing() {
    let lines = bus(1, &[(0, 2), (1, 2)])
        .all(0, 1)
        .all(1, 1)
        .decides(0)
        .edge(0, 1, 1, When::True(0));
    // The value is heard at 2; the message stands at one tick with an empty column.
    let table = |sent, start| {
        let others = [0, 0, 0, 0, 0, 3, 0, 0, 0, 1];
        [&others[..], &[2, 0, 0, sent, 0, 1, 1, 1, start, 0]].concat()
    };
    assert!(!run_of(&lines, &table(0, 2), 1, &[0, 1]).each_after_its_inputs());
    assert!(run_of(&lines, &table(4, 6), 1, &[0, 1]).keeps_demand_three(7));
}

#[test]
fn f6_a_refusal_ends_the_asking_of_that_unit_for_the_tick() {
    let lines = bus(1, &[(0, 1), (1, 1)]).all(0, 1).all(1, 1);
    let table = [0, 0, 0, 0, 0, 1, 0, 0, 0, 0];
    let mut asked = Vec::new();
    let mut answers = |question: Question| {
        asked.push((question.node, question.begin));
        match question.node {
            0 => Answer::Refused(2),
            _ => lookup(&lines, &table, question),
        }
    };
    let starts = run(&lines, &table, 0, &[1, 1], &mut answers).starts;
    assert_eq!(starts.len(), 1);
    assert_eq!(asked, [(0, 0), (1, 0), (1, 2)]);
}

#[test]
fn f7_every_node_asks_in_any_bus_order() {
    let table = [0, 0, 0, 0, 0, 1, 0, 0, 0, 0];
    for slots in [[(0, 1), (1, 1)], [(1, 1), (0, 1)]] {
        let lines = bus(1, &slots).all(0, 1).all(1, 1);
        assert!(run_of(&lines, &table, 0, &[1, 0]).keeps_demand_three(1));
    }
}

#[test]
fn c17_the_program_refuses_more_than_3000_entries_with_10() {
    let lines = cases::too_many_entries();
    assert!(planned(&lines).words.len() > 15_000);
    assert!(program(&print(&lines)) == b"(refused 10)\n");
}

#[test]
fn c17_the_program_refuses_more_than_2000_frames_with_11() {
    let lines = cases::too_many_frames();
    assert!(planned(&lines).words.len() <= 15_000);
    assert!(planned(&lines).frames.len() > 6_000);
    assert!(program(&print(&lines)) == b"(refused 11)\n");
}

// G. Document 02.

#[test]
fn g1_refusal_9_counts_data_only() {
    let with_bytes = |bytes| {
        let mut lines = s().head(16);
        lines.edges[2].bytes = bytes;
        refuse_plan(&lines)
    };
    assert_eq!(with_bytes(2), None);
    for bytes in [3, 17, 18, 19, 64] {
        assert_eq!(with_bytes(bytes), Some(9), "{bytes}");
    }
    assert_eq!(
        refuse_plan(&cases::s_with_a_long_message().head(1)),
        Some(9)
    );
}

#[test]
fn g1_places_count_data_only() {
    for head in [0, 1, 3, 16] {
        let lines = bus(1, &[(0, 4), (1, 1)])
            .head(head)
            .all(0, 1)
            .all(1, 1)
            .edge(0, 1, 3, When::Always);
        // A round after tick 0, and a slot of node 0 after that.
        let sent = 5 + 2 * head;
        let start = sent + 4 + head;
        let table = |place| {
            let starts = [0, 0, 0, 0, 0, 1, 0, 0, start as u32, 0];
            [&starts[..], &[2, 0, 0, sent as u32, place]].concat()
        };
        assert_eq!(check(&lines, &table(0), start + 1), None);
        assert_eq!(check(&lines, &table(1), start + 1), None);
        for place in [2, 3, 4, 17, 18, 63] {
            assert_eq!(check(&lines, &table(place), start + 1), Some(19));
        }
    }
}

#[test]
fn g1_frame_bytes_count_data_only() {
    // The slots last 3 + 5 and 1 + 5 ticks.
    let lines = cases::frame_of_two_lengths().head(5);
    let frames = [
        "(frame 14 (node 0) (bytes 1))",
        "(frame 28 (node 0) (bytes 3))",
    ];
    assert_eq!(listed_from(&lines, "(frame"), frames);
}

#[test]
fn g1_pass_overs_count_data_only() {
    // The slots last 2 + 2 and 1 + 2 ticks; two messages would fill slot and head.
    let lines = cases::three_full_slots().head(2);
    let sent = [
        "(send 0 (when) (at 7) (place 0))",
        "(send 1 (when) (at 14) (place 0))",
        "(send 2 (when) (at 21) (place 0))",
    ];
    assert_eq!(listed_from(&lines, "(send"), sent);
    assert_eq!(planned(&lines).passed, 2);
    assert_eq!(planned(&lines).passed_by_node, [2, 0]);
}

//! Point 1 of document 02, frames have a head: its cases, and properties of plans with a head.

use reference::bus::{round_ticks, slot_of, slot_ticks};
use reference::lookup::{c_lookup, lookup, Answer};
use reference::run::Run;
use reference::table::{entries, frames, words};
use reference::{check, plan, print, program, read, refuse_plan, run, write, Lines, Planned};
use suite::cases::{packing, s_with_first_ticks};
use suite::heads::{
    s_with_head, s_with_plan_line, CHANGES_WITH_HEAD_1, PACKING_LISTINGS, S_LISTINGS,
    WRONG_PLAN_LINES,
};
use suite::{for_plans, full_times, planned, question, s, With, FEW, MANY, S};

// Text.

/// "S with head 0 prints the listing of document 01, and for other heads tables are compared with
/// the planning rules over the longer slots."
#[test]
fn s_by_head() {
    for (head, listing) in S_LISTINGS {
        let text = s_with_head(head);
        assert_eq!(read(text.as_bytes()), Ok(s().head(head)));
        assert_eq!(print(&s().head(head)), text.as_bytes());
        assert_eq!(program(text.as_bytes()), listing.as_bytes(), "head {head}");
    }
}

/// "0 to 16 bytes"; "Figures above 16 meet refusal 3."
#[test]
fn a_head_is_from_0_to_16() {
    for head in 0..=16 {
        assert_eq!(read(s_with_head(head).as_bytes()), Ok(s().head(head)));
    }
    for head in [17, 18, 32, 256, 272, 65_536, 999_999_999] {
        let text = s_with_head(head);
        assert_eq!(read(text.as_bytes()), Err(3), "head {head}");
        assert_eq!(program(text.as_bytes()), b"(refused 3)\n");
    }
    for head in [17, 4_294_967_296, u64::MAX] {
        let lines = s().head(head);
        assert_eq!(refuse_plan(&lines), Some(3), "head {head}");
        assert_eq!(plan(&lines, 0, 0), Err(3));
        assert_eq!(check(&lines, &[1], 0), Some(3));
        assert_eq!(write(&lines, 0), Err(3));
        let asked = question(9, 0, 0, 0, 0);
        assert_eq!(lookup(&lines, &[], asked), Answer::Refused(3));
    }
}

/// "Each sentence is tried over the whole input before the next."
#[test]
fn a_head_above_16_comes_behind_the_counts_and_before_the_nodes() {
    let mut lines = s().head(17);
    lines.slots[1].node = 0;
    lines.edges[2].bytes = 3;
    assert_eq!(refuse_plan(&lines), Some(3));
    lines.processes.clear();
    assert_eq!(refuse_plan(&lines), Some(2));
}

/// "A plan text without a part that this or a later point adds is no longer of the form".
#[test]
fn the_head_stands_between_byte_and_pick() {
    let line = S.lines().next().unwrap();
    assert_eq!(s_with_plan_line(line), S);
    for line in WRONG_PLAN_LINES {
        let text = s_with_plan_line(line);
        assert_eq!(read(text.as_bytes()), Err(1), "{line}");
        assert_eq!(program(text.as_bytes()), b"(refused 1)\n");
        let asked = question(0, 0, 0, 0, 0);
        assert_eq!(c_lookup(text.as_bytes(), &[], asked), u64::MAX - 1);
    }
    for slot in [
        "(slot (node 0) (bytes 2) (head 0))",
        "(slot (node 0) (head 0) (bytes 2))",
        "(slot (head 0) (node 0) (bytes 2))",
    ] {
        let text = S.replacen("(slot (node 0) (bytes 2))", slot, 1);
        assert_eq!(read(text.as_bytes()), Err(1), "{slot}");
    }
}

#[test]
fn every_plan_takes_every_head_up_to_16() {
    for_plans(71, &FEW, |lines, random| {
        for head in 0..=16 {
            let lines = lines.clone().head(head);
            assert_eq!(read(&print(&lines)), Ok(lines));
        }
        let lines = lines.clone().head(random.between(17, 999_999_999));
        assert_eq!(read(&print(&lines)), Err(3));
    });
}

// Planning.

/// As document 01 has it of S with process 0 at 8 and 9 ticks: what is ready as a slot begins is
/// sent in it, and a tick later waits for the next round. Node 0's slot begins at 12 and 24.
#[test]
fn s_with_head_1_and_process_0_at_12_and_13_ticks() {
    let planned_with = |ticks| planned(&s_with_first_ticks(ticks).head(1));
    assert_eq!(planned_with(12).delays, [25, 50]);
    assert_eq!(planned_with(13).delays, [37, 62]);
}

/// "Capacity and places still count data only."
#[test]
fn the_packing_case_by_head() {
    for (head, listing) in PACKING_LISTINGS {
        let lines = packing().head(head);
        assert_eq!(program(&print(&lines)), listing.as_bytes(), "head {head}");
    }
}

/// The plan whose slots have the head's bytes as data, and no head; nothing if one is too long.
fn with_longer_slots(lines: &Lines) -> Option<Lines> {
    let mut longer = lines.clone().head(0);
    for slot in &mut longer.slots {
        slot.bytes += lines.plan.head;
    }
    refuse_plan(&longer).is_none().then_some(longer)
}

/// Whether each frame of a planned table fits the data of its slot.
fn fits(lines: &Lines, planned: &Planned) -> bool {
    let bytes_of = |node: u32| lines.slots[slot_of(lines, node.into())].bytes;
    let mut all = frames(&planned.frames).into_iter();
    all.all(|frame| u64::from(frame.bytes) <= bytes_of(frame.node))
}

/// A head makes times longer as data would, and takes no data. With the head's bytes as data of
/// each slot, and no head, a plan has the same slot times by document 01 alone; if its frames then
/// fit without these bytes, both plans have one table. If they do not, a head that counted as data
/// shows.
#[test]
fn a_head_is_as_long_as_data_and_takes_none() {
    let (mut fit, mut do_not) = (0, 0);
    for_plans(72, &MANY, |lines, _| {
        let with_head = planned(lines);
        assert!(fits(lines, &with_head));
        let Some(longer) = with_longer_slots(lines).filter(|_| lines.plan.head > 0) else {
            return;
        };
        assert_eq!(round_ticks(&longer), round_ticks(lines));
        let with_data = planned(&longer);
        if fits(lines, &with_data) {
            assert_eq!(with_head, with_data);
            fit += u64::from(!with_data.frames.is_empty());
        } else {
            do_not += 1;
        }
    });
    assert!(fit > 300 && do_not > 300, "{fit} {do_not}");
}

/// "a round is the sum of its slots", each of which has the head once.
#[test]
fn each_slot_of_a_round_has_the_head_once() {
    for_plans(73, &FEW, |lines, random| {
        let head = random.between(1, 16);
        let (without, with) = (lines.clone().head(0), lines.clone().head(head));
        let more = head * lines.plan.byte;
        for slot in 0..lines.slots.len() {
            assert_eq!(slot_ticks(&with, slot), slot_ticks(&without, slot) + more);
        }
        let slots = lines.slots.len() as u64;
        assert_eq!(round_ticks(&with), round_ticks(&without) + slots * more);
    });
}

// Checking.

#[test]
fn the_changed_tables_of_s_with_head_1() {
    let lines = s().head(1);
    let table = planned(&lines);
    assert_eq!(check(&lines, &table.words, 50), None);
    assert_eq!(check(&lines, &table.words, 49), Some(20));
    for (number, (entry, change, refusal)) in CHANGES_WITH_HEAD_1.into_iter().enumerate() {
        let mut all = entries(&table.words);
        change(&mut all[entry]);
        let answer = check(&lines, &words(&all), 50);
        assert_eq!(answer.unwrap_or(0), refusal, "change {number}");
    }
}

/// The tables of S for one head with another. With a longer head a value comes too late: 15. With a
/// shorter one everything comes early enough, but items stand where no slot begins: 17; for head 16
/// and no head they stand at 72, 144 and 252, which are beginnings in both.
#[test]
fn a_table_for_another_head() {
    let answers = |of| {
        let table = planned(&s().head(of));
        [0, 1, 16].map(|head| check(&s().head(head), &table.words, table.delay))
    };
    assert_eq!(answers(0), [None, Some(15), Some(15)]);
    assert_eq!(answers(1), [Some(17), None, Some(15)]);
    assert_eq!(answers(16), [None, Some(17), None]);
}

// Lookup and run.

#[test]
fn questions_about_s_with_head_1() {
    let (lines, table) = (s().head(1), planned(&s().head(1)).words);
    let ask = |node, tick| lookup(&lines, &table, question(node, tick, 1, 1, 0));
    assert_eq!(ask(0, 12), Answer::Entry(7));
    assert_eq!(ask(0, 24), Answer::Entry(5));
    assert_eq!(ask(1, 30), Answer::Entry(1));
    assert_eq!(ask(1, 42), Answer::Entry(6));
    assert_eq!(ask(0, 48), Answer::Entry(4));
    assert_eq!(ask(0, 8), Answer::None);
}

/// A run of a table of S with head 1, with full ticks.
fn run_of<'a>(lines: &'a Lines, table: &[u32], combination: u32, times: &'a [u64]) -> Run<'a> {
    let mut answers = |asked| lookup(lines, table, asked);
    run(lines, table, combination, times, &mut answers)
}

#[test]
fn runs_of_s_with_head_1() {
    let lines = s().head(1);
    let (table, times) = (planned(&lines).words, full_times(&lines));
    let starts_and_items = |combination| {
        let run = run_of(&lines, &table, combination, &times);
        assert!(run.keeps_demand_three(50));
        let starts = run.starts.iter().map(|s| (s.process, s.tick, s.end));
        let items = run.items.iter().map(|i| i.tick);
        (starts.collect::<Vec<_>>(), items.collect::<Vec<_>>())
    };
    let when_false = vec![(0, 0, 4), (2, 18, 23), (3, 23, 25)];
    assert_eq!(starts_and_items(0), (when_false, vec![12]));
    let when_true = vec![(0, 0, 4), (1, 30, 33), (3, 48, 50)];
    assert_eq!(starts_and_items(1), (when_true, vec![12, 24, 42]));
}

/// An item arrives, and a value is heard, at the end of the slot with its head.
#[test]
fn runs_of_s_with_head_1_a_tick_too_early() {
    let lines = s().head(1);
    let times = full_times(&lines);
    let with_tick = |entry: usize, tick| {
        let mut all = entries(&planned(&lines).words);
        all[entry].tick = tick;
        words(&all)
    };
    let (start_2, start_3_true) = (2, 4);
    let unheard = with_tick(start_2, 17);
    let run = run_of(&lines, &unheard, 0, &times);
    assert!(run.starts.iter().all(|start| start.process != 2));
    let undelivered = with_tick(start_3_true, 47);
    let run = run_of(&lines, &undelivered, 1, &times);
    assert!(run.each_due_starts_once() && !run.each_after_its_inputs());
}

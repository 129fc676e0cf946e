//! What `where/listing.awk` says of a refused listing, compared with where it fails by the reference.

use reference::bus::{next_beginning, round_ticks, slot_of};
use reference::check::Course;
use reference::failing_listing::{line_of, missing_passed};
use reference::table::{row_node, row_process, Row};
use reference::who_runs::{value, Combination};
use reference::{read_listing, Lines};

use crate::telling::{begin_of, head, number_behind};
use crate::telling_listings::Refused;

/// A combination in words.
fn combination_words(lines: &Lines, combination: Combination) -> String {
    let mut words = format!("in combination {combination}");
    for condition in 0..lines.conditions.len() {
        words += if condition == 0 { ", " } else { " " };
        words += &format!("({} {condition})", value(combination, condition));
    }
    words
}

/// A row in words.
fn row_words(row: Row) -> String {
    match row {
        Row::Process(number) => format!("process {number}"),
        Row::Edge(number) => format!("edge {number}"),
        Row::Condition(number) => format!("condition {number}"),
    }
}

/// Panics unless what is said of a listing is so.
pub fn compare(refused: &Refused, said: &str) {
    let Refused {
        lines,
        listing,
        place,
    } = refused;
    let combination = place.combination.map(|c| combination_words(lines, c));
    let head_line = match (place.line, place.row) {
        (Some(line), _) => head(listing, line),
        (None, row) => format!(
            "no entry of {} is met {}\n",
            row_words(row.unwrap()),
            combination.clone().unwrap()
        ),
    };
    let why = said.strip_prefix(&head_line);
    let why = why.unwrap_or_else(|| panic!("expected {head_line}said {said}"));
    assert!(why.starts_with("  ") && why.ends_with('\n'), "{said}");
    if let Some(words) = combination.filter(|_| place.line.is_some()) {
        assert!(why.starts_with(&format!("  {words}, ")), "{words}: {said}");
    }
    let earlier = place
        .earlier
        .map(|line| format!("  {}", head(listing, line)));
    assert_eq!(why.contains("\n  line "), earlier.is_some(), "{said}");
    if let Some(earlier) = earlier {
        assert!(why.ends_with(&format!(":\n{earlier}")), "{earlier}{said}");
    }
    if let Some(row) = place.row {
        assert!(why.contains(&row_words(row)), "{said}");
    }
    if let Some(delay) = place.delay {
        let says = format!("  the greatest delay is {delay}: in combination ");
        assert!(why.starts_with(&says), "{said}");
    }
    match place.number {
        15..=17 => compare_ticks(refused, why),
        21 => compare_form(refused, why),
        22 => compare_frames(refused, why),
        _ => {}
    }
}

/// Panics unless the ticks that are said of a listing refused with 15 to 17 are so.
fn compare_ticks(refused: &Refused, why: &str) {
    let lines = &refused.lines;
    let stated = read_listing(lines, &refused.listing).unwrap();
    let course = Course::of(lines, &stated.entries, refused.place.combination.unwrap());
    let entry = stated.entries[refused.place.line.unwrap() - line_of(lines, 0)];
    let row = reference::table::row(lines, entry.row).unwrap();
    let tick = |words| number_behind(why, words).map(|tick| tick as u64);
    if let Some(from) = tick("is known from tick ") {
        let condition = number_behind(why, "condition ").unwrap();
        assert_eq!(course.known_from(condition), Some(from), "{why}");
        assert!(from > entry.tick.into(), "{why}");
    } else if why.contains("is never known") {
        let condition = number_behind(why, "condition ").unwrap();
        assert_eq!(course.known_from(condition), None, "{why}");
    } else if let Some(from) = tick("delivers at tick ") {
        let edge = number_behind(why, "edge ").unwrap();
        assert_eq!(course.delivered_from(edge), Some(from), "{why}");
        assert!(from > entry.tick.into(), "{why}");
    } else if let Some(end) = tick("ends at tick ") {
        assert_eq!(course.end(row_process(lines, row)), Some(end), "{why}");
        assert!(end > entry.tick.into(), "{why}");
    } else {
        let slot = slot_of(lines, row_node(lines, row));
        let next = next_beginning(lines, slot, entry.tick.into());
        let begins = match next.checked_sub(round_ticks(lines)) {
            Some(before) => format!(" begins at ticks {before} and {next}"),
            None => format!(" first begins at tick {next}"),
        };
        let says = format!("{begins}, and not at {}\n", entry.tick);
        assert!(why.ends_with(&says), "{says}{why}");
    }
}

/// Panics unless the words of a line that is not of the form fit it.
fn compare_form(refused: &Refused, why: &str) {
    let line = refused.place.line.unwrap();
    let begin = begin_of(&refused.listing, line);
    let rest = &refused.listing[begin..];
    let more = missing_passed(&refused.lines, line);
    let with_feed = [&refused.listing[..], b"\n", &more].concat();
    let lacks_feed = !rest.is_empty() && read_listing(&refused.lines, &with_feed).is_ok();
    assert_eq!(why.contains("line feed at the end"), lacks_feed, "{why}");
    let missing = rest.is_empty();
    let says_missing = why.contains("the listing ends, and") || why.contains("listing is empty");
    assert_eq!(says_missing, missing, "{why}");
    if line >= line_of(&refused.lines, 3_000) && rest.starts_with(b"(s") {
        assert!(why.contains("at most 3000 entries"), "{why}");
    }
}

/// Panics unless what is said of the frames or of the passed lines is so.
fn compare_frames(refused: &Refused, why: &str) {
    match refused.place.frame {
        Some(frame) => {
            let (tick, node, bytes) = (frame.tick, frame.node, frame.bytes);
            let shown = format!(" (frame {tick} (node {node}) (bytes {bytes}))\n");
            assert!(why.ends_with(&shown), "{why}");
        }
        None if refused.place.line == Some(2) => {
            assert!(why.contains("is not the plan's"), "{why}");
        }
        None => assert!(why.contains("the entries give no frame"), "{why}"),
    }
}

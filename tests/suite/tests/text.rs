//! Plan texts: printing, reading, writing, and damaged texts.

use generate::texts::damaged_texts;
use reference::text::{read_form, write};
use reference::{list_plan, print, program, read, refuse_plan};
use suite::{for_plans, s, FEW, MANY, S};

#[test]
fn read_after_print_gives_the_lines_back() {
    for_plans(1, &MANY, |lines, _| {
        assert_eq!(refuse_plan(lines), None);
        assert_eq!(read(&print(lines)).as_ref(), Ok(lines));
    });
}

#[test]
fn print_after_read_gives_the_text_back() {
    let mut read_all_the_same = 0;
    for_plans(2, &FEW, |lines, random| {
        for damaged in damaged_texts(lines, random) {
            if let Some(lines) = read_form(&damaged.text) {
                assert_eq!(print(&lines), damaged.text, "{}", damaged.what);
                read_all_the_same += 1;
            }
        }
    });
    assert!(read_all_the_same > 1_000);
}

#[test]
fn damaged_texts_get_the_refusal_of_their_damage() {
    for_plans(3, &FEW, |lines, random| {
        for damaged in damaged_texts(lines, random) {
            let answer = read(&damaged.text);
            if let Some(number) = damaged.refusal {
                assert_eq!(answer, Err(number), "{}", damaged.what);
            }
            if let Err(number) = answer {
                let refused = format!("(refused {number})\n");
                assert_eq!(program(&damaged.text), refused.as_bytes());
                assert_eq!(list_plan(&damaged.text, 0), Err(number));
            }
        }
    });
}

#[test]
fn a_text_that_is_read_has_lines_without_refusal() {
    for_plans(4, &FEW, |lines, random| {
        for damaged in damaged_texts(lines, random) {
            if let Ok(lines) = read(&damaged.text) {
                assert_eq!(refuse_plan(&lines), None);
                assert_eq!(write(&lines, damaged.text.len()), Ok(damaged.text));
            }
        }
    });
}

#[test]
fn the_writer_needs_room_for_every_byte() {
    for_plans(5, &FEW, |lines, _| {
        let text = print(lines);
        assert_eq!(write(lines, text.len() - 1), Err(10));
        assert_eq!(write(lines, text.len()), Ok(text));
    });
}

#[test]
fn a_listing_needs_room_for_every_byte() {
    let listing = program(S.as_bytes());
    let length = listing.len();
    assert_eq!(list_plan(S.as_bytes(), length - 1), Err(10));
    assert_eq!(list_plan(S.as_bytes(), length), Ok(listing));
}

#[test]
fn every_byte_of_s_counts() {
    for place in 0..S.len() {
        for byte in 0..=255 {
            let mut text = S.as_bytes().to_vec();
            text[place] = byte;
            if let Ok(lines) = read(&text) {
                assert_eq!(print(&lines), text);
            }
        }
    }
}

#[test]
fn s_cut_within_a_line_is_refused() {
    for length in (0..S.len()).filter(|&l| l == 0 || S.as_bytes()[l - 1] != b'\n') {
        assert_eq!(read(&S.as_bytes()[..length]), Err(1));
    }
}

#[test]
fn s_cut_before_its_last_edge_is_another_plan() {
    let mut lines = s();
    lines.edges.pop();
    let last_edge = S.rfind("(edge").unwrap();
    assert_eq!(read(&S.as_bytes()[..last_edge]), Ok(lines));
}

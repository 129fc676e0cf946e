//! Checking printed tables: cases worked out by hand.

use reference::check_listing::split_input;
use reference::table::Entry;
use reference::{check_input, check_listing, check_program, print, print_stated, read_listing};
use suite::listing_readings::readings;
use suite::listings::{behind_s, inputs, s_listing_with};
use suite::{s, S, S_LISTING};

/// The answer of the reference, 0 for acceptance.
fn answer(listing: &str) -> u8 {
    check_listing(S.as_bytes(), listing.as_bytes()).unwrap_or(0)
}

#[test]
fn listings_behind_s() {
    for (what, listing, wanted) in behind_s() {
        assert_eq!(answer(&listing), wanted, "{what}:\n{listing}");
    }
}

#[test]
fn readings_of_points_2_and_3() {
    for (what, lines, listing, wanted) in readings() {
        let answer = check_listing(&print(&lines), listing.as_bytes());
        assert_eq!(answer.unwrap_or(0), wanted, "{what}:\n{listing}");
    }
}

#[test]
fn inputs_of_the_program() {
    for (what, input, wanted) in inputs() {
        let answer = check_input(input.as_bytes()).unwrap_or(0);
        assert_eq!(answer, wanted, "{what}:\n{input}");
        let printed = match wanted {
            0 => "(accepted)\n".to_string(),
            number => format!("(refused {number})\n"),
        };
        assert_eq!(check_program(input.as_bytes()), printed.as_bytes());
    }
}

/// "Within a row lines may stand in any order, and are read in it".
#[test]
fn entries_are_read_in_the_order_in_which_they_stand() {
    let stated = read_listing(&s(), S_LISTING.as_bytes()).unwrap();
    assert_eq!((stated.delay, &stated.passed[..]), (34, &[0, 0][..]));
    let ticks = |entries: &[Entry]| entries.iter().map(|e| e.tick).collect::<Vec<_>>();
    assert_eq!(ticks(&stated.entries), [0, 20, 12, 17, 32, 16, 28, 8]);
    let frames: Vec<_> = stated
        .frames
        .iter()
        .map(|f| (f.tick, f.node, f.bytes))
        .collect();
    assert_eq!(frames, [(8, 0, 1), (16, 0, 1), (28, 1, 2)]);

    let (on_false, on_true) = ("(false 0)) (at 17)", "(true 0)) (at 32)");
    let exchanged = s_listing_with(&[(on_false, "-"), (on_true, on_false), ("-", on_true)]);
    let exchanged = read_listing(&s(), exchanged.as_bytes()).unwrap();
    assert_eq!(ticks(&exchanged.entries), [0, 20, 12, 32, 17, 16, 28, 8]);
    assert_eq!(exchanged.entries[3], stated.entries[4]);
}

/// "A printed table read and printed again is byte for byte the same", here in any order of lines.
#[test]
fn what_is_read_is_printed_again() {
    let mut printed = 0;
    for (what, listing, _) in behind_s() {
        if let Ok(stated) = read_listing(&s(), listing.as_bytes()) {
            assert_eq!(print_stated(&s(), &stated), listing.as_bytes(), "{what}");
            printed += 1;
        }
    }
    assert!(printed > 30, "{printed}");
}

#[test]
fn every_byte_of_the_listing_counts() {
    let mut read = 0;
    for place in 0..S_LISTING.len() {
        for byte in 0..=255 {
            let mut listing = S_LISTING.as_bytes().to_vec();
            listing[place] = byte;
            if let Ok(stated) = read_listing(&s(), &listing) {
                assert_eq!(print_stated(&s(), &stated), listing);
                read += 1;
            }
        }
    }
    assert!(read > S_LISTING.len(), "{read}");
}

#[test]
fn the_listing_cut_anywhere_but_behind_a_line() {
    let bytes = S_LISTING.as_bytes();
    for length in 0..bytes.len() {
        let answer = check_listing(S.as_bytes(), &bytes[..length]);
        let whole_lines = bytes[..length].iter().filter(|&&b| b == b'\n').count();
        let wanted = match whole_lines {
            _ if length == 0 || bytes[length - 1] != b'\n' => 21,
            0..=2 => 21,
            3..=10 => 14,
            _ => 22,
        };
        assert_eq!(answer, Some(wanted), "{length}");
    }
}

#[test]
fn inputs_are_split_at_the_first_empty_line() {
    let parts: [(&str, &str, &str); 9] = [
        ("", "", ""),
        ("\n", "", ""),
        ("\na", "", "a"),
        ("a", "a", ""),
        ("a\n", "a\n", ""),
        ("a\n\n", "a\n", ""),
        ("a\n\n\n", "a\n", "\n"),
        ("a\n\nb\n\nc", "a\n", "b\n\nc"),
        ("a\nb\n\nc", "a\nb\n", "c"),
    ];
    for (input, text, listing) in parts {
        let wanted = (text.as_bytes(), listing.as_bytes());
        assert_eq!(split_input(input.as_bytes()), wanted, "{input:?}");
    }
}

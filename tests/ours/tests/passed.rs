//! The pass-overs of each node, document 02, point 3, by the archive: plans worked out by hand whose slots
//! do not stand in node order. Without the archive there are no tests here; the gate builds it first.
#![cfg(have_archive)]

use generate::Random;
use ours::archive::{check_listing, plan_listing, plan_table, refused, ACCEPTED};
use ours::comparing::{bytes, Lent};
use reference::{print, Lines};
use suite::passed_lines::{
    three_counts, three_slots_turned, turned, two_slots_turned, THREE_SLOTS_TURNED,
    TWO_SLOTS_TURNED,
};
use suite::{listed, planned};

/// Plans with their worst delay and their counts, node 0 first.
fn plans() -> [(Lines, u32, &'static [u32]); 3] {
    let three = planned(&three_counts()).delay as u32;
    [
        (two_slots_turned(), 7, &[2, 1]),
        (three_slots_turned(), 11, &[0, 0, 3]),
        (three_counts(), three, &[1, 2, 3]),
    ]
}

/// Three words and a count for each node, as far as the lent bytes go; what lies behind stays.
#[test]
fn totals_of_every_length() {
    let mut random = Random::new(98);
    for (lines, delay, counts) in plans() {
        let text = print(&lines);
        let mut table = vec![0; 4_000];
        let mut frames = vec![0; 1_000];
        let planned = planned(&lines);
        let sizes = [planned.words.len() as u32, planned.frames.len() as u32];
        let wanted = bytes(&[&sizes[..], &[delay], counts].concat());
        assert_eq!(wanted.len(), 4 * (3 + lines.slots.len()));
        for length in 0..wanted.len() + 40 {
            let mut totals = Lent::new(length, &mut random);
            let after = totals.with(&wanted[..length.min(wanted.len())]);
            let answer = plan_table(&text, &mut table, &mut frames, totals.lent());
            assert_eq!(answer, 4 * u64::from(sizes[0]));
            totals.assert_is(&after, "totals", &format!("{counts:?}"));
        }
    }
}

#[test]
fn listings_of_slots_that_do_not_stand_in_node_order() {
    for (lines, listing) in [
        (two_slots_turned(), TWO_SLOTS_TURNED.to_string()),
        (three_slots_turned(), THREE_SLOTS_TURNED.to_string()),
        (three_counts(), listed(&three_counts())),
    ] {
        let mut out = vec![0; listing.len()];
        let written = plan_listing(&print(&lines), &mut out);
        assert_eq!(written, listing.len() as u64);
        assert_eq!(String::from_utf8(out).unwrap(), listing);
    }
}

#[test]
fn listings_with_other_passed_lines() {
    for (what, lines, listing, answer) in turned() {
        let wanted = match answer {
            0 => ACCEPTED,
            number => refused(number),
        };
        let ours = check_listing(&print(&lines), listing.as_bytes());
        assert_eq!(ours, wanted, "{what}:\n{listing}");
    }
}

//! Whole inputs of the checking program: a plan text, an empty line, and a listing.

use crate::broken::{broken, NUMBERS};
use crate::random::Random;
use crate::texts::{damaged, damaged_texts, of_length, split, Damaged};
use reference::{print, Lines};

/// More bytes than an input that is not refused with 1 or 21 has.
const LONG: usize = 600_000;

/// The input with a plan text and a listing.
pub fn joined(text: &[u8], listing: &[u8]) -> Vec<u8> {
    [text, b"\n", listing].concat()
}

/// Inputs made from a plan without refusal 2 to 9 and a listing that is not empty.
pub fn inputs(lines: &Lines, listing: &[u8], random: &mut Random) -> Vec<Damaged> {
    let text = print(lines);
    let mut all = vec![
        damaged("nothing", Vec::new(), Some(1)),
        damaged("one line feed", b"\n".to_vec(), Some(1)),
        damaged(
            "line feeds",
            vec![b'\n'; random.between(2, 9) as usize],
            Some(1),
        ),
        damaged("a plan alone", text.clone(), Some(21)),
        damaged("a plan and an empty line", joined(&text, b""), Some(21)),
        damaged("no empty line", [&text, listing].concat(), Some(1)),
        damaged(
            "an empty line first",
            joined(b"", &joined(&text, listing)),
            Some(1),
        ),
        damaged(
            "two empty lines",
            joined(&text, &joined(b"", listing)),
            Some(21),
        ),
        damaged(
            "a plan cut by a byte",
            joined(&text[..text.len() - 1], listing),
            Some(1),
        ),
        damaged(
            "carriage returns",
            with_returns(&joined(&text, listing)),
            Some(1),
        ),
        damaged(
            "a blank in the empty line",
            [&text, &b" \n"[..], listing].concat(),
            Some(1),
        ),
        damaged("listing before plan", joined(listing, &text), Some(1)),
        damaged(
            "an empty line in the plan",
            empty_line_within(&text, listing, random),
            None,
        ),
        damaged(
            "plan of 16,384 bytes",
            joined(&of_length(lines, 16_384), listing),
            Some(2),
        ),
        damaged(
            "plan of 16,385 bytes",
            joined(&of_length(lines, 16_385), listing),
            Some(1),
        ),
        damaged(
            "plan of 16,384 bytes alone",
            of_length(lines, 16_384),
            Some(2),
        ),
        damaged(
            "plan of 16,385 bytes alone",
            of_length(lines, 16_385),
            Some(1),
        ),
    ];
    all.extend(refused_plans(lines, listing, random));
    all
}

/// Inputs of 600,000 bytes and more: a plan that is too long, and a plan with a listing that is.
pub fn long_inputs(lines: &Lines, listing: &[u8], random: &mut Random) -> Vec<Damaged> {
    let text = print(lines);
    let frames = b"(frame 999999999 (node 999999999) (bytes 999999999))\n".repeat(LONG / 53 + 1);
    let any: Vec<u8> = (0..LONG).map(|_| random.bits() as u8).collect();
    let mut all = vec![
        damaged("a long plan", of_length(lines, LONG), Some(1)),
        damaged(
            "a long plan, then a listing",
            joined(&of_length(lines, LONG), listing),
            Some(1),
        ),
        damaged("a long plan of no form", vec![b'('; LONG], Some(1)),
        damaged("only line feeds", vec![b'\n'; LONG], Some(1)),
        damaged(
            "a listing, then frames",
            joined(&text, &[listing, &frames].concat()),
            Some(21),
        ),
        damaged(
            "line feeds behind",
            joined(&text, &[listing, &vec![b'\n'; LONG]].concat()),
            Some(21),
        ),
        damaged(
            "any bytes behind",
            joined(&text, &[listing, &any].concat()),
            Some(21),
        ),
        damaged("one long line", joined(&text, &vec![b'1'; LONG]), Some(21)),
    ];
    let number = random.one_of(&NUMBERS);
    if let Some(lines) = broken(lines, number, random) {
        let text = print(&lines);
        if reference::read(&text) == Err(number) {
            let input = joined(&text, &frames);
            all.push(damaged(
                "a broken plan, a long listing",
                input,
                Some(number),
            ));
        }
    }
    all
}

fn with_returns(input: &[u8]) -> Vec<u8> {
    let lines = split(input).into_iter();
    lines
        .flat_map(|line| [&line[..line.len() - 1], b"\r\n"].concat())
        .collect()
}

/// An empty line put before one of the plan's lines, so that the listing begins with plan lines.
fn empty_line_within(text: &[u8], listing: &[u8], random: &mut Random) -> Vec<u8> {
    let mut all = split(text);
    let place = random.index(all.len());
    all.insert(place, b"\n");
    joined(&all.concat(), listing)
}

/// Plans that are refused with 1 to 9, in front of the listing or of something that is none.
fn refused_plans(lines: &Lines, listing: &[u8], random: &mut Random) -> Vec<Damaged> {
    let behind = [listing, b"x", b"", b"\n"];
    let mut all = Vec::new();
    for number in NUMBERS {
        let Some(lines) = broken(lines, number, random) else {
            continue;
        };
        let text = print(&lines);
        // a number of ten digits is 1
        let answer = if reference::text::read_form(&text).is_some() {
            number
        } else {
            1
        };
        let input = joined(&text, random.one_of(&behind));
        all.push(damaged("a broken plan", input, Some(answer)));
    }
    let texts = damaged_texts(lines, random);
    for _ in 0..3 {
        let text = random.one_of(&texts).text;
        let input = joined(&text, random.one_of(&behind));
        all.push(damaged("a damaged plan", input, None));
    }
    all
}

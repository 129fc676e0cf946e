//! Listing texts that are not of the form, and listing texts with some bytes or lines changed.

use crate::passed_texts::wrong_passed_lines;
use crate::random::Random;
use crate::texts::{
    before_feed, cut, cut_in_line, damaged, doubled_line, doubled_space, flipped, inserted,
    leading_zero, no_digit, removed_line, replaced, split, swapped, swapped_lines, ten_digits,
    upper_case, Damaged,
};
use reference::{print, print_stated, Lines, Stated};

/// Texts made from a listing, none of which is of the form: refusal 21, whatever the listing states.
pub fn not_of_the_form(lines: &Lines, stated: &Stated, random: &mut Random) -> Vec<Damaged> {
    let text = print_stated(lines, stated);
    let texts = [
        ("no text", Vec::new()),
        ("a line feed", b"\n".to_vec()),
        ("the plan's text", print(lines)),
        ("a refusal", b"(refused 9)\n".to_vec()),
        ("cut within a line", cut_in_line(&text, random)),
        ("a leading zero", leading_zero(&text, random)),
        ("ten digits", ten_digits(&text, random)),
        ("no digit", no_digit(&text, random)),
        ("a carriage return", before_feed(&text, b"\r", random)),
        ("a space at a line's end", before_feed(&text, b" ", random)),
        ("an empty line", before_feed(&text, b"\n", random)),
        ("a NUL", inserted(&text, 0, random)),
        ("a tab", inserted(&text, b'\t', random)),
        ("a space doubled", doubled_space(&text, random)),
        ("an upper case letter", upper_case(&text, random)),
        ("no last line feed", text[..text.len() - 1].to_vec()),
        ("a byte order mark", [b"\xef\xbb\xbf", &text[..]].concat()),
        ("a byte behind", behind(&text, &[random.bits() as u8])),
        ("an empty line behind", behind(&text, b"\n")),
        ("a second listing behind", text.repeat(2)),
    ];
    let mut all = texts.map(|(what, text)| wrong(what, text)).to_vec();
    all.extend(wrong_lines(lines, &text, random));
    all.extend(wrong_parts(lines, &text, random));
    all.extend(wrong_passed_lines(lines, stated, random));
    all
}

/// A text that is not of the form.
fn wrong(what: &'static str, text: Vec<u8>) -> Damaged {
    damaged(what, text, Some(21))
}

fn behind(text: &[u8], bytes: &[u8]) -> Vec<u8> {
    [text, bytes].concat()
}

/// Lines that are missing, doubled or out of order.
fn wrong_lines(lines: &Lines, text: &[u8], random: &mut Random) -> Vec<Damaged> {
    let all = split(text);
    let totals = 1 + lines.slots.len();
    let entries = entry_lines(text, totals);
    let frames: Vec<usize> = (totals + entries.len()..all.len()).collect();
    let without = |line: usize| [&all[..line], &all[line + 1..]].concat().concat();
    let doubled = |line: usize| [&all[..line], &[all[line]], &all[line..]].concat().concat();
    let moved = |line: usize, to: usize| {
        let mut lines = all.clone();
        let line = lines.remove(line);
        lines.insert(to, line);
        lines.concat()
    };
    let mut found = vec![
        wrong("no delay line", without(0)),
        wrong("the delay line doubled", doubled(0)),
        wrong("delay and passed exchanged", moved(0, 1)),
        wrong("the delay line behind passed", moved(0, totals - 1)),
        wrong("the delay line alone", all[0].to_vec()),
        wrong(
            "the delay line and not all of passed",
            all[..random.between(1, totals as u64 - 1) as usize].concat(),
        ),
    ];
    if let Some(rows) = rows_exchanged(&all, &entries, random) {
        found.push(wrong("rows out of order", rows));
    }
    let (Some(&last), Some(entry)) = (entries.last(), random.some_of(&entries)) else {
        return found;
    };
    found.push(wrong(
        "an entry before passed",
        moved(entry, random.index(totals)),
    ));
    let passed = random.between(1, totals as u64 - 1) as usize;
    let later = random.between(totals as u64, all.len() as u64 - 1) as usize;
    found.push(wrong("passed behind an entry", moved(passed, later)));
    if let Some(frame) = random.some_of(&frames) {
        let before = random.between(totals as u64, last as u64) as usize;
        found.push(wrong("a frame before an entry", moved(frame, before)));
        found.push(wrong("an entry behind a frame", moved(entry, last + 1)));
    }
    found
}

/// The numbers of the lines of entries: those between the totals, so many lines, and the frames.
fn entry_lines(text: &[u8], totals: usize) -> Vec<usize> {
    let all = split(text);
    (totals..all.len())
        .filter(|&line| !all[line].starts_with(b"(frame"))
        .collect()
}

/// Two lines of different rows exchanged.
fn rows_exchanged(all: &[&[u8]], entries: &[usize], random: &mut Random) -> Option<Vec<u8>> {
    let row = |line: usize| all[line].split(|&b| b == b' ').take(2);
    let first = random.some_of(entries)?;
    let others: Vec<usize> = entries
        .iter()
        .copied()
        .filter(|&line| !row(line).eq(row(first)))
        .collect();
    let mut lines = all.to_vec();
    lines.swap(first, random.some_of(&others)?);
    Some(lines.concat())
}

/// Lines with a part too many, too few, at another place, or with a number that the plan lacks.
fn wrong_parts(lines: &Lines, text: &[u8], random: &mut Random) -> Vec<Damaged> {
    let mut all = Vec::new();
    let mut add = |what, begins: &str, change: &dyn Fn(&str, &mut Random) -> String| {
        let changed = with_line(text, begins, change, random);
        all.extend(changed.map(|text| wrong(what, text)));
    };
    for (kind, count) in [
        ("(start ", lines.processes.len()),
        ("(send ", lines.edges.len()),
        ("(tell ", lines.conditions.len()),
    ] {
        let lacking = move |line: &str, random: &mut Random| {
            let rest = line[kind.len()..].split_once(' ').unwrap().1;
            format!("{kind}{} {rest}", at_least(count, random))
        };
        add("a number that the plan lacks", kind, &lacking);
    }
    let conditions = lines.conditions.len();
    for kind in ["(start ", "(send ", "(tell "] {
        add("a condition that the plan lacks", kind, &|line, random| {
            with_condition(line, at_least(conditions, random), random)
        });
        add("a condition again", kind, &|line, random| {
            condition_again(line, random)
        });
        add("conditions exchanged", kind, &|line, _| {
            conditions_exchanged(line)
        });
    }
    add("a start with a place", "(start ", &|line, _| {
        line.replace("))\n", ") (place 0))\n")
    });
    add("a send without a place", "(send ", &|line, _| {
        without_part(line, " (place ")
    });
    add("a tell without a place", "(tell ", &|line, _| {
        without_part(line, " (place ")
    });
    add("a place before its tick", "(send ", &|line, _| {
        exchanged(line, " (at ", " (place ")
    });
    add("no column", "(start ", &|line, _| {
        without_part(line, " (when")
    });
    add("no tick", "(tell ", &|line, _| without_part(line, " (at "));
    add("a space in a column", "(start ", &|line, _| {
        line.replacen("(when", "(when ", 1)
    });
    add("always", "(start ", &|line, _| {
        line.replacen("(when", "(when always", 1)
    });
    add("a frame without bytes", "(frame ", &|line, _| {
        without_part(line, " (bytes ")
    });
    add("a frame without a node", "(frame ", &|line, _| {
        without_part(line, " (node ")
    });
    add("bytes before the node", "(frame ", &|line, _| {
        exchanged(line, " (node ", " (bytes ")
    });
    add("a frame's tick in brackets", "(frame ", &|line, _| {
        line.replacen("(frame ", "(frame (at ", 1)
            .replacen(" (node", ") (node", 1)
    });
    all
}

/// A number that is not below a count.
fn at_least(count: usize, random: &mut Random) -> u64 {
    let count = count as u64;
    random.one_of(&[count, count + 1, count + 256, 999_999_999])
}

/// A text with one of its lines that begin so changed, often the last, or nothing if none does or it
/// stays as it is.
fn with_line(
    text: &[u8],
    begins: &str,
    change: &dyn Fn(&str, &mut Random) -> String,
    random: &mut Random,
) -> Option<Vec<u8>> {
    let mut all = split(text);
    let such: Vec<usize> = (0..all.len())
        .filter(|&line| all[line].starts_with(begins.as_bytes()))
        .collect();
    let number = match random.percent(50) {
        true => *such.last()?,
        false => random.some_of(&such)?,
    };
    let line = std::str::from_utf8(all[number]).unwrap();
    let changed = change(line, random);
    if changed == line {
        return None;
    }
    all[number] = changed.as_bytes();
    Some(all.concat())
}

/// A line without the part that begins so, up to the bracket that closes it.
fn without_part(line: &str, begins: &str) -> String {
    let (first, part) = cut_part(line, begins);
    format!("{first}{}", &line[first.len() + part.len()..])
}

/// A line with two neighbouring parts exchanged.
fn exchanged(line: &str, one: &str, next: &str) -> String {
    let (first, part) = cut_part(line, one);
    let (_, next) = cut_part(line, next);
    let last = &line[first.len() + part.len() + next.len()..];
    format!("{first}{next}{part}{last}")
}

/// What stands in a line before the part that begins so, and that part.
fn cut_part<'a>(line: &'a str, begins: &str) -> (&'a str, &'a str) {
    let first = line.find(begins).unwrap();
    let mut depth = 0;
    let closes = |&(_, letter): &(usize, char)| {
        depth += match letter {
            '(' => 1,
            ')' => -1,
            _ => 0,
        };
        letter == ')' && depth == 0
    };
    let (last, _) = line[first..].char_indices().find(closes).unwrap();
    (&line[..first], &line[first..=first + last])
}

/// A line whose column ends with this condition.
fn with_condition(line: &str, condition: u64, random: &mut Random) -> String {
    let value = random.one_of(&[true, false]);
    line.replacen(") (at", &format!(" ({value} {condition})) (at"), 1)
}

/// A line whose column names one of its conditions once more, at its end; the same line if it names
/// none.
fn condition_again(line: &str, random: &mut Random) -> String {
    let (_, column) = cut_part(line, " (when");
    let named: Vec<u64> = column
        .split(|letter: char| !letter.is_ascii_digit())
        .filter_map(|digits| digits.parse().ok())
        .collect();
    match random.some_of(&named) {
        Some(condition) => with_condition(line, condition, random),
        None => line.to_string(),
    }
}

/// A line whose column has its last condition first; the same line if it names fewer than two.
fn conditions_exchanged(line: &str) -> String {
    let (first, column) = cut_part(line, " (when");
    let named = column.strip_prefix(" (when").unwrap();
    let named = named.strip_suffix(')').unwrap();
    let last = named.rfind(" (").unwrap_or(0);
    let rest = &line[first.len() + column.len()..];
    format!("{first} (when{}{}){rest}", &named[last..], &named[..last])
}

/// A listing's text with bytes or lines changed anywhere; nothing is promised of these.
pub fn changed_anywhere(text: &[u8], random: &mut Random) -> Vec<Damaged> {
    vec![
        damaged("a bit flipped", flipped(text, random), None),
        damaged("a byte replaced", replaced(text, random), None),
        damaged("a byte removed", removed(text, random), None),
        damaged("a byte doubled", doubled(text, random), None),
        damaged("a byte inserted", a_byte_inserted(text, random), None),
        damaged("two bytes swapped", swapped(text, random), None),
        damaged("a digit replaced", digit_replaced(text, random), None),
        damaged("a digit replaced", digit_replaced(text, random), None),
        damaged("cut anywhere", cut(text, random), None),
        damaged("cut behind a line", cut_behind_line(text, random), None),
        damaged("a line doubled", doubled_line(text, random), None),
        damaged("a line removed", removed_line(text, random), None),
        damaged("two lines swapped", swapped_lines(text, random), None),
    ]
}

fn removed(text: &[u8], random: &mut Random) -> Vec<u8> {
    let mut text = text.to_vec();
    text.remove(random.index(text.len()));
    text
}

fn doubled(text: &[u8], random: &mut Random) -> Vec<u8> {
    let mut text = text.to_vec();
    let place = random.index(text.len());
    text.insert(place, text[place]);
    text
}

fn a_byte_inserted(text: &[u8], random: &mut Random) -> Vec<u8> {
    let byte = random.one_of(b"0123456789() \n");
    inserted(text, byte, random)
}

fn digit_replaced(text: &[u8], random: &mut Random) -> Vec<u8> {
    let digits: Vec<usize> = (0..text.len())
        .filter(|&p| text[p].is_ascii_digit())
        .collect();
    let mut text = text.to_vec();
    text[random.one_of(&digits)] = random.one_of(b"0123456789");
    text
}

fn cut_behind_line(text: &[u8], random: &mut Random) -> Vec<u8> {
    let all = split(text);
    all[..random.index(all.len())].concat()
}

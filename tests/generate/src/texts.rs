//! Plan texts that are damaged, and texts of a given length.

use crate::random::Random;
use reference::{print, Lines};

/// A damaged text.
#[derive(Clone, Debug)]
pub struct Damaged {
    /// What was done to the text.
    pub what: &'static str,
    /// The text.
    pub text: Vec<u8>,
    /// The refusal that the damage surely brings, if it surely brings one.
    pub refusal: Option<u8>,
}

pub(crate) fn damaged(what: &'static str, text: Vec<u8>, refusal: Option<u8>) -> Damaged {
    Damaged {
        what,
        text,
        refusal,
    }
}

/// The printed form of a plan without refusal 2 to 9, damaged in every way.
pub fn damaged_texts(lines: &Lines, random: &mut Random) -> Vec<Damaged> {
    let mut all = damaged_anywhere(lines, random);
    all.extend(damaged_heads(lines, random));
    all
}

fn damaged_anywhere(lines: &Lines, random: &mut Random) -> Vec<Damaged> {
    let text = print(lines);
    vec![
        damaged("a byte flipped", flipped(&text, random), None),
        damaged("a byte replaced", replaced(&text, random), None),
        damaged("two bytes swapped", swapped(&text, random), None),
        damaged("cut anywhere", cut(&text, random), None),
        damaged("cut within a line", cut_in_line(&text, random), Some(1)),
        damaged("a line doubled", doubled_line(&text, random), None),
        damaged("the plan line doubled", doubled_plan(&text), Some(1)),
        damaged("a line removed", removed_line(&text, random), None),
        damaged("two lines swapped", swapped_lines(&text, random), None),
        damaged("a leading zero", leading_zero(&text, random), Some(1)),
        damaged("ten digits", ten_digits(&text, random), Some(1)),
        damaged("no digit", no_digit(&text, random), Some(1)),
        damaged(
            "a carriage return",
            before_feed(&text, b"\r", random),
            Some(1),
        ),
        damaged(
            "a space at a line's end",
            before_feed(&text, b" ", random),
            Some(1),
        ),
        damaged("a NUL", inserted(&text, 0, random), Some(1)),
        damaged("a tab", inserted(&text, b'\t', random), Some(1)),
        damaged("an empty line", before_feed(&text, b"\n", random), Some(1)),
        damaged("a space doubled", doubled_space(&text, random), Some(1)),
        damaged(
            "no last line feed",
            text[..text.len() - 1].to_vec(),
            Some(1),
        ),
        damaged(
            "a byte order mark",
            [b"\xef\xbb\xbf", &text[..]].concat(),
            Some(1),
        ),
        damaged(
            "a stray byte at the end",
            [&text[..], b"x"].concat(),
            Some(1),
        ),
        damaged("an upper case letter", upper_case(&text, random), Some(1)),
        damaged("129 edges", many_edges(lines, 129, b""), Some(2)),
        damaged(
            "129 edges, a stray byte",
            many_edges(lines, 129, b"x"),
            Some(1),
        ),
        damaged(
            "200 edges, half a line",
            many_edges(lines, 200, b"(edge (from "),
            Some(1),
        ),
        damaged("16,384 bytes", of_length(lines, 16_384), Some(2)),
        damaged("16,385 bytes", of_length(lines, 16_385), Some(1)),
        damaged("no text", Vec::new(), Some(1)),
    ]
}

/// The head part of the plan line left out, at another place, twice, or with another number.
fn damaged_heads(lines: &Lines, random: &mut Random) -> Vec<Damaged> {
    let parts = plan_parts(lines);
    let [byte, head, pick] = [&*parts[0], &*parts[1], &*parts[2]];
    let line = |parts: &[&str]| with_plan_line(lines, parts);
    let with_head = |number: &str| line(&[byte, &format!("(head {number})"), pick]);
    let some = random.between(17, 1_000_000).to_string();
    let ten = random.between(1_000_000_000, 9_999_999_999).to_string();
    let zeros = "0".repeat(random.between(1, 9) as usize);
    vec![
        damaged("no head", line(&[byte, pick]), Some(1)),
        damaged("the head before byte", line(&[head, byte, pick]), Some(1)),
        damaged("the head behind pick", line(&[byte, pick, head]), Some(1)),
        damaged("the head twice", line(&[byte, head, head, pick]), Some(1)),
        damaged(
            "a head behind pick, too",
            line(&[byte, head, pick, head]),
            Some(1),
        ),
        damaged(
            "the head in a slot line",
            head_in_slot(lines, &line(&[byte, pick]), random),
            Some(1),
        ),
        damaged(
            "a head in a slot line, too",
            head_in_slot(lines, &print(lines), random),
            Some(1),
        ),
        damaged("a head without digits", with_head(""), Some(1)),
        damaged(
            "a head with needless zeros",
            with_head(&format!("{zeros}{}", lines.plan.head)),
            Some(1),
        ),
        damaged("a head of ten digits", with_head(&ten), Some(1)),
        damaged("a head of nine digits", with_head("999999999"), Some(3)),
        damaged("a head above 16", with_head(&some), Some(3)),
        damaged("head 17", with_head("17"), Some(3)),
        damaged("head 16", with_head("16"), None),
    ]
}

/// The parts of a plan's plan line: `(byte 2)` and so on.
fn plan_parts(lines: &Lines) -> Vec<String> {
    let text = String::from_utf8(print(lines)).unwrap();
    let line = text.lines().next().unwrap();
    let parts = line.strip_prefix("(plan ").unwrap();
    let parts = parts.strip_suffix(')').unwrap();
    let parts = parts.split_inclusive(')').map(str::trim);
    parts.map(str::to_string).collect()
}

/// The text of a plan with these parts in its plan line.
fn with_plan_line(lines: &Lines, parts: &[&str]) -> Vec<u8> {
    let text = print(lines);
    let line = format!("(plan {})\n", parts.join(" "));
    [line.as_bytes(), &split(&text)[1..].concat()].concat()
}

/// A text with the head of a plan in one of its slot lines, at any place.
fn head_in_slot(lines: &Lines, text: &[u8], random: &mut Random) -> Vec<u8> {
    let slot = random.index(lines.slots.len());
    let mut all = split(text);
    let line = String::from_utf8(all[1 + slot].to_vec()).unwrap();
    let place = random.one_of(&[" (node", " (bytes", ")\n"]);
    let head = format!(" (head {}){place}", lines.plan.head);
    let line = line.replace(place, &head);
    all[1 + slot] = line.as_bytes();
    all.concat()
}

pub(crate) fn flipped(text: &[u8], random: &mut Random) -> Vec<u8> {
    let mut text = text.to_vec();
    let place = random.index(text.len());
    text[place] ^= 1 << random.below(8);
    text
}

pub(crate) fn replaced(text: &[u8], random: &mut Random) -> Vec<u8> {
    let mut text = text.to_vec();
    let place = random.index(text.len());
    text[place] = random.one_of(b"0123456789() \naltfe");
    text
}

pub(crate) fn swapped(text: &[u8], random: &mut Random) -> Vec<u8> {
    let mut text = text.to_vec();
    let place = random.index(text.len() - 1);
    text.swap(place, place + 1);
    text
}

pub(crate) fn cut(text: &[u8], random: &mut Random) -> Vec<u8> {
    text[..random.index(text.len())].to_vec()
}

pub(crate) fn cut_in_line(text: &[u8], random: &mut Random) -> Vec<u8> {
    let places: Vec<usize> = (1..text.len()).filter(|&p| text[p - 1] != b'\n').collect();
    text[..random.one_of(&places)].to_vec()
}

/// The lines of a text, each with its line feed.
pub(crate) fn split(text: &[u8]) -> Vec<&[u8]> {
    text.split_inclusive(|&b| b == b'\n').collect()
}

pub(crate) fn doubled_line(text: &[u8], random: &mut Random) -> Vec<u8> {
    let mut lines = split(text);
    let line = random.index(lines.len());
    lines.insert(line, lines[line]);
    lines.concat()
}

fn doubled_plan(text: &[u8]) -> Vec<u8> {
    let mut lines = split(text);
    lines.insert(0, lines[0]);
    lines.concat()
}

pub(crate) fn removed_line(text: &[u8], random: &mut Random) -> Vec<u8> {
    let mut lines = split(text);
    lines.remove(random.index(lines.len()));
    lines.concat()
}

pub(crate) fn swapped_lines(text: &[u8], random: &mut Random) -> Vec<u8> {
    let mut lines = split(text);
    let (a, b) = (random.index(lines.len()), random.index(lines.len()));
    lines.swap(a, b);
    lines.concat()
}

/// A random place before which a number begins.
fn number_place(text: &[u8], random: &mut Random) -> usize {
    let places: Vec<usize> = (1..text.len())
        .filter(|&p| text[p].is_ascii_digit() && !text[p - 1].is_ascii_digit())
        .collect();
    random.one_of(&places)
}

fn insert(text: &[u8], place: usize, bytes: &[u8]) -> Vec<u8> {
    [&text[..place], bytes, &text[place..]].concat()
}

pub(crate) fn leading_zero(text: &[u8], random: &mut Random) -> Vec<u8> {
    insert(text, number_place(text, random), b"0")
}

pub(crate) fn ten_digits(text: &[u8], random: &mut Random) -> Vec<u8> {
    insert(
        text,
        number_place(text, random),
        b"100000000000000000000"[..9 + random.index(12)].as_ref(),
    )
}

pub(crate) fn no_digit(text: &[u8], random: &mut Random) -> Vec<u8> {
    let place = number_place(text, random);
    let digits = text[place..].iter().take_while(|b| b.is_ascii_digit());
    let after = place + digits.count();
    [&text[..place], &text[after..]].concat()
}

pub(crate) fn inserted(text: &[u8], byte: u8, random: &mut Random) -> Vec<u8> {
    insert(text, random.index(text.len() + 1), &[byte])
}

pub(crate) fn before_feed(text: &[u8], bytes: &[u8], random: &mut Random) -> Vec<u8> {
    let places: Vec<usize> = (0..text.len()).filter(|&p| text[p] == b'\n').collect();
    insert(text, random.one_of(&places), bytes)
}

pub(crate) fn doubled_space(text: &[u8], random: &mut Random) -> Vec<u8> {
    let places: Vec<usize> = (0..text.len()).filter(|&p| text[p] == b' ').collect();
    insert(text, random.one_of(&places), b" ")
}

pub(crate) fn upper_case(text: &[u8], random: &mut Random) -> Vec<u8> {
    let places: Vec<usize> = (0..text.len())
        .filter(|&p| text[p].is_ascii_lowercase())
        .collect();
    let mut text = text.to_vec();
    text[random.one_of(&places)].make_ascii_uppercase();
    text
}

/// An edge line whose numbers have so many digits more than one.
fn edge_line(more_digits: usize) -> Vec<u8> {
    let longer = |digits: usize| "1".repeat(digits + 1);
    let from = more_digits.min(8);
    let to = (more_digits - from).min(8);
    let bytes = more_digits - from - to;
    format!(
        "(edge (from {}) (to {}) (bytes {}) (when always))\n",
        longer(from),
        longer(to),
        longer(bytes)
    )
    .into_bytes()
}

/// The text of a plan without its edges, then so many edge lines and these bytes.
fn many_edges(lines: &Lines, edges: usize, after: &[u8]) -> Vec<u8> {
    let mut lines = lines.clone();
    lines.edges.clear();
    let mut text = print(&lines);
    text.extend(edge_line(0).repeat(edges));
    text.extend(after);
    text
}

/// A text of exactly this length, of the form of a plan, with more than 128 edges: the plan without
/// its edges, then edge lines with numbers as long as it takes.
pub fn of_length(lines: &Lines, length: usize) -> Vec<u8> {
    let mut text = many_edges(lines, 129, b"");
    let shortest = edge_line(0).len();
    while length - text.len() >= 4 * shortest {
        text.extend(edge_line(0));
    }
    while length > text.len() {
        let missing = length - text.len();
        let lines_left = missing.div_ceil(shortest + 24);
        let this_line = missing.div_ceil(lines_left);
        text.extend(edge_line(this_line - shortest));
    }
    text
}

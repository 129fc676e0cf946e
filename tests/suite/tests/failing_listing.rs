//! Where a refused listing fails: what `where/listing.awk` says is compared with the reference.

use std::path::PathBuf;

use generate::frames::with_frames;
use generate::passed_texts::wrong_passed_lines;
use generate::tables::{damaged, serial, Table};
use generate::wrong_counts::wrong_counts;
use generate::{Kind, Random};
use reference::check_listing::frames_given;
use reference::table::{entries, Entry};
use reference::{print_stated, Lines, Stated};
use suite::comparing_listings::compare;
use suite::listings::behind_s;
use suite::telling::{self, awks};
use suite::telling_listings::{self, refused, run, Refused, NUMBERS};
use suite::{for_plans, planned, s, S_LISTING};

/// The folder for the texts of a test.
fn folder(name: &str) -> PathBuf {
    telling::folder(env!("CARGO_TARGET_TMPDIR"), &format!("listing {name}"))
}

/// What is said of each of these listings, all refused with this number; `name` keeps the files of
/// tests apart.
fn told_by(awk: &[&str], name: &str, number: u8, all: &[&Refused]) -> Vec<String> {
    let told = telling_listings::told_by(awk, &folder(name), number, all);
    assert_eq!(told.len(), all.len(), "of some listing nothing is said");
    told
}

/// Compares what is said of these listings, and counts them by refusal.
fn compare_all(name: &str, all: &[Refused]) -> [usize; 23] {
    let mut counts = [0; 23];
    std::thread::scope(|scope| {
        for number in NUMBERS {
            let chosen: Vec<&Refused> = all.iter().filter(|r| r.place.number == number).collect();
            counts[usize::from(number)] = chosen.len();
            scope.spawn(move || {
                let told = told_by(&["awk"], name, number, &chosen);
                for (refused, said) in chosen.iter().zip(told) {
                    compare(refused, &said);
                }
            });
        }
    });
    counts
}

/// How many random plans of each kind have their listings damaged.
const PLANS: [(Kind, u64); 7] = [
    (Kind::Tiny, 40),
    (Kind::DenseBus, 3),
    (Kind::ManyConditions, 3),
    (Kind::NestedAny, 8),
    (Kind::LongestRound, 3),
    (Kind::ShortestRound, 6),
    (Kind::LongGaps, 3),
];

/// The listing of a table with the frames that its entries give, except those with a place that none
/// has: the rows in order, and within each the entries in the order in which they stand.
fn stated(lines: &Lines, table: &Table, passed: &[u64]) -> Stated {
    let mut all: Vec<Entry> = entries(&table.words);
    all.sort_by_key(|entry| entry.row);
    let placed = all.iter().copied().filter(|entry| entry.place <= 63);
    let placed: Vec<Entry> = placed.collect();
    Stated {
        delay: table.delay,
        passed: passed.to_vec(),
        frames: frames_given(lines, &placed),
        entries: all,
    }
}

/// The planner's table and a serial one, and the plan's pass-over counts.
fn sound_tables(lines: &Lines, random: &mut Random) -> (Vec<Table>, Vec<u64>) {
    let planned = planned(lines);
    let table = Table {
        words: planned.words,
        delay: planned.delay,
    };
    let tables = vec![table, serial(lines, random)];
    (tables, planned.passed_by_node)
}

#[test]
fn damaged_tables() {
    let mut all = Vec::new();
    for_plans(51, &PLANS, |lines, random| {
        let (tables, passed) = sound_tables(lines, random);
        for table in &tables {
            for number in 13..=20 {
                for _ in 0..3 {
                    let Some(table) = damaged(lines, table, number, random) else {
                        continue;
                    };
                    let mut stated = stated(lines, &table, &passed);
                    if random.percent(30) {
                        random.shuffle(&mut stated.entries);
                        stated.entries.sort_by_key(|entry| entry.row);
                    }
                    all.extend(refused(lines, print_stated(lines, &stated), &passed));
                }
            }
        }
    });
    let counts = compare_all("tables", &all);
    let fewest = NUMBERS.map(|number| counts[usize::from(number)]);
    assert!(fewest[..8].iter().all(|&count| count > 30), "{counts:?}");
}

/// Frame lines left out, doubled, exchanged or changed, and other counts on the passed lines.
#[test]
fn damaged_frames() {
    let mut all = Vec::new();
    for_plans(52, &PLANS, |lines, random| {
        let (tables, passed) = sound_tables(lines, random);
        for table in &tables {
            for change in 0..9 {
                let mut stated = stated(lines, table, &passed);
                let frames = &mut stated.frames;
                let place = random.index(frames.len().max(1));
                match change {
                    0 => {
                        let node = random.index(passed.len());
                        stated.passed[node] += random.between(1, 9);
                    }
                    1 => {
                        let counts = wrong_counts(lines, &stated, random);
                        stated.passed = random.one_of(&counts).1;
                    }
                    2 => frames.clear(),
                    _ if frames.is_empty() => continue,
                    3 => drop(frames.remove(place)),
                    4 => frames.insert(place, frames[place]),
                    5 => frames.swap(0, place),
                    6 => frames[place].tick += 1,
                    7 => frames[place].node += 1,
                    _ => frames[place].bytes = random.between(0, 70) as u32,
                }
                all.extend(refused(lines, print_stated(lines, &stated), &passed));
            }
        }
    });
    let counts = compare_all("frames", &all);
    assert!(counts[22] > 300, "{counts:?}");
}

/// A listing with bytes replaced, inserted or left out, with lines moved, doubled or left out, with
/// other figures, or cut.
fn damaged_text(listing: &[u8], random: &mut Random) -> Vec<u8> {
    let mut text = listing.to_vec();
    let place = random.index(text.len());
    let mut lines: Vec<&[u8]> = listing.split_inclusive(|&b| b == b'\n').collect();
    let (one, other) = (random.index(lines.len()), random.index(lines.len()));
    match random.below(9) {
        0 => text[place] = random.below(256) as u8,
        1 => text[place] = random.one_of(b"0129() \ntfaspe"),
        2 => text.insert(place, random.one_of(b"0129() \ntfaspe")),
        3 => drop(text.remove(place)),
        4 => text.truncate(place),
        5 => lines.swap(one, other),
        6 => lines.insert(other, lines[one]),
        7 => drop(lines.remove(one)),
        _ => {
            let digits = (0..text.len()).filter(|&p| text[p].is_ascii_digit());
            let digits: Vec<usize> = digits.collect();
            text[random.one_of(&digits)] = random.one_of(b"0123456789");
        }
    }
    if text == listing {
        lines.concat()
    } else {
        text
    }
}

#[test]
fn damaged_texts() {
    let mut all = Vec::new();
    for_plans(53, &PLANS, |lines, random| {
        let (tables, passed) = sound_tables(lines, random);
        for table in &tables {
            let text = print_stated(lines, &stated(lines, table, &passed));
            for _ in 0..12 {
                all.extend(refused(lines, damaged_text(&text, random), &passed));
            }
        }
    });
    let counts = compare_all("texts", &all);
    assert!(counts[21] > 1_000, "{counts:?}");
}

/// Passed lines that are not of the form.
#[test]
fn damaged_passed_lines() {
    let mut all = Vec::new();
    for_plans(55, &PLANS, |lines, random| {
        let (tables, passed) = sound_tables(lines, random);
        for table in &tables {
            let stated = stated(lines, table, &passed);
            for damaged in wrong_passed_lines(lines, &stated, random) {
                all.extend(refused(lines, damaged.text, &passed));
            }
        }
    });
    let counts = compare_all("passed", &all);
    assert!(counts[21] > 2_000, "{counts:?}");
}

/// The listings of S that are refused by hand.
fn refused_of_s() -> Vec<Refused> {
    let all = behind_s().into_iter();
    all.filter_map(|(_, listing, _)| refused(&s(), listing.into_bytes(), &[0, 0]))
        .collect()
}

#[test]
fn listings_of_s() {
    let counts = compare_all("s", &refused_of_s());
    assert!(counts[21] > 20, "{counts:?}");
}

/// S's listing cut at every second place, and with a byte more at each.
#[test]
fn s_damaged_everywhere() {
    let mut all = Vec::new();
    for place in 0..S_LISTING.len() {
        let (before, after) = S_LISTING.as_bytes().split_at(place);
        let more = [b"0", b"1", b" ", b")", b"\n", b"\0", b"9"][place % 7];
        all.extend(refused(&s(), [before, more, after].concat(), &[0, 0]));
        if place % 2 == 0 {
            all.extend(refused(&s(), before.to_vec(), &[0, 0]));
        }
    }
    let counts = compare_all("everywhere", &all);
    assert!(counts[21] > 500, "{counts:?}");
}

/// A plan with as many entries and frames as a listing may have.
fn largest(random: &mut Random) -> (Lines, Stated, Vec<u64>) {
    let lines = with_frames(2_000, 3_000, random);
    let planned = planned(&lines);
    let table = Table {
        words: planned.words,
        delay: planned.delay,
    };
    let stated = stated(&lines, &table, &planned.passed_by_node);
    assert_eq!((stated.entries.len(), stated.frames.len()), (3_000, 2_000));
    (lines, stated, planned.passed_by_node)
}

/// Listings of the largest size, and of one entry or frame more, within some seconds each.
#[test]
fn largest_listings() {
    let mut random = Random::new(54);
    let (lines, whole, passed) = largest(&mut random);
    let mut all = Vec::new();
    let mut add = |stated: &Stated| {
        all.extend(refused(&lines, print_stated(&lines, stated), &passed));
    };
    let changed = |change: &dyn Fn(&mut Stated)| {
        let mut stated = whole.clone();
        change(&mut stated);
        stated
    };
    add(&changed(&|s| s.entries.insert(0, s.entries[0])));
    add(&changed(&|s| s.entries.push(s.entries[2_999])));
    add(&changed(&|s| s.frames.push(s.frames[1_999])));
    add(&changed(&|s| s.frames.swap(1_998, 1_999)));
    add(&changed(&|s| s.passed[1] += 1));
    add(&changed(&|s| s.delay += 1));
    add(&changed(&|s| s.entries[2_999].place = 64));
    add(&changed(&|s| s.entries.truncate(2_999)));
    add(&changed(&|s| s.entries[2_000].tick -= 1));
    let last = changed(&|s| s.entries[2_999].tick += 1);
    add(&last);
    let counts = compare_all("largest", &all);
    assert_eq!(all.len(), 10, "{counts:?}");
    assert!(counts[21] == 3 && counts[22] == 2, "{counts:?}");
}

/// Every awk that is here says the same of a listing.
#[test]
fn every_awk_says_the_same() {
    let all = refused_of_s();
    for number in NUMBERS {
        let chosen: Vec<&Refused> = all.iter().filter(|r| r.place.number == number).collect();
        let said = told_by(&["awk"], "awks", number, &chosen);
        for awk in awks() {
            assert_eq!(told_by(&awk, "awks", number, &chosen), said, "{awk:?}");
        }
    }
}

/// Nothing is said of another refusal, of a listing that is not of the form except for 21, and of files
/// that are not there.
#[test]
fn otherwise_nothing_is_said() {
    let folder = folder("otherwise");
    for (name, text) in [
        ("plan", suite::S),
        ("whole", S_LISTING),
        ("odd", "(delay 34)\n"),
    ] {
        std::fs::write(folder.join(name), text).expect("a file");
    }
    let nothing_is_said = |number: u8, names: [&str; 2]| {
        let output = run(&["awk"], &folder, number, &names.map(str::to_string));
        assert!(output.stdout.is_empty(), "{number} {names:?}: {output:?}");
    };
    for number in 0..=30 {
        if !(13..=22).contains(&number) {
            nothing_is_said(number, ["plan", "whole"]);
        }
        if number != 21 {
            nothing_is_said(number, ["plan", "odd"]);
        }
        nothing_is_said(number, ["plan", "missing"]);
        nothing_is_said(number, ["missing", "whole"]);
        if number != 22 {
            nothing_is_said(number, ["plan", "whole"]);
        }
    }
}

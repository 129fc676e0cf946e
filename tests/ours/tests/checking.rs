//! Compares the checker and the row query of the archive with the reference: the same texts, tables
//! and stated delays to both, and equal answers. Without the archive there are no tests here; the
//! gate builds it first.
//!
//! The variable `RISCADRU_PLANS` sets how many tables are compared (see `ours::comparing`).
#![cfg(have_archive)]

use generate::any_tables::{changed, damaged_twice, far_ticks, random_entries, random_words};
use generate::broken::{self, broken, broken_twice};
use generate::tables::{damaged, serial, shuffled, sound_variants, Table, NUMBERS};
use generate::texts::damaged_texts;
use generate::{plan, Kind, Random, KINDS};
use ours::archive::{check_table, plan_table, refused, row_query, ACCEPTED};
use ours::comparing::{bytes, count, plans, random_bytes, Shares};
use reference::lookup::little_endian_words;
use reference::table::{entries, words, Entry, ENTRY_WORDS};
use reference::{check, print, read, Lines, When};
use suite::cases::{self, packing};
use suite::heads::{s_with_head, CHANGES_WITH_HEAD_1};
use suite::{bus, for_plans, planned, s, With, FEW, S};

/// Of a thousand of the plans that the tests go by, of how many tables are checked.
const SHARES: Shares = [
    (Kind::Tiny, 18),
    (Kind::DenseBus, 6),
    (Kind::ManyConditions, 4),
    (Kind::NestedAny, 6),
    (Kind::Largest, 1),
    (Kind::LongestRound, 5),
    (Kind::ShortestRound, 5),
    (Kind::UnevenBus, 3),
    (Kind::LongGaps, 4),
];

/// The most entries of which each can be met in a combination of its own, once for each row: 64
/// combinations and 198 rows.
const MOST_ENTRIES: usize = 64 * (64 + 128 + 6);

/// The latest end: a process of 100,000 ticks that starts at the last tick.
const LATEST_END: u64 = 999_999_999 + 100_000;

/// How often the checker gave each answer: acceptance at place 0, refusal N at place N.
struct Tally([u64; 21]);

impl Tally {
    fn new() -> Self {
        Tally([0; 21])
    }

    fn total(&self) -> u64 {
        self.0.iter().sum()
    }

    /// Asserts that each of these answers was given at least so often.
    fn assert_each(&self, answers: impl IntoIterator<Item = usize>, least: u64) {
        let rare: Vec<usize> = answers.into_iter().filter(|&n| self.0[n] < least).collect();
        println!("answers: {:?}", self.0);
        assert!(rare.is_empty(), "fewer than {least} of {rare:?}");
    }
}

/// A plan text and what the reference reads in it.
struct Checked {
    text: Vec<u8>,
    read: Result<Lines, u8>,
}

impl Checked {
    fn of_text(text: Vec<u8>) -> Self {
        let read = read(&text);
        Checked { text, read }
    }

    fn of_plan(lines: &Lines) -> Self {
        Checked::of_text(print(lines))
    }

    /// What the reference answers: acceptance as 0, or the refusal's number.
    fn wanted(&self, table: &[u8], delay: u64) -> u8 {
        match &self.read {
            Err(number) => *number,
            Ok(lines) => check(lines, &little_endian_words(table), delay).unwrap_or(0),
        }
    }

    /// Checks a table's bytes by both.
    fn same_bytes(&self, table: &[u8], delay: u64, tally: &mut Tally) {
        let wanted = self.wanted(table, delay);
        let answer = match wanted {
            0 => ACCEPTED,
            number => refused(number),
        };
        let ours = check_table(&self.text, table, delay);
        assert_eq!(
            ours,
            answer,
            "and not {wanted} for delay {delay}, table {:?} and {} stray bytes, text:\n{}",
            little_endian_words(table),
            table.len() % 4,
            String::from_utf8_lossy(&self.text)
        );
        tally.0[usize::from(wanted)] += 1;
    }

    /// Checks a table's words by both, often with stray bytes behind them.
    fn same(&self, words: &[u32], delay: u64, random: &mut Random, tally: &mut Tally) {
        let mut table = bytes(words);
        if random.percent(50) {
            let stray = random.between(1, 3) as usize;
            table.extend(random_bytes(stray, random));
        }
        self.same_bytes(&table, delay, tally);
    }

    /// Checks a table that no sentence but 20 is to apply to, with delays about the right one.
    fn same_delays(&self, table: &Table, random: &mut Random, tally: &mut Tally) {
        self.same(&table.words, table.delay, random, tally);
        for _ in 0..2 {
            let delay = random_delay(table.delay, random);
            self.same(&table.words, delay, random, tally);
        }
    }
}

/// A stated delay: about the right one, with its low 32 bits, of ten digits, or any.
fn random_delay(right: u64, random: &mut Random) -> u64 {
    let high = random.between(1, u32::MAX.into()) << 32;
    let ten_digits = random.between(1_000_000_000, 9_999_999_999);
    let near = random.between(right.saturating_sub(3), right + 3);
    let any = random.bits();
    random.one_of(&[
        right - 1,
        right + 1,
        near,
        0,
        right + (1 << 32),
        right | high,
        ten_digits,
        LATEST_END,
        LATEST_END + 1,
        u64::MAX,
        any,
    ])
}

/// The reference's table.
fn reference_table(lines: &Lines) -> Table {
    let planned = planned(lines);
    Table {
        words: planned.words,
        delay: planned.delay,
    }
}

/// The table that the archive's own planner writes.
fn archive_table(text: &[u8]) -> Table {
    let mut table = vec![0; MOST_ENTRIES * ENTRY_WORDS * 4];
    let mut frames = vec![0; 1 << 20];
    let mut totals = [0; 16];
    let written = plan_table(text, &mut table, &mut frames, &mut totals);
    let totals = little_endian_words(&totals);
    Table {
        words: little_endian_words(&table[..written as usize]),
        delay: totals[2].into(),
    }
}

/// Checks tables of one plan, of each kind that there is.
fn same_tables(lines: &Lines, by_archive: bool, random: &mut Random, tally: &mut Tally) {
    let checked = Checked::of_plan(lines);
    let planned = match by_archive {
        true => archive_table(&checked.text),
        false => reference_table(lines),
    };
    let mut sound = sound_variants(lines, &planned, random);
    sound.push(planned);
    for table in &sound {
        assert_eq!(checked.wanted(&bytes(&table.words), table.delay), 0);
        checked.same_delays(table, random, tally);
    }
    for number in NUMBERS.into_iter().chain(NUMBERS) {
        if let Some(table) = damaged(lines, &random.one_of(&sound), number, random) {
            checked.same(&table.words, table.delay, random, tally);
        }
    }
    for _ in 0..12 {
        let second = random.between(13, 20) as u8;
        let first = random.between(12, u64::from(second) - 1) as u8;
        let table = random.one_of(&sound);
        if let Some(table) = damaged_twice(lines, &table, first, second, random) {
            checked.same(&table.words, table.delay, random, tally);
        }
    }
    for _ in 0..4 {
        let table = random.one_of(&sound);
        let nearly = changed(&table.words, random);
        checked.same(&nearly, table.delay, random, tally);
        let far = far_ticks(&table.words, random);
        let delay = random.between(LATEST_END - 100_003, LATEST_END + 3);
        checked.same(&far, delay, random, tally);
        let drawn = random_entries(lines, random);
        checked.same(&drawn, table.delay, random, tally);
    }
    let any = random_words(200, random);
    checked.same(&any, random.bits(), random, tally);
    let table = random.one_of(&sound);
    let all = bytes(&table.words);
    let cut = random.index(all.len() + 1);
    checked.same_bytes(&all[..cut], table.delay, tally);
    checked.same(&[], table.delay, random, tally);
}

#[test]
fn tables_of_random_plans() {
    let mut tally = Tally::new();
    for kind in KINDS {
        for number in 0..count(&SHARES, kind) {
            let mut random = Random::new((kind as u64 + 1) << 48 | 1 << 40 | number);
            let lines = plan(kind, &mut random);
            same_tables(&lines, number % 2 == 0, &mut random, &mut tally);
        }
    }
    tally.assert_each([0].into_iter().chain(12..=20), plans() / 28);
    let total = tally.total();
    println!("{total} tables");
    assert!(total >= plans() * 50 / 21, "{total} tables");
}

#[test]
fn tables_of_every_case() {
    let mut tally = Tally::new();
    for (name, lines) in cases::all() {
        println!("{name}");
        let mut random = Random::new(51);
        if reference::refuse_plan(&lines).is_none() {
            same_tables(&lines, true, &mut random, &mut tally);
        }
    }
    tally.assert_each([0].into_iter().chain(12..=20), 10);
}

/// "Planner, checker, lookup and plan writer retry 2 to 9 on the plan they are handed", before
/// anything is said of the table.
#[test]
fn plans_that_are_refused() {
    let mut tally = Tally::new();
    for_plans(52, &FEW, |lines, random| {
        let table = reference_table(lines);
        let number = random.one_of(&NUMBERS);
        let mut tables = vec![
            table.clone(),
            Table {
                words: Vec::new(),
                ..table
            },
        ];
        tables.extend(damaged(lines, &tables[0], number, random));
        let mut texts: Vec<Vec<u8>> = damaged_texts(lines, random)
            .into_iter()
            .map(|damaged| damaged.text)
            .collect();
        for first in broken::NUMBERS {
            texts.extend(broken(lines, first, random).map(|lines| print(&lines)));
            let second = random.between(first.into(), 9) as u8;
            let twice = broken_twice(lines, first, second, random);
            texts.extend(twice.map(|lines| print(&lines)));
        }
        for text in texts {
            let table = random.one_of(&tables);
            Checked::of_text(text).same(&table.words, table.delay, random, &mut tally);
        }
    });
    tally.assert_each(1..=9, 500);
    tally.assert_each([0, 12, 13, 14], 10);
}

/// The answer to a table of S in which one entry is changed, with the delay of S.
fn check_s(number: usize, change: fn(&mut Entry)) -> u64 {
    let mut all = entries(&planned(&s()).words);
    change(&mut all[number]);
    check_table(S.as_bytes(), &bytes(&words(&all)), 34)
}

/// "In S's table: start 2 at 11: 15; start 3 true at 31: 16; send 2 at 27: 17; start 2 with an
/// empty column: 14; delay 33: 20. [...] No words at all: 14."
#[test]
fn the_changed_tables_of_s() {
    const START_2: usize = 2;
    const START_3_TRUE: usize = 4;
    const SEND_2: usize = 6;
    assert_eq!(check_s(0, |_| ()), ACCEPTED);
    assert_eq!(check_s(START_2, |e| e.tick = 11), refused(15));
    assert_eq!(check_s(START_3_TRUE, |e| e.tick = 31), refused(16));
    assert_eq!(check_s(SEND_2, |e| e.tick = 27), refused(17));
    let no_column = |e: &mut Entry| (e.known, e.values) = (0, 0);
    assert_eq!(check_s(START_2, no_column), refused(14));
    let table = bytes(&planned(&s()).words);
    assert_eq!(check_table(S.as_bytes(), &table, 33), refused(20));
    assert_eq!(check_table(S.as_bytes(), &[], 34), refused(14));
}

/// The same with a head: arrivals and beginnings are those of the longer slots, places those of the
/// data.
#[test]
fn the_changed_tables_of_s_with_head_1() {
    let text = s_with_head(1);
    let table = planned(&s().head(1)).words;
    let check = |words: &[u32], delay| check_table(text.as_bytes(), &bytes(words), delay);
    assert_eq!(check(&table, 50), ACCEPTED);
    assert_eq!(check(&table, 49), refused(20));
    for (number, (entry, change, refusal)) in CHANGES_WITH_HEAD_1.into_iter().enumerate() {
        let mut all = entries(&table);
        change(&mut all[entry]);
        let wanted = match refusal {
            0 => ACCEPTED,
            refusal => refused(refusal),
        };
        assert_eq!(check(&words(&all), 50), wanted, "change {number}");
    }
}

/// "place 2 for the third: 19." With a head as well, and so is a place behind the slot's data.
#[test]
fn the_packing_case_with_another_place_for_the_third() {
    for (head, delay) in [(0, 16), (1, 21), (16, 96)] {
        let lines = packing().head(head);
        let text = print(&lines);
        let mut all = entries(&planned(&lines).words);
        assert_eq!(check_table(&text, &bytes(&words(&all)), delay), ACCEPTED);
        let third = all.iter().position(|e| e.row == 6).expect("its row");
        for place in [0, 2, 4, 5, 19, 63] {
            all[third].place = place;
            let answer = check_table(&text, &bytes(&words(&all)), delay);
            assert_eq!(answer, refused(19), "head {head}, place {place}");
        }
    }
}

/// "Processes of 1 and 5 ticks on one node: [...] both at 0: 18."
#[test]
fn two_processes_at_0() {
    let text = print(&cases::one_and_five_ticks());
    let both_at_0 = bytes(&[0, 0, 0, 0, 0, 1, 0, 0, 0, 0]);
    assert_eq!(check_table(&text, &both_at_0, 5), refused(18));
}

/// "A local edge delivers at the tick it would be ready": a conditional one not before its value is
/// known, also where the column of the process that waits for it does not name the condition.
#[test]
fn a_start_before_the_value_of_a_local_edge() {
    let lines = bus(1, &[(0, 2)]).all(0, 1).all(0, 1).any(0, 1).decides(0);
    let lines = lines.edge(0, 2, 1, When::True(0));
    let text = print(&lines.edge(1, 2, 1, When::Always));
    let with_start = |tick: u32| {
        #[rustfmt::skip]
        let table = [
            0, 0, 0, 0, 0,
            1, 0, 0, 1, 0,
            2, 0, 0, tick, 0,
            5, 0, 0, 2, 0,
        ];
        check_table(&text, &bytes(&table), u64::from(tick) + 1)
    };
    assert_eq!(with_start(4), ACCEPTED);
    assert_eq!(with_start(3), refused(16));
}

/// A delay of ten digits can be right, and is compared with all its bits.
#[test]
fn delays_up_to_the_latest_end() {
    let mut tally = Tally::new();
    for ticks in [1, 7, 99_999, 100_000] {
        let checked = Checked::of_plan(&bus(1, &[(0, 1)]).all(0, ticks));
        for tick in [0, 1, 999_999_998, 999_999_999, 1_000_000_000] {
            let table = bytes(&[0, 0, 0, tick, 0]);
            let right = u64::from(tick) + ticks;
            for high in [0, 1, 2, 1 << 31, u64::from(u32::MAX)] {
                for delay in [right - 1, right, right + 1] {
                    checked.same_bytes(&table, delay | high << 32, &mut tally);
                }
            }
        }
    }
    let longest = print(&bus(1, &[(0, 1)]).all(0, 100_000));
    let last = bytes(&[0, 0, 0, 999_999_999, 0]);
    assert_eq!(check_table(&longest, &last, LATEST_END), ACCEPTED);
    tally.assert_each([0, 13, 20], 10);
}

/// With more entries than there are rows in all combinations together, some row is met twice.
#[test]
fn more_entries_than_can_be_met() {
    let mut tally = Tally::new();
    let mut random = Random::new(53);
    let largest = plan(Kind::Largest, &mut random);
    for lines in [s(), largest, full_columns()] {
        let checked = Checked::of_plan(&lines);
        let planned = reference_table(&lines);
        let wrong = Entry {
            tick: 1_000_000_000,
            ..entries(&planned.words)[0]
        };
        for count in [
            MOST_ENTRIES - 1,
            MOST_ENTRIES,
            MOST_ENTRIES + 1,
            13_000,
            20_000,
        ] {
            let cycle = planned.words.iter().copied().cycle();
            let well_formed: Vec<u32> = cycle.take(count * ENTRY_WORDS).collect();
            checked.same(&well_formed, planned.delay, &mut random, &mut tally);
            let ill_formed = [&well_formed[..], &wrong.words()].concat();
            checked.same(&ill_formed, planned.delay, &mut random, &mut tally);
            for stray in 1..ENTRY_WORDS {
                let with_stray = &ill_formed[..ill_formed.len() - stray];
                checked.same(with_stray, planned.delay, &mut random, &mut tally);
            }
        }
    }
    tally.assert_each([12, 13, 14], 15);
}

/// A plan in which all rows but those of the first deciders come after all values are known.
fn full_columns() -> Lines {
    let mut lines = bus(1, &[(0, 64), (1, 64)]);
    for process in 0..6 {
        lines = lines.all(0, 1).decides(process);
    }
    for process in 6..64 {
        lines = lines.all(process % 2, 1);
    }
    let pairs = (6..64).flat_map(|from| (from + 1..64).step_by(2).map(move |to| (from, to)));
    for (from, to) in pairs.take(128) {
        lines = lines.edge(from, to, 1, When::Always);
    }
    lines
}

/// Sound tables of nearly as many entries as can be met.
#[test]
fn sound_tables_with_nearly_every_entry() {
    let mut tally = Tally::new();
    let mut random = Random::new(54);
    let lines = full_columns();
    let checked = Checked::of_plan(&lines);
    let table = serial(&lines, &mut random);
    assert_eq!(table.words.len() / ENTRY_WORDS, 126 + 186 * 64);
    for table in [shuffled(&table, &mut random), table] {
        checked.same_delays(&table, &mut random, &mut tally);
        let numbers = [12, 13, 14, 15, 16, 17, 19, 20];
        for number in numbers.into_iter().cycle().take(24) {
            if let Some(table) = damaged(&lines, &table, number, &mut random) {
                checked.same(&table.words, table.delay, &mut random, &mut tally);
            }
        }
    }
    tally.assert_each([0, 12, 13, 14, 20], 2);
}

/// Asks for the part of a table that holds a row, and says whether it holds any entry.
fn same_part(table: &[u8], row: u32) -> bool {
    let wanted = reference::row_query(&little_endian_words(table), row);
    let wanted = 4 * wanted.start as u64..4 * wanted.end as u64;
    let ours = row_query(table, row);
    assert_eq!(
        ours,
        wanted,
        "row {row} of {:?}",
        little_endian_words(table)
    );
    !ours.is_empty()
}

#[test]
fn rows_of_tables() {
    let (mut found, mut empty) = (0, 0);
    for_plans(55, &FEW, |lines, random| {
        let planned = planned(lines).words;
        let mut all = entries(&planned);
        random.shuffle(&mut all);
        let tables = [
            changed(&planned, random),
            random_entries(lines, random),
            random_words(100, random),
            words(&all),
            planned,
            Vec::new(),
        ];
        for words in tables {
            let mut table = bytes(&words);
            let stray = random.index(20);
            table.extend(random_bytes(stray, random));
            let rows = lines.rows() as u32;
            let any = random.bits() as u32;
            let last = words.chunks(ENTRY_WORDS).last().map_or(0, |entry| entry[0]);
            for row in (0..rows + 2).chain([last, any, 1 << 31, u32::MAX]) {
                match same_part(&table, row) {
                    true => found += 1,
                    false => empty += 1,
                }
            }
        }
    });
    println!("{found} rows found, {empty} not");
    assert!(found > 20_000 && empty > 20_000, "{found} {empty}");
}

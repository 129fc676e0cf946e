//! Compares the kernel lookup of the archive with the reference: the same texts, tables and
//! questions to both, and equal answers. Without the archive there are no tests here; the gate
//! builds it first.
//!
//! The variable `RISCADRU_PLANS` sets how many questions are compared (see `ours::comparing`).
#![cfg(have_archive)]

use generate::any_tables::{changed, far_ticks, random_entries, random_words};
use generate::broken::{self, broken, broken_twice};
use generate::tables::{damaged, serial, shuffled, Table, NUMBERS};
use generate::texts::damaged_texts;
use generate::{plan, Kind, Random, KINDS};
use ours::archive::{lookup, Question, NONE};
use ours::comparing::{as_asked, bytes, count, plans, random_bytes, Shares};
use reference::lookup::c_lookup;
use reference::table::{entries, row, row_node, Entry};
use reference::{print, Lines};
use suite::cases::too_many_entries;
use suite::heads::{s_with_head, s_with_plan_line, WRONG_PLAN_LINES};
use suite::{for_plans, planned, s, With, FEW, S};

/// Of a thousand of the plans that the tests go by, for how many questions are asked.
const SHARES: Shares = [
    (Kind::Tiny, 15),
    (Kind::DenseBus, 5),
    (Kind::ManyConditions, 5),
    (Kind::NestedAny, 5),
    (Kind::Largest, 1),
    (Kind::LongestRound, 5),
    (Kind::ShortestRound, 5),
    (Kind::UnevenBus, 3),
    (Kind::LongGaps, 4),
];

/// How many questions are asked of each table.
const QUESTIONS: usize = 12;

/// How often the lookup gave each answer.
#[derive(Debug, Default)]
struct Tally {
    /// The entry that was asked to begin at.
    first: u64,
    /// A later entry.
    later: u64,
    /// No entry.
    none: u64,
    /// Refusal N at place N.
    refused: [u64; 10],
}

impl Tally {
    fn count(&mut self, answer: u64, asked: Question) {
        if answer == NONE {
            self.none += 1;
        } else if answer > u64::MAX - 10 {
            self.refused[(u64::MAX - answer) as usize] += 1;
        } else if answer == asked.first as u64 {
            self.first += 1;
        } else {
            self.later += 1;
        }
    }

    fn total(&self) -> u64 {
        self.first + self.later + self.none + self.refused.iter().sum::<u64>()
    }
}

/// Asks both, and gives the answer.
fn same(text: &[u8], table: &[u8], asked: Question, tally: &mut Tally) -> u64 {
    let wanted = c_lookup(text, table, as_asked(asked));
    let ours = lookup(text, table, asked);
    assert_eq!(
        ours,
        wanted,
        "{asked:?}, {} bytes of table {:?}, text:\n{}",
        table.len(),
        reference::lookup::little_endian_words(table),
        String::from_utf8_lossy(text)
    );
    tally.count(ours, asked);
    ours
}

/// A question about an entry of a table: one that it answers, or one that differs from it in any
/// way.
fn about(lines: &Lines, all: &[Entry], random: &mut Random) -> Question {
    let number = random.index(all.len());
    let entry = all[number];
    let any = random.bits() as u32;
    let of_row = row(lines, entry.row).map(|row| row_node(lines, row) as u32);
    let tick = random.one_of(&[entry.tick.wrapping_add(1), any, 0, u32::MAX]);
    let nodes = lines.slots.len() as u32;
    let node = random.one_of(&[any % nodes, nodes, any, u32::MAX]);
    let mut either = |right, wrong, percent| {
        if random.percent(percent) {
            wrong
        } else {
            right
        }
    };
    let node = either(of_row.unwrap_or(node), node, 10);
    let tick = either(entry.tick, tick, 10);
    let more = random.bits() as u32;
    let all_heard = (1 << lines.conditions.len()) - 1;
    let heard = random.one_of(&[entry.known, entry.known | more, all_heard, 0, more]);
    let outside = random.bits() as u32 & !entry.known;
    let values = random.one_of(&[
        entry.values,
        entry.values | outside,
        entry.values & entry.known | outside,
        0,
        any,
    ]);
    let before = random.index(number + 1);
    let far = random.bits() as usize;
    let high = number | 1 << 32;
    let past = [number + 1, all.len(), usize::MAX, far, high];
    let past = random.one_of(&past);
    Question {
        node,
        tick,
        heard,
        values,
        first: random.one_of(&[0, 0, number, number, before, past]),
    }
}

/// Asks a table some questions.
fn ask(lines: &Lines, text: &[u8], words: &[u32], random: &mut Random, tally: &mut Tally) {
    let mut table = bytes(words);
    let stray = random.index(20);
    table.extend(random_bytes(stray, random));
    let all = entries(words);
    for _ in 0..QUESTIONS {
        let asked = if all.is_empty() || random.percent(10) {
            any_question(random)
        } else {
            about(lines, &all, random)
        };
        same(text, &table, asked, tally);
    }
}

/// A question with numbers of any kind.
fn any_question(random: &mut Random) -> Question {
    let mut word = || {
        let bits = random.bits() as u32;
        random.one_of(&[bits, bits % 8, 0, u32::MAX])
    };
    Question {
        node: word(),
        tick: word(),
        heard: word(),
        values: word(),
        first: word() as usize,
    }
}

/// Tables of a plan, sound and damaged, and tables of any kind.
fn tables(lines: &Lines, random: &mut Random) -> Vec<Vec<u32>> {
    let planned = planned(lines);
    let sound = Table {
        words: planned.words,
        delay: planned.delay,
    };
    let number = random.one_of(&NUMBERS);
    let mut tables = vec![
        changed(&sound.words, random),
        far_ticks(&sound.words, random),
        random_entries(lines, random),
        random_words(100, random),
        shuffled(&sound, random).words,
        serial(lines, random).words,
        Vec::new(),
    ];
    tables.extend(damaged(lines, &sound, number, random).map(|table| table.words));
    tables.push(sound.words);
    tables
}

#[test]
fn questions_about_random_plans() {
    let mut tally = Tally::default();
    for kind in KINDS {
        for number in 0..count(&SHARES, kind) {
            let mut random = Random::new((kind as u64 + 1) << 48 | 1 << 41 | number);
            let lines = plan(kind, &mut random);
            let text = print(&lines);
            for words in tables(&lines, &mut random) {
                ask(&lines, &text, &words, &mut random, &mut tally);
            }
        }
    }
    println!("{} questions: {tally:?}", tally.total());
    assert!(tally.total() >= plans() * 50 / 21);
    let least = plans() / 4;
    assert!(tally.first >= least && tally.later >= least && tally.none >= least);
}

/// Every plan's refusal comes before anything is said of table or node.
#[test]
fn questions_about_plans_that_are_refused() {
    let mut tally = Tally::default();
    for_plans(61, &FEW, |lines, random| {
        let mut texts: Vec<Vec<u8>> = damaged_texts(lines, random)
            .into_iter()
            .map(|damaged| damaged.text)
            .collect();
        for first in broken::NUMBERS {
            texts.extend(broken(lines, first, random).map(|lines| print(&lines)));
            let second = random.between(first.into(), 9) as u8;
            let twice = broken_twice(lines, first, second, random);
            texts.extend(twice.map(|lines| print(&lines)));
        }
        let table = bytes(&planned(lines).words);
        let all = entries(&planned(lines).words);
        for text in texts {
            let asked = match random.percent(50) {
                true => about(lines, &all, random),
                false => any_question(random),
            };
            same(&text, &table, asked, &mut tally);
        }
    });
    println!("{} questions: {tally:?}", tally.total());
    assert!(tally.refused[1..].iter().all(|&count| count >= 500));
}

/// Every question about S with a head, with a node, a tick, heard bits and values at most one past
/// what S has.
fn every_question(head: u64, last_tick: u32) {
    let mut tally = Tally::default();
    let text = s_with_head(head);
    let table = bytes(&planned(&s().head(head)).words);
    for node in 0..=2 {
        for tick in 0..=last_tick {
            for bits in 0..16 {
                for first in 0..=9 {
                    let (heard, values) = (bits % 4, bits / 4);
                    let asked = Question {
                        node,
                        tick,
                        heard,
                        values,
                        first,
                    };
                    same(text.as_bytes(), &table, asked, &mut tally);
                }
            }
        }
    }
    println!("{} questions: {tally:?}", tally.total());
    assert!(tally.first > 0 && tally.later > 0 && tally.none > 0);
}

#[test]
fn every_question_about_s() {
    every_question(0, 34);
}

#[test]
fn every_question_about_s_with_head_1() {
    every_question(1, 50);
}

/// The lookup is given the text, and refuses one whose head is missing or above 16.
#[test]
fn questions_about_s_with_a_wrong_head() {
    let mut tally = Tally::default();
    let table = bytes(&planned(&s()).words);
    let mut texts = WRONG_PLAN_LINES.map(s_with_plan_line).to_vec();
    texts.extend([17, 999_999_999].map(s_with_head));
    for text in texts {
        let asked = Question {
            node: 0,
            tick: 0,
            heard: 0,
            values: 0,
            first: 0,
        };
        same(text.as_bytes(), &table, asked, &mut tally);
    }
    let wanted = (WRONG_PLAN_LINES.len() as u64, 2);
    assert_eq!((tally.refused[1], tally.refused[3]), wanted);
}

/// A unit asks from entry 0 on and then one past each answer, and is given every entry of its node
/// whose column is heard, in turn.
#[test]
fn asking_on_one_past_each_answer() {
    let mut tally = Tally::default();
    let mut given = 0;
    for lines in [s(), too_many_entries()] {
        let text = print(&lines);
        let words = planned(&lines).words;
        let table = bytes(&words);
        let mut ticks: Vec<u32> = entries(&words).iter().map(|e| e.tick).collect();
        ticks.sort_unstable();
        ticks.dedup();
        for tick in ticks {
            for node in 0..lines.slots.len() as u32 {
                let mut asked = Question {
                    node,
                    tick,
                    heard: u32::MAX,
                    values: tick,
                    first: 0,
                };
                loop {
                    let answer = same(&text, &table, asked, &mut tally);
                    if answer == NONE {
                        break;
                    }
                    asked.first = answer as usize + 1;
                    given += 1;
                }
            }
        }
    }
    println!("{given} entries given");
    assert!(given > 50, "{given}");
}

/// Stray last bytes and words are ignored, also where they begin as an entry that would be given.
#[test]
fn stray_bytes_of_s() {
    let mut tally = Tally::default();
    let table = bytes(&planned(&s()).words);
    for length in 0..=table.len() {
        for entry in entries(&planned(&s()).words) {
            let asked = Question {
                node: row(&s(), entry.row).map_or(0, |row| row_node(&s(), row) as u32),
                tick: entry.tick,
                heard: 1,
                values: entry.values,
                first: 0,
            };
            same(S.as_bytes(), &table[..length], asked, &mut tally);
        }
    }
    assert!(tally.first > 100 && tally.none > 100);
}

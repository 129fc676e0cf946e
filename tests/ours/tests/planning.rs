//! Compares the planner of the archive with the reference: the same texts to both, and equal
//! answers and equal bytes, those that were lent and some on either side of them. Without the
//! archive there are no tests here; the gate builds it first.
//!
//! The variable `RISCADRU_PLANS` sets how many random plans are compared (see `ours::comparing`).
#![cfg(have_archive)]

use generate::broken::{broken, broken_twice, NUMBERS};
use generate::plans::{plan, Kind};
use generate::random::Random;
use generate::texts::{damaged_texts, of_length};
use ours::archive::{plan_listing, plan_table, refused};
use ours::comparing::{bytes, count, random_bytes, totals, Lent, Shares};
use reference::listing::{refuse_listing, PROGRAM_FRAME_WORDS, PROGRAM_WORDS};
use reference::{list_plan, listing, print, read, Lines, Planned};
use suite::heads::{s_with_head, s_with_plan_line, PACKING_LISTINGS, S_LISTINGS, WRONG_PLAN_LINES};
use suite::{about_the_room, cases, for_plans, planned, With, FEW, S, S_LISTING};

/// Of a thousand random plans, how many are of each kind. They add up to a thousand.
const SHARES: Shares = [
    (Kind::Tiny, 250),
    (Kind::DenseBus, 180),
    (Kind::ManyConditions, 110),
    (Kind::NestedAny, 115),
    (Kind::Largest, 5),
    (Kind::LongestRound, 90),
    (Kind::ShortestRound, 90),
    (Kind::UnevenBus, 60),
    (Kind::LongGaps, 100),
];

/// The bytes of a word.
const WORD: usize = 4;

/// The most bytes that are lent for the totals: one word more than there are with 8 slots.
const MOST_TOTALS: usize = (3 + 8 + 1) * WORD;

/// The bytes that the planning program lends for the table and for the frames.
const PROGRAM_ROOM: (usize, usize) = (PROGRAM_WORDS * WORD, PROGRAM_FRAME_WORDS * WORD);

/// More bytes than any listing of 3,000 entries has.
const LONG: usize = 500_000;

/// What the reference gives for a text.
struct Wanted<'a> {
    text: &'a [u8],
    /// What a plan that is not refused gives, or one of refusals 1 to 9.
    made: Result<Made, u8>,
}

/// What a plan that is not refused gives.
struct Made {
    planned: Planned,
    table: Vec<u8>,
    frames: Vec<u8>,
    totals: Vec<u8>,
    /// The whole listing, also where it is refused.
    listing: Vec<u8>,
}

/// What the reference gives for a text, planned once for all that is lent.
fn wanted(text: &[u8]) -> Wanted<'_> {
    let made = read(text).and_then(|lines| {
        let p = reference::plan(&lines, usize::MAX, usize::MAX)?;
        Ok(Made {
            totals: bytes(&totals(&p)),
            table: bytes(&p.words),
            frames: bytes(&p.frames),
            listing: listing(&lines, p.delay, &p.passed_by_node, &p.words, &p.frames),
            planned: p,
        })
    });
    Wanted { text, made }
}

/// Bytes lent for the table, for the frames and for the totals.
type Lengths = (usize, usize, usize);

impl Wanted<'_> {
    /// What a planner has to answer that is lent so many bytes, and what it has to write.
    fn answer(&self, (table, frames, totals): Lengths) -> (u64, [&[u8]; 3]) {
        match &self.made {
            Err(number) => (refused(*number), [&[]; 3]),
            Ok(wanted) if wanted.table.len() > table => (refused(10), [&[]; 3]),
            Ok(wanted) if wanted.frames.len() > frames => (refused(11), [&[]; 3]),
            Ok(wanted) => {
                let totals = &wanted.totals[..totals.min(wanted.totals.len())];
                let written = [&wanted.table, &wanted.frames, totals];
                (wanted.table.len() as u64, written)
            }
        }
    }

    /// The text and what is lent, for the message of a test that fails.
    fn context(&self, lent: impl std::fmt::Debug) -> String {
        let text = String::from_utf8_lossy(self.text);
        format!("bytes lent: {lent:?}, text:\n{text}")
    }

    /// Plans with so many bytes lent.
    fn same_table(&self, lengths: Lengths, random: &mut Random) {
        let mut table = Lent::new(lengths.0, random);
        let mut frames = Lent::new(lengths.1, random);
        let mut totals = Lent::new(lengths.2, random);
        let (answer, written) = self.answer(lengths);
        let after = [
            table.with(written[0]),
            frames.with(written[1]),
            totals.with(written[2]),
        ];
        let ours = plan_table(self.text, table.lent(), frames.lent(), totals.lent());
        let context = self.context(lengths);
        assert_eq!(ours, answer, "answer; {context}");
        table.assert_is(&after[0], "table", &context);
        frames.assert_is(&after[1], "frames", &context);
        totals.assert_is(&after[2], "totals", &context);
    }

    /// The listing with so many bytes lent, or the first refusal that applies.
    fn listed(&self, length: usize) -> Result<&[u8], u8> {
        let made = self.made.as_ref().map_err(|&number| number)?;
        match refuse_listing(&made.planned, made.listing.len(), length) {
            Some(number) => Err(number),
            None => Ok(&made.listing),
        }
    }

    /// Lists with so many bytes lent, which a refusal leaves as they were.
    fn same_listing(&self, length: usize, random: &mut Random) {
        let mut out = Lent::new(length, random);
        let (answer, after) = match self.listed(length) {
            Err(number) => (refused(number), out.bytes.clone()),
            Ok(listing) => (listing.len() as u64, out.with(listing)),
        };
        let ours = plan_listing(self.text, out.lent());
        let context = self.context(length);
        assert_eq!(ours, answer, "answer with the listing; {context}");
        out.assert_is(&after, "listing", &context);
    }

    /// The bytes to lend for the listing: none, one too few, exactly as many as it takes, more; for
    /// a refused text none, those of the line that the program prints, more.
    fn listing_lengths(&self) -> Vec<usize> {
        match &self.made {
            Err(number) => vec![0, reference::refused(*number).len(), 1_000],
            Ok(made) => {
                let length = made.listing.len();
                vec![0, length - 1, length, length + 9]
            }
        }
    }

    /// The bytes to lend for table and frames: none, words missing for either or both, exactly as
    /// many as it takes, more, and each with stray bytes that are no word.
    fn lengths(&self, random: &mut Random) -> Vec<(usize, usize)> {
        let mut more = || random.between(1, 9) as usize * WORD;
        let Ok(Made { table, frames, .. }) = &self.made else {
            return vec![(0, 0), (WORD + 1, WORD - 1), (400 * more(), 200 * more())];
        };
        let (table, frames) = (table.len(), frames.len());
        let mut all = vec![
            (0, 0),
            (table - WORD, frames),
            (table - 1, frames + 3),
            (table, frames),
            (table + 3, frames + 1),
            (table + more(), frames + more()),
            (table + 5_000 + more() + 2, frames + 3_000 + more() + 3),
        ];
        if frames > 0 {
            all.extend([
                (0, frames),
                (table, 0),
                (table, frames - WORD),
                (table - WORD, frames - WORD),
                (table + 1, frames - 1),
                (table + more(), frames - WORD),
            ]);
        }
        all
    }

    /// Plans with everything lent in each way, the totals at random, and lists.
    fn same(&self, random: &mut Random) {
        for (table, frames) in self.lengths(random) {
            let totals = random.below(MOST_TOTALS as u64 + 1) as usize;
            self.same_table((table, frames, totals), random);
        }
        for length in self.listing_lengths() {
            self.same_listing(length, random);
        }
    }
}

/// Compares the random plans of a kind.
fn same_plans(kind: Kind) {
    for number in 0..count(&SHARES, kind) {
        let mut random = Random::new((kind as u64 + 1) << 48 | number);
        let text = print(&plan(kind, &mut random));
        wanted(&text).same(&mut random);
    }
}

#[test]
fn plans_with_a_dense_bus() {
    same_plans(Kind::DenseBus);
}

#[test]
fn plans_with_many_conditions() {
    same_plans(Kind::ManyConditions);
}

#[test]
fn plans_with_the_longest_round() {
    same_plans(Kind::LongestRound);
}

#[test]
fn plans_with_the_shortest_round() {
    same_plans(Kind::ShortestRound);
}

#[test]
fn plans_with_an_uneven_bus() {
    same_plans(Kind::UnevenBus);
}

#[test]
fn plans_with_long_gaps() {
    same_plans(Kind::LongGaps);
}

#[test]
fn plans_with_nested_branches() {
    same_plans(Kind::NestedAny);
}

#[test]
fn the_largest_plans() {
    same_plans(Kind::Largest);
}

#[test]
fn tiny_plans() {
    same_plans(Kind::Tiny);
}

#[test]
fn the_shares_add_up() {
    let shares: u64 = SHARES.iter().map(|(_, share)| share).sum();
    assert_eq!(shares, 1_000);
    assert!(generate::KINDS.iter().all(|&kind| count(&SHARES, kind) > 0));
}

#[test]
fn every_case_with_totals_of_every_length() {
    for (name, lines) in cases::all() {
        println!("{name}");
        let mut random = Random::new(41);
        let text = print(&lines);
        let wanted = wanted(&text);
        wanted.same(&mut random);
        for (table, frames) in wanted.lengths(&mut random) {
            for totals in 0..=(3 + lines.slots.len() + 1) * WORD {
                wanted.same_table((table, frames, totals), &mut random);
            }
        }
    }
}

/// Asserts that the archive's listing of a text is this one, or a refusal.
fn lists(text: &[u8], listing: Result<&str, u8>) {
    let mut out = vec![0; 1_000];
    let answer = plan_listing(text, &mut out);
    let (wanted, written) = match listing {
        Err(number) => (refused(number), ""),
        Ok(listing) => (listing.len() as u64, listing),
    };
    let shown = String::from_utf8_lossy(text);
    assert_eq!(answer, wanted, "{shown}");
    assert_eq!(&out[..written.len()], written.as_bytes(), "{shown}");
}

/// Document 02: "S with head 0 prints the listing of document 01, and for other heads tables are
/// compared with the planning rules over the longer slots." "Capacity and places still count data
/// only." "Figures above 16 meet refusal 3."
#[test]
fn listings_by_head() {
    for (head, listing) in S_LISTINGS {
        lists(s_with_head(head).as_bytes(), Ok(listing));
    }
    for (head, listing) in PACKING_LISTINGS {
        lists(&print(&cases::packing().head(head)), Ok(listing));
    }
    for head in [17, 32, 256, 65_536, 999_999_999] {
        lists(s_with_head(head).as_bytes(), Err(3));
    }
    lists(&print(&cases::s_with_a_long_message().head(16)), Err(9));
}

/// "A plan text without a part that this or a later point adds is no longer of the form".
#[test]
fn plan_lines_that_are_not_of_the_form() {
    for line in WRONG_PLAN_LINES {
        lists(s_with_plan_line(line).as_bytes(), Err(1));
    }
}

#[test]
fn every_length_for_the_listing_of_s() {
    let mut out = vec![0; S_LISTING.len()];
    assert_eq!(plan_listing(S.as_bytes(), &mut out), out.len() as u64);
    assert_eq!(out, S_LISTING.as_bytes());
    let wanted = wanted(S.as_bytes());
    let mut random = Random::new(42);
    for length in 0..S_LISTING.len() + 70 {
        wanted.same_listing(length, &mut random);
    }
}

/// The listing by itself: what `listed` says of a text planned once is what the reference gives.
#[test]
fn listings_with_the_lent_bytes_at_random() {
    for_plans(48, &FEW, |lines, random| {
        let text = print(lines);
        let wanted = wanted(&text);
        let length = random.below(8_000) as usize;
        assert_eq!(
            wanted.listed(length).map(<[u8]>::to_vec),
            list_plan(&text, length)
        );
        wanted.same_listing(length, random);
    });
}

/// As many entries and frames as the planning program has room for, and one more of either or both:
/// 10 before 11, in the table and in the listing.
#[test]
fn plans_about_the_room_of_the_program() {
    let random = &mut Random::new(49);
    for (lines, refusal) in about_the_room(random) {
        let text = print(&lines);
        let wanted = wanted(&text);
        wanted.same(random);
        let (table, frames) = PROGRAM_ROOM;
        for lengths in [(table, frames), (table - 1, frames), (table, frames - 1)] {
            wanted.same_table((lengths.0, lengths.1, MOST_TOTALS), random);
        }
        let answer = wanted.answer((table, frames, MOST_TOTALS)).0;
        let accepted = bytes(&planned(&lines).words).len() as u64;
        assert_eq!(answer, refusal.map_or(accepted, refused));
        assert_eq!(wanted.listed(LONG).err(), refusal);
        wanted.same_listing(LONG, random);
    }
}

#[test]
fn every_number_of_words_for_s() {
    let wanted = wanted(S.as_bytes());
    let mut random = Random::new(43);
    for table in 0..=42 * WORD {
        for frames in 0..=11 * WORD {
            wanted.same_table((table, frames, MOST_TOTALS), &mut random);
        }
    }
}

#[test]
fn damaged_texts_are_refused_or_planned_alike() {
    for_plans(44, &FEW, |lines, random| {
        for damaged in damaged_texts(lines, random) {
            wanted(&damaged.text).same(random);
        }
    });
}

#[test]
fn broken_plans_are_refused_alike() {
    for_plans(45, &FEW, |lines, random| {
        for (place, &first) in NUMBERS.iter().enumerate() {
            if let Some(lines) = broken(lines, first, random) {
                same_lines(&lines, random);
            }
            for &second in &NUMBERS[place + 1..] {
                if let Some(lines) = broken_twice(lines, first, second, random) {
                    same_lines(&lines, random);
                }
            }
        }
    });
}

fn same_lines(lines: &Lines, random: &mut Random) {
    wanted(&print(lines)).same(random);
}

#[test]
fn texts_about_the_greatest_length() {
    for_plans(46, &FEW.map(|(kind, _)| (kind, 3)), |lines, random| {
        for length in [16_383, 16_384, 16_385, 16_386, 40_000, 200_000] {
            wanted(&of_length(lines, length)).same(random);
        }
    });
}

#[test]
fn texts_of_any_bytes() {
    let mut random = Random::new(47);
    for most in [40, 40, 40, 40, 20_000] {
        for _ in 0..500 {
            let length = random.below(most) as usize;
            let text = random_bytes(length, &mut random);
            wanted(&text).same(&mut random);
        }
    }
}

//! The slot search at its edges, document 02, point 4: "The search gives the first beginning of a node's
//! slot at or after a tick." Processes end one tick before a slot begins, as it begins and one tick after
//! it, in every slot of rounds of many lengths and after few rounds and many. The tick at which an item is
//! sent is worked out here by going from round to round, and listings and answers of the checker are those
//! of the reference. Without the archive there are no tests here; the gate builds it first.
#![cfg(have_archive)]

use std::collections::BTreeSet;

use generate::Random;
use ours::archive::{check_listing, check_table, plan_listing, refused, ACCEPTED};
use ours::comparing::bytes;
use reference::table::{entries, words};
use reference::{check, listing, print, Lines, Planned, When};
use suite::{bus, planned, With};

/// The most ticks of a process.
const MOST_TICKS: u64 = 100_000;

/// The most processes of a plan.
const MOST_PROCESSES: u64 = 64;

/// The last tick of an entry.
const LAST_TICK: u64 = 999_999_999;

/// Buses with no process, by the ticks of their round.
fn buses() -> Vec<(u64, Lines)> {
    let eight: Vec<(u64, u64)> = [3, 0, 6, 1, 7, 2, 5, 4].map(|node| (node, 1)).into();
    let longest: Vec<(u64, u64)> = [2, 5, 0, 7, 1, 3, 6, 4].map(|node| (node, 64)).into();
    vec![
        (1, bus(1, &[(0, 1)])),
        (2, bus(2, &[(0, 1)])),
        (2, bus(1, &[(1, 1), (0, 1)])),
        (3, bus(1, &[(0, 2)]).head(1)),
        (3, bus(1, &[(2, 1), (0, 1), (1, 1)])),
        (4, bus(1, &[(0, 1), (1, 3)])),
        (5, bus(1, &[(0, 4), (1, 1)])),
        (6, bus(2, &[(1, 2), (0, 1)])),
        (7, bus(1, &[(2, 1), (0, 4), (1, 2)])),
        (8, bus(1, &eight)),
        (17, bus(1, &[(0, 1)]).head(16)),
        (64, bus(1, &[(3, 2), (1, 1), (2, 3), (0, 6)]).head(13)),
        (1_000, bus(10, &[(2, 30), (0, 6), (1, 64)])),
        (1_023, bus(11, &[(1, 31), (0, 30)]).head(16)),
        (65_536, bus(512, &[(0, 64), (1, 64)])),
        (100_000, bus(1_000, &[(1, 36), (0, 64)])),
        (640_000, bus(1_000, &longest).head(16)),
    ]
}

/// A slot: whose it is, where it lies in the round, and how long it lasts.
#[derive(Clone, Copy, Debug)]
struct Slot {
    node: u64,
    offset: u64,
    ticks: u64,
    round: u64,
}

impl Slot {
    /// The first beginning at or after a tick, from the first round on.
    fn first_beginning(&self, tick: u64) -> u64 {
        let mut beginning = self.offset;
        while beginning < tick {
            beginning += self.round;
        }
        beginning
    }
}

/// The slots of a round.
fn slots(lines: &Lines) -> Vec<Slot> {
    let lasts = |slot: &reference::Slot| (slot.bytes + lines.plan.head) * lines.plan.byte;
    let round = lines.slots.iter().map(lasts).sum();
    let mut offset = 0;
    let mut slots = Vec::new();
    for slot in &lines.slots {
        let (node, ticks) = (slot.node, lasts(slot));
        slots.push(Slot {
            node,
            offset,
            ticks,
            round,
        });
        offset += ticks;
    }
    slots
}

/// The numbers of rounds that are tried, up to the most: 0 to 3, the powers of two and the numbers next to
/// them, and the most.
fn gaps(most: u64) -> BTreeSet<u64> {
    let powers = (2..40).flat_map(|exponent| {
        let power = 1u64 << exponent;
        [power - 1, power, power + 1]
    });
    let all = (0..4).chain(powers).filter(|&gap| gap < most);
    all.chain([most]).collect()
}

/// What is sent.
#[derive(Clone, Copy, Debug, PartialEq, Eq)]
enum Item {
    Message,
    Broadcast,
}

/// Adds processes on a node, one after another, of which the last ends at a tick. The others last as long
/// as they may, and the first starts at tick 0.
fn ending_at(mut lines: Lines, node: u64, end: u64) -> Lines {
    let mut left = end;
    while left > 0 {
        let ticks = left.min(MOST_TICKS);
        left -= ticks;
        lines = lines.all(node, ticks);
        let last = lines.processes.len() as u64 - 1;
        if last > 0 {
            lines = lines.edge(last - 1, last, 1, When::Always);
        }
    }
    lines
}

/// A plan in which a node has an item that is ready at a tick, and the front of the item's line.
fn sent_by(lines: Lines, node: u64, item: Item, ready: u64) -> (Lines, String) {
    let lines = ending_at(lines, node, ready);
    let last = lines.processes.len() as u64 - 1;
    match item {
        Item::Broadcast => (lines.decides(last), "(tell 0 ".to_string()),
        Item::Message => {
            let edge = lines.edges.len();
            let other = if node == 0 { 1 } else { 0 };
            let lines = lines.all(other, 1).edge(last, last + 1, 1, When::Always);
            (lines, format!("(send {edge} "))
        }
    }
}

/// The listing that the archive gives for a plan, once it is that of the reference.
fn same_listing(lines: &Lines, planned: &Planned) -> String {
    let (text, p) = (print(lines), planned);
    let wanted = listing(lines, p.delay, &p.passed_by_node, &p.words, &p.frames);
    let mut out = vec![0; wanted.len()];
    let shown = String::from_utf8_lossy(&text);
    let answer = plan_listing(&text, &mut out);
    assert_eq!(answer, wanted.len() as u64, "{shown}");
    assert!(out == wanted, "{shown}");
    assert_eq!(check_listing(&text, &out), ACCEPTED, "{shown}");
    String::from_utf8(out).unwrap()
}

/// The answer of both checkers if the last item is sent at another tick.
fn same_answer(lines: &Lines, planned: &Planned, tick: u64) -> Option<u8> {
    let mut all = entries(&planned.words);
    all.last_mut().unwrap().tick = tick as u32;
    let moved = words(&all);
    let wanted = check(lines, &moved, planned.delay);
    let ours = check_table(&print(lines), &bytes(&moved), planned.delay);
    let shown = String::from_utf8_lossy(&print(lines)).into_owned();
    assert_eq!(
        ours,
        wanted.map_or(ACCEPTED, refused),
        "sent at {tick}:\n{shown}"
    );
    wanted
}

/// Plans an item that is ready at a tick, and compares.
fn same_search(lines: &Lines, slot: Slot, item: Item, ready: u64) {
    let (lines, front) = sent_by(lines.clone(), slot.node, item, ready);
    let planned = planned(&lines);
    let listing = same_listing(&lines, &planned);
    let beginning = slot.first_beginning(ready);
    let wanted = format!("{front}(when) (at {beginning}) (place 0))");
    let found = listing.lines().find(|line| line.starts_with(&front));
    assert_eq!(found, Some(wanted.as_str()), "{slot:?}, ready at {ready}");
    for tick in [beginning - 1, beginning + 1] {
        let answer = same_answer(&lines, &planned, tick);
        assert!(slot.round == 1 || answer.is_some(), "{slot:?}, {tick}");
    }
}

/// Items that are ready one tick before a slot begins, as it begins and one tick after it. Gives how many
/// plans these are.
fn same_searches(item: Item) -> u64 {
    let receivers = u64::from(item == Item::Message);
    let latest = (MOST_PROCESSES - receivers) * MOST_TICKS;
    let mut plans = 0;
    for (round, lines) in buses() {
        if item == Item::Message && lines.slots.len() == 1 {
            continue;
        }
        for slot in slots(&lines) {
            assert_eq!(slot.round, round);
            for gap in gaps((latest - slot.offset) / round) {
                let begins = gap * round + slot.offset;
                let about = begins.saturating_sub(1).max(1)..=(begins + 1).min(latest);
                plans += about.clone().count() as u64;
                about.for_each(|ready| same_search(&lines, slot, item, ready));
            }
        }
    }
    println!("{plans} plans");
    plans
}

#[test]
fn messages_about_the_beginning_of_a_slot() {
    assert!(same_searches(Item::Message) > 2_000);
}

#[test]
fn broadcasts_about_the_beginning_of_a_slot() {
    assert!(same_searches(Item::Broadcast) > 2_000);
}

/// A bus of two to eight slots.
fn random_bus(random: &mut Random) -> Lines {
    let mut nodes: Vec<u64> = (0..random.between(2, 8)).collect();
    random.shuffle(&mut nodes);
    let most_bytes = random.one_of(&[1, 2, 64]);
    let slots: Vec<(u64, u64)> = nodes
        .into_iter()
        .map(|node| (node, random.between(1, most_bytes)))
        .collect();
    let most = random.one_of(&[1, 3, 30, 1_000]);
    let head = random.between(0, 16);
    let head = random.one_of(&[0, head]);
    bus(random.between(1, most), &slots).head(head)
}

/// The ticks of a process that starts at a tick: so many that it ends about the beginning of a slot, some
/// rounds later.
fn random_ticks(slot: Slot, start: u64, random: &mut Random) -> u64 {
    let next = slot.first_beginning(start + 1);
    let most = MOST_TICKS.saturating_sub(next - start) / slot.round;
    let gaps: Vec<u64> = gaps(most).into_iter().collect();
    let begins = next + random.one_of(&gaps) * slot.round;
    let about = random.one_of(&[begins - 1, begins, begins + 1]);
    about.saturating_sub(start).clamp(1, MOST_TICKS)
}

/// A plan of processes each of which starts as the message of the one before arrives, on another node, and
/// the lines of these messages.
fn one_after_another(mut lines: Lines, random: &mut Random) -> (Lines, Vec<String>) {
    let slots = slots(&lines);
    let mut sends = Vec::new();
    let mut start = 0;
    let mut place = random.index(slots.len());
    for process in 0..MOST_PROCESSES - 1 {
        let slot = slots[place];
        let ticks = random_ticks(slot, start, random);
        let beginning = slot.first_beginning(start + ticks);
        sends.push(format!(
            "(send {process} (when) (at {beginning}) (place 0))"
        ));
        lines = lines
            .all(slot.node, ticks)
            .edge(process, process + 1, 1, When::Always);
        start = beginning + slot.ticks;
        place = (place + 1 + random.index(slots.len() - 1)) % slots.len();
    }
    (lines.all(slots[place].node, 1), sends)
}

/// Searches of one plan one after another, from whatever round the last one ended in.
#[test]
fn messages_one_after_another() {
    let mut random = Random::new(101);
    let several = buses().into_iter().map(|(_, lines)| lines);
    let mut all: Vec<Lines> = several.filter(|lines| lines.slots.len() > 1).collect();
    all.extend((0..200).map(|_| random_bus(&mut random)));
    for lines in all {
        for _ in 0..3 {
            let (lines, sends) = one_after_another(lines.clone(), &mut random);
            let planned = planned(&lines);
            let listing = same_listing(&lines, &planned);
            let found = listing.lines().filter(|line| line.starts_with("(send "));
            assert_eq!(found.clone().count(), sends.len());
            for (found, wanted) in found.zip(&sends) {
                assert_eq!(found, wanted);
            }
        }
    }
}

/// Broadcasts that a table has at any tick up to the last: each is where a slot of its node begins, or the
/// table is refused with 17. No search of the planner goes that far.
#[test]
fn the_checker_at_far_ticks() {
    for (round, lines) in buses() {
        for slot in slots(&lines) {
            let (lines, _) = sent_by(lines.clone(), slot.node, Item::Broadcast, 1);
            let planned = planned(&lines);
            for gap in gaps((LAST_TICK - 1 - slot.offset) / round) {
                let begins = gap * round + slot.offset;
                for tick in begins.saturating_sub(1).max(1)..=begins + 1 {
                    let on_slot = tick == begins || round == 1;
                    let wanted = if on_slot { None } else { Some(17) };
                    let answer = same_answer(&lines, &planned, tick);
                    assert_eq!(answer, wanted, "{slot:?}, {tick}");
                }
            }
        }
    }
}

#[test]
fn the_gaps_are_powers_of_two_and_their_neighbours() {
    let of = |most| gaps(most).into_iter().collect::<Vec<u64>>();
    assert_eq!(of(0), [0]);
    assert_eq!(of(1), [0, 1]);
    assert_eq!(of(9), [0, 1, 2, 3, 4, 5, 7, 8, 9]);
    assert_eq!(of(34)[9..], [15, 16, 17, 31, 32, 33, 34]);
}

//! Builds the firmware example with a C compiler against the archive, runs it, and compares every
//! start, end and item with the reference's run. Without the archive there are no tests here; the
//! gate builds it first.
//!
//! The variable `RISCADRU_PLANS` sets how many plans are run (see `ours::comparing`).
#![cfg(have_archive)]

use std::path::{Path, PathBuf};
use std::process::{Command, Output};
use std::sync::OnceLock;

use generate::any_tables::{changed, far_ticks, random_entries};
use generate::tables::{sound_variants, to_the_last_tick, Table};
use generate::{plan, Kind, Random, KINDS};
use ours::comparing::{bytes, count, Shares};
use ours::firmware::{build, letters};
use reference::lookup::{first_entry, Question};
use reference::table::{entries, row_number, words};
use reference::who_runs::combinations;
use reference::{print, run, Lines};
use suite::cases::{packing, s_with_a_long_message};
use suite::passed_lines::three_slots_turned;
use suite::{full_times, planned, random_times, s, With, S};

/// Of a thousand of the plans that the tests go by, how many are run.
const SHARES: Shares = [
    (Kind::Tiny, 3),
    (Kind::DenseBus, 1),
    (Kind::ManyConditions, 1),
    (Kind::NestedAny, 1),
    (Kind::Largest, 0),
    (Kind::LongestRound, 1),
    (Kind::ShortestRound, 1),
    (Kind::UnevenBus, 1),
    (Kind::LongGaps, 1),
];

/// A place for a file of this test.
fn temporary(name: &str) -> PathBuf {
    Path::new(env!("CARGO_TARGET_TMPDIR")).join(name)
}

/// The firmware example, built once.
fn firmware() -> &'static Path {
    static BUILT: OnceLock<PathBuf> = OnceLock::new();
    BUILT.get_or_init(|| {
        let program = temporary("unit");
        build(&program);
        program
    })
}

/// The files of a plan and of a table, for one test.
struct Files {
    plan: PathBuf,
    table: PathBuf,
}

impl Files {
    fn new(test: &str) -> Self {
        Files {
            plan: temporary(&format!("{test}.plan")),
            table: temporary(&format!("{test}.table")),
        }
    }

    fn write(&self, text: &[u8], table: &[u8]) {
        std::fs::write(&self.plan, text).expect("a plan's file");
        std::fs::write(&self.table, table).expect("a table's file");
    }

    /// The words of a call of the firmware.
    fn call(&self, command: &str, more: &[String]) -> Command {
        let mut call = Command::new(firmware());
        call.arg(command)
            .arg(&self.plan)
            .arg(&self.table)
            .args(more);
        call
    }
}

/// What happens in a run, in order: starts by tick, process and node; the first end of each process
/// by tick and process; items by tick, row and place.
#[derive(Debug, Default, PartialEq, Eq)]
struct Events {
    starts: Vec<[u64; 3]>,
    ends: Vec<[u64; 2]>,
    items: Vec<[u64; 3]>,
}

impl Events {
    fn in_order(mut self) -> Self {
        self.starts.sort_unstable();
        self.ends.sort_unstable();
        self.items.sort_unstable();
        self
    }

    /// The events that the firmware printed.
    fn printed(lines: &Lines, output: &str) -> Self {
        let mut events = Events::default();
        let rows = [
            lines.processes.len() as u64,
            (lines.processes.len() + lines.edges.len()) as u64,
        ];
        for line in output.lines() {
            let words: Vec<&str> = line.split([' ', ':']).filter(|w| !w.is_empty()).collect();
            let number = |place: usize| words[place].parse::<u64>().expect(line);
            match words[1..] {
                ["node", _, "starts", "process", _] => {
                    events.starts.push([number(0), number(5), number(2)]);
                }
                ["process", _, "ends"] => events.ends.push([number(0), number(2)]),
                ["node", _, "sends", "message", _, "at", "place", _] => {
                    events
                        .items
                        .push([number(0), rows[0] + number(5), number(8)]);
                }
                ["node", _, "tells", "condition", _, "at", "place", _] => {
                    events
                        .items
                        .push([number(0), rows[1] + number(5), number(8)]);
                }
                ["message", _, "arrives"] | ["condition", _, "is", "heard", _] => {}
                _ => panic!("a line of another kind: {line}"),
            }
        }
        events.in_order()
    }

    /// The events of the reference's run.
    fn wanted(lines: &Lines, words: &[u32], combination: u32, times: &[u64]) -> Self {
        let mut lookup = |asked: Question| first_entry(lines, words, asked);
        let run = run(lines, words, combination, times, &mut lookup);
        let mut events = Events::default();
        for start in &run.starts {
            let process = start.process as u64;
            events
                .starts
                .push([start.tick, process, lines.node(process)]);
            if events.ends.iter().all(|end| end[1] != process) {
                events.ends.push([start.end, process]);
            }
        }
        for item in &run.items {
            let row = row_number(lines, item.row);
            events.items.push([item.tick, row.into(), item.place]);
        }
        events.in_order()
    }
}

/// Runs a table in a combination, and gives how many processes were started.
fn same_run(files: &Files, lines: &Lines, words: &[u32], combination: u32, times: &[u64]) -> usize {
    let mut more = vec![letters(lines, combination)];
    more.extend(times.iter().map(u64::to_string));
    let output = files.call("run", &more).output().expect("the firmware");
    let said = String::from_utf8_lossy(&output.stdout);
    let shown = || String::from_utf8_lossy(&print(lines)).into_owned();
    assert!(output.status.success(), "{output:?}\n{}", shown());
    let events = Events::printed(lines, &said);
    let wanted = Events::wanted(lines, words, combination, times);
    assert_eq!(events, wanted, "{more:?}, {words:?}\n{}", shown());
    events.starts.len()
}

/// Runs a table in every combination, with the full ticks and with random times.
fn same_runs(files: &Files, lines: &Lines, words: &[u32], random: &mut Random) -> usize {
    files.write(&print(lines), &bytes(words));
    let mut starts = 0;
    for combination in combinations(lines) {
        let full = full_times(lines);
        starts += same_run(files, lines, words, combination, &full);
        let times = random_times(lines, random);
        starts += same_run(files, lines, words, combination, &times);
    }
    starts
}

#[test]
fn runs_of_s() {
    let files = Files::new("runs-of-s");
    let mut random = Random::new(71);
    for head in [0, 1, 16] {
        let lines = s().head(head);
        let words = planned(&lines).words;
        let mut starts = 0;
        for _ in 0..20 {
            starts += same_runs(&files, &lines, &words, &mut random);
        }
        assert_eq!(starts, 20 * 2 * (3 + 3));
    }
}

/// A start before the slot of its input or of its value has ended: one starts too early, the other
/// not at all.
#[test]
fn runs_of_s_with_head_1_a_tick_too_early() {
    let files = Files::new("runs-of-s-too-early");
    let mut random = Random::new(75);
    let lines = s().head(1);
    for (entry, tick, starts) in [(2, 17, 3 + 2), (4, 47, 3 + 3)] {
        let mut all = entries(&planned(&lines).words);
        all[entry].tick = tick;
        assert_eq!(
            same_runs(&files, &lines, &words(&all), &mut random),
            2 * starts
        );
    }
}

#[test]
fn runs_of_random_plans() {
    let files = Files::new("runs-of-random-plans");
    let (mut plans, mut starts) = (0, 0);
    for kind in KINDS {
        for number in 0..count(&SHARES, kind) {
            let mut random = Random::new((kind as u64 + 1) << 48 | 1 << 42 | number);
            let lines = plan(kind, &mut random);
            let words = planned(&lines).words;
            starts += same_runs(&files, &lines, &words, &mut random);
            plans += 1;
        }
    }
    println!("{plans} plans, {starts} starts");
    assert!(starts > 10 * plans);
}

/// The largest plan in a few combinations: a panel of eight units and 64 processes.
#[test]
fn runs_of_a_largest_plan() {
    let files = Files::new("runs-of-a-largest-plan");
    let mut random = Random::new(72);
    let lines = plan(Kind::Largest, &mut random);
    let words = planned(&lines).words;
    files.write(&print(&lines), &bytes(&words));
    let mut starts = 0;
    for combination in [0, 21, 42, 63] {
        let times = random_times(&lines, &mut random);
        starts += same_run(&files, &lines, &words, combination, &times);
    }
    assert!(starts > 50, "{starts}");
}

/// Sound tables that no planner made, and tables that are not sound.
#[test]
fn runs_of_other_tables() {
    let files = Files::new("runs-of-other-tables");
    let (mut runs, mut starts) = (0, 0);
    for number in 0..count(&SHARES, Kind::Tiny) / 2 + 1 {
        let mut random = Random::new(1 << 43 | number);
        let lines = plan(random.one_of(&[Kind::Tiny, Kind::NestedAny]), &mut random);
        let planned = planned(&lines);
        let sound = Table {
            words: planned.words,
            delay: planned.delay,
        };
        let variants = sound_variants(&lines, &sound, &mut random);
        let tables = [
            random.one_of(&variants).words,
            changed(&sound.words, &mut random),
            far_ticks(&sound.words, &mut random),
            random_entries(&lines, &mut random),
        ];
        for words in tables {
            starts += same_runs(&files, &lines, &words, &mut random);
            runs += 2 * combinations(&lines).len();
        }
    }
    println!("{runs} runs, {starts} starts");
    assert!(starts > runs);
}

/// A process that is started twice has ended when the first start's end has come.
#[test]
fn runs_with_a_second_start() {
    let files = Files::new("runs-with-a-second-start");
    let mut random = Random::new(74);
    #[rustfmt::skip]
    let twice = [
        0, 0, 0, 0, 0,
        0, 0, 0, 6, 0,
        8, 0, 0, 8, 0,
        1, 1, 1, 12, 0,
        2, 1, 0, 12, 0,
    ];
    for _ in 0..10 {
        assert_eq!(same_runs(&files, &s(), &twice, &mut random), 4 * 3);
    }
}

/// Tables as late as they can be: processes end past the last tick, and a broadcast that arrives
/// there is not heard.
#[test]
fn runs_to_the_last_tick() {
    let files = Files::new("runs-to-the-last-tick");
    let mut random = Random::new(73);
    for (head, slot_ticks) in [(0, 4), (1, 6), (16, 36)] {
        let lines = s().head(head);
        let planned = planned(&lines);
        let table = Table {
            words: planned.words,
            delay: planned.delay,
        };
        let last = to_the_last_tick(&lines, &table).expect("room").words;
        assert_eq!(same_runs(&files, &lines, &last, &mut random), 2 * (3 + 3));
        for tick in [
            999_999_998 - slot_ticks,
            999_999_999 - slot_ticks,
            1_000_000_000 - slot_ticks,
            999_999_999,
            1_000_000_000,
        ] {
            #[rustfmt::skip]
            let told = [
                0, 0, 0, 0, 0,
                8, 0, 0, tick, 0,
                1, 1, 1, tick + slot_ticks, 0,
                2, 1, 0, 999_999_999, 0,
                3, 0, 0, 999_999_999, 0,
            ];
            let starts = same_runs(&files, &lines, &told, &mut random);
            let heard = usize::from(tick + slot_ticks <= 999_999_999);
            assert_eq!(starts, 2 * (2 * 2 + 2 * heard));
        }
    }
}

/// What a call printed on standard output and on standard error, and its exit status.
fn said(mut call: Command) -> (String, String, Option<i32>) {
    let Output {
        status,
        stdout,
        stderr,
    } = call.output().expect("the firmware");
    let text = |bytes| String::from_utf8(bytes).expect("letters");
    (text(stdout), text(stderr), status.code())
}

#[test]
fn planning_and_checking() {
    let files = Files::new("planning-and-checking");
    files.write(S.as_bytes(), b"");
    let (delay, errors, status) = said(files.call("plan", &[]));
    assert_eq!((&*delay, &*errors, status), ("34\n", "", Some(0)));
    let table = std::fs::read(&files.table).expect("the table");
    assert_eq!(table, bytes(&planned(&s()).words));
    let check = |delay: &str| said(files.call("check", &[delay.to_string()]));
    assert_eq!(check("34"), ("accepted\n".into(), String::new(), Some(0)));
    for wrong in ["33", "4294967330", "18446744073709551615"] {
        assert_eq!(
            check(wrong),
            (String::new(), "unit: refused 20\n".into(), Some(1))
        );
    }
    for no_number in ["", "x", "34x", "-1", "18446744073709551616"] {
        assert_eq!(check(no_number).2, Some(2));
    }
    files.write(&print(&s_with_a_long_message()), &table);
    for (command, more) in [("plan", ""), ("check", "34"), ("run", "t")] {
        let more = Some(more.to_string()).filter(|word| !word.is_empty());
        let refused = said(files.call(command, &Vec::from_iter(more)));
        assert_eq!(
            refused,
            (String::new(), "unit: refused 9\n".into(), Some(1))
        );
    }
}

#[test]
fn planning_tells_whose_slots_are_too_short() {
    let files = Files::new("too-short");
    files.write(&print(&three_slots_turned()), b"");
    let (delay, errors, status) = said(files.call("plan", &[]));
    let wanted =
        "unit: the slot of node 2 is too short: over all combinations 3 of them left a ready item \
                  waiting\n";
    assert_eq!((&*delay, &*errors, status), ("11\n", wanted, Some(0)));
}

#[test]
fn wrong_calls() {
    let files = Files::new("wrong-calls");
    files.write(S.as_bytes(), &bytes(&planned(&s()).words));
    let run = |words: &str| {
        let words: Vec<String> = words.split(' ').map(str::to_string).collect();
        said(files.call("run", &words)).2
    };
    assert_eq!(run("t 4 3 5 2"), Some(0));
    assert_eq!(run("t 4 3"), Some(0));
    for wrong in [
        "x",
        "tt",
        "-",
        "t 5",
        "t 4 3 5 3",
        "t 4 3 5 2 0",
        "t -1",
        "t 1x",
    ] {
        assert_eq!(run(wrong), Some(2), "{wrong}");
    }
    let (printed, errors, status) = said(Command::new(firmware()));
    assert!(printed.is_empty() && errors.starts_with("usage: ") && status == Some(2));
    files.write(&print(&packing()), &bytes(&planned(&packing()).words));
    assert_eq!(run("-"), Some(0));
    assert_eq!(run("t"), Some(2));
    let missing = Files::new("missing");
    assert_eq!(said(missing.call("run", &["t".to_string()])).2, Some(1));
}

#[test]
#[cfg_attr(not(have_valgrind), ignore = "valgrind is not on the PATH")]
fn a_run_of_s_under_valgrind() {
    let files = Files::new("under-valgrind");
    files.write(S.as_bytes(), &bytes(&planned(&s()).words));
    for letters in ["t", "f"] {
        let output = Command::new("valgrind")
            .args(["--error-exitcode=9", "-q"])
            .arg(firmware())
            .arg("run")
            .args([&files.plan, &files.table])
            .args([letters, "0", "3", "2"])
            .output()
            .expect("valgrind");
        let errors = String::from_utf8_lossy(&output.stderr);
        assert!(output.status.success(), "{:?}\n{errors}", output.status);
        let events = Events::printed(&s(), &String::from_utf8_lossy(&output.stdout));
        let combination = u32::from(letters == "t");
        let words = planned(&s()).words;
        assert_eq!(
            events,
            Events::wanted(&s(), &words, combination, &[0, 3, 2, 2])
        );
    }
}

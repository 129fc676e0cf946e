//! The plans in `examples/`: each is planned, checked, drawn and run, and the page that explains
//! them names what comes out; and the listings there, each of which is checked. Without the archive and
//! the programs there are no tests here; the gate builds them first.
#![cfg(all(have_archive, have_program, have_check_program))]

use std::fs::File;
use std::io::Write;
use std::path::{Path, PathBuf};
use std::process::{Command, Stdio};
use std::sync::OnceLock;

use ours::archive::{check_table, plan_listing, plan_table, refused, ACCEPTED};
use ours::comparing::{bytes, totals};
use ours::firmware::{build, letters};
use ours::linking::root;
use ours::tree::Tree;
use reference::bus::round_ticks;
use reference::table::{entries, frames, ENTRY_WORDS, FRAME_WORDS};
use reference::who_runs::{combinations, value, Combination};
use reference::{print, read, Lines, Pick, Planned, Waits, When};
use suite::drawing::compare;
use suite::{bus, planned, With, S, S_LISTING};

/// A plan of the folder `examples` and what the reference plans for it.
struct Example {
    name: String,
    text: Vec<u8>,
    lines: Lines,
    planned: Planned,
}

/// The file of an example.
fn file(name: &str) -> PathBuf {
    root().join(format!("examples/{name}.plan"))
}

/// A place for files of this test, by the name of an example.
fn temporary(name: &str) -> PathBuf {
    Path::new(env!("CARGO_TARGET_TMPDIR")).join(format!("example-{name}"))
}

fn example(name: &str) -> Example {
    let text = std::fs::read(file(name)).expect("a plan text");
    let lines = read(&text).expect("a plan");
    Example {
        name: name.to_string(),
        text,
        planned: planned(&lines),
        lines,
    }
}

/// The names of the folder's files with this extension.
fn names(extension: &str) -> Vec<String> {
    let folder = std::fs::read_dir(root().join("examples")).expect("the folder examples");
    let paths = folder.map(|file| file.expect("a file").path());
    let chosen = paths.filter(|path| path.extension().is_some_and(|e| e == extension));
    chosen
        .map(|path| path.file_stem().unwrap().to_str().unwrap().to_string())
        .collect()
}

/// All plans of the folder.
fn examples() -> Vec<Example> {
    names("plan").iter().map(|name| example(name)).collect()
}

/// The page that explains the examples.
fn page() -> String {
    std::fs::read_to_string(root().join("examples/README.md")).expect("the page")
}

/// The cells of the page's table that has these headings, row by row.
fn table(headings: &str) -> Vec<Vec<String>> {
    let page = page();
    let from = page.lines().skip_while(|line| *line != headings);
    let rows: Vec<Vec<String>> = from
        .skip(2)
        .map_while(|line| line.strip_prefix('|')?.strip_suffix('|'))
        .map(|row| row.split('|').map(|cell| cell.trim().to_string()).collect())
        .collect();
    assert!(!rows.is_empty(), "{headings}");
    rows
}

/// The number in a cell.
fn number(cell: &str) -> u64 {
    cell.parse().expect("a number")
}

/// The first cells of each row.
fn first_cells(rows: &[Vec<String>], count: usize) -> Vec<Vec<String>> {
    rows.iter().map(|row| row[..count].to_vec()).collect()
}

/// A row of cells with these numbers.
fn numbers(of: &[u64]) -> Vec<String> {
    of.iter().map(u64::to_string).collect()
}

impl Example {
    /// The combinations that have the worst delay.
    fn worst(&self) -> Vec<Combination> {
        let is_worst = |c: &Combination| self.planned.delays[*c as usize] == self.planned.delay;
        combinations(&self.lines).filter(is_worst).collect()
    }

    /// The values that all combinations with the worst delay have, and no other combination.
    fn worst_where(&self) -> String {
        let worst = self.worst();
        let true_in = |condition| worst.iter().filter(|&&c| value(c, condition)).count();
        let (mut values, mut free) = (Vec::new(), 0);
        for condition in 0..self.lines.conditions.len() {
            match true_in(condition) {
                0 => values.push(format!("(false {condition})")),
                all if all == worst.len() => values.push(format!("(true {condition})")),
                _ => free += 1,
            }
        }
        assert_eq!(worst.len(), 1 << free, "{}: {worst:?}", self.name);
        if values.is_empty() {
            return "always".to_string();
        }
        format!("`{}`", values.join(" "))
    }

    /// The row of the page's first table that this example should have.
    fn figures(&self) -> Vec<String> {
        let Example {
            name,
            lines,
            planned,
            ..
        } = self;
        let link = format!("[{name}.plan]({name}.plan)");
        let sizes = [
            lines.slots.len(),
            lines.processes.len(),
            lines.conditions.len(),
            lines.edges.len(),
        ];
        let mut row = vec![link];
        row.extend(sizes.map(|size| size.to_string()));
        row.extend([planned.delay.to_string(), self.worst_where()]);
        row.push(numbers(&planned.passed_by_node).join(", "));
        row.extend(numbers(&[
            (planned.words.len() / ENTRY_WORDS) as u64,
            (planned.frames.len() / FRAME_WORDS) as u64,
        ]));
        row
    }

    /// What the firmware example prints for a command on this plan and a table.
    fn unit(&self, command: &str, table: &Path, more: &[String]) -> String {
        static BUILT: OnceLock<PathBuf> = OnceLock::new();
        let firmware = BUILT.get_or_init(|| {
            let program = temporary("unit");
            build(&program);
            program
        });
        let output = Command::new(firmware)
            .arg(command)
            .arg(file(&self.name))
            .arg(table)
            .args(more)
            .output()
            .expect("the firmware");
        assert!(
            output.status.success(),
            "{} {more:?}: {output:?}",
            self.name
        );
        String::from_utf8(output.stdout).expect("text")
    }

    /// What it prints for a run of a combination with full ticks.
    fn run(&self, table: &Path, combination: Combination) -> String {
        self.unit("run", table, &[letters(&self.lines, combination)])
    }
}

/// The last end of a process that a run prints.
fn last_end(run: &str) -> u64 {
    let ends = run.lines().filter(|line| line.ends_with(" ends"));
    let ticks = ends.map(|line| number(line.split(':').next().unwrap()));
    ticks.max().expect("an end")
}

#[test]
fn the_page_names_every_plan_and_its_figures() {
    let mut wanted: Vec<Vec<String>> = examples().iter().map(Example::figures).collect();
    let headings = "| plan | units | processes | conditions | edges | worst delay | where \
                    | passed over | entries | frames |";
    let mut rows = table(headings);
    wanted.sort();
    rows.sort();
    assert_eq!(rows, wanted);
    assert_eq!(example("s").text, S.as_bytes());
}

#[test]
fn each_is_planned() {
    for example in examples() {
        let input = File::open(file(&example.name)).expect("a plan text");
        let output = Command::new(root().join("target/bin/riscadru_plan"))
            .stdin(input)
            .output()
            .expect("the planning program");
        let listing = reference::program(&example.text);
        assert!(listing.starts_with(b"(delay "), "{}", example.name);
        assert!(output.stdout == listing, "{}", example.name);
        let mut out = vec![0; listing.len()];
        let length = plan_listing(&example.text, &mut out);
        assert_eq!(length, listing.len() as u64, "{}", example.name);
        assert!(out == listing, "{}", example.name);
        let planned = &example.planned;
        let wanted = [&planned.words[..], &planned.frames, &totals(planned)].map(bytes);
        let [mut table, mut frames, mut sums] = wanted.clone().map(|bytes| vec![0; bytes.len()]);
        let answer = plan_table(&example.text, &mut table, &mut frames, &mut sums);
        assert_eq!(answer, table.len() as u64, "{}", example.name);
        assert!([table, frames, sums] == wanted, "{}", example.name);
    }
}

#[test]
fn each_table_is_accepted() {
    for example in examples() {
        let delay = example.planned.delay;
        let check = |delay| check_table(&example.text, &bytes(&example.planned.words), delay);
        assert_eq!(check(delay), ACCEPTED, "{}", example.name);
        for wrong in [delay - 1, delay + 1] {
            assert_eq!(check(wrong), refused(20), "{}", example.name);
        }
    }
}

/// What the checking program prints for an input.
fn checked(input: &[u8]) -> String {
    let mut child = Command::new(root().join("target/bin/riscadru_check"))
        .stdin(Stdio::piped())
        .stdout(Stdio::piped())
        .spawn()
        .expect("the checking program");
    let mut stdin = child.stdin.take().expect("its standard input");
    stdin.write_all(input).expect("what it reads");
    drop(stdin);
    let output = child.wait_with_output().expect("its output");
    String::from_utf8(output.stdout).expect("text")
}

/// Each plan with what is printed for it.
#[test]
fn each_printed_table_is_accepted() {
    for example in examples() {
        let listing = reference::program(&example.text);
        let input = [&example.text[..], b"\n", &listing].concat();
        assert_eq!(checked(&input), "(accepted)\n", "{}", example.name);
    }
}

/// Each listing of the folder, with the plan and the answer that the page names.
#[test]
fn each_listing_is_checked() {
    let mut rows = Vec::new();
    for row in table("| listing | for | answer |") {
        let name = |cell: &str| {
            let name = cell
                .strip_prefix('[')
                .and_then(|rest| rest.split_once("]("));
            let (name, link) = name.expect("a link");
            assert_eq!(link.strip_suffix(')'), Some(name));
            name.to_string()
        };
        let read = |name: &str| std::fs::read(root().join("examples").join(name)).expect("a text");
        let (listing, plan) = (name(&row[0]), name(&row[1]));
        let (plan, text) = (read(&plan), read(&listing));
        let answer = format!("{}\n", row[2].trim_matches('`'));
        let input = [&plan[..], b"\n", &text].concat();
        assert_eq!(checked(&input), answer, "{listing}");
        assert_eq!(reference::check_program(&input), answer.as_bytes());
        rows.push(
            listing
                .strip_suffix(".listing")
                .expect("a listing")
                .to_string(),
        );
    }
    let mut all = names("listing");
    all.sort();
    rows.sort();
    assert_eq!(rows, all);
}

/// S's listing is that of document 01; the other differs in one line, and the page says what is said of it.
#[test]
fn the_page_says_why_a_listing_is_refused() {
    let read = |name: &str| {
        let file = root().join("examples").join(name);
        std::fs::read_to_string(file).expect("a listing")
    };
    let (whole, early) = (read("s.listing"), read("s-early.listing"));
    assert_eq!(whole, S_LISTING);
    let pairs = whole.lines().zip(early.lines()).zip(1..);
    let other: Vec<(&str, usize)> = pairs
        .filter(|((a, b), _)| a != b)
        .map(|((_, line), number)| (line, number))
        .collect();
    let [(line, number)] = other[..] else {
        panic!("{other:?}");
    };
    let tree = Tree::new("examples");
    let name = "examples/s-early.listing";
    tree.copy(&root().join(name), name);
    let said = tree.run(&["check", "examples/s.plan", name]).said;
    let (_, said) = said.split_once('\n').expect("a sentence");
    let begins = format!("listing ('{name}'), line {number}: {line}\n");
    assert!(said.starts_with(&begins), "{said}");
    let shown: Vec<String> = said.lines().map(|line| format!("    {line}\n")).collect();
    page_says(&[
        shown.concat(),
        format!("line {number} has process 3 start at tick 31"),
    ]);
}

/// One panel for each combination, with the boxes that the table has.
#[test]
fn each_is_drawn() {
    for example in examples() {
        let all: Vec<Combination> = combinations(&example.lines).collect();
        compare(&temporary(&example.name), &example.lines, &all, &[]);
    }
}

/// With full ticks each combination ends at its own delay, so that the worst is reached.
#[test]
fn each_is_run_by_the_firmware() {
    for example in examples() {
        let table = temporary(&format!("{}.table", example.name));
        let delay = example.planned.delay.to_string();
        assert_eq!(example.unit("plan", &table, &[]), format!("{delay}\n"));
        assert_eq!(example.unit("check", &table, &[delay]), "accepted\n");
        let mut worst = 0;
        for combination in combinations(&example.lines) {
            let end = last_end(&example.run(&table, combination));
            let wanted = example.planned.delays[combination as usize];
            assert_eq!(end, wanted, "{} {combination}", example.name);
            worst = worst.max(end);
        }
        assert_eq!(worst, example.planned.delay, "{}", example.name);
    }
}

/// The inputs of a process in the words of the page.
fn after(lines: &Lines, process: usize) -> String {
    let inputs = lines.edges.iter().filter(|edge| edge.to == process as u64);
    let inputs: Vec<String> = inputs
        .map(|edge| match edge.when {
            When::Always => edge.from.to_string(),
            When::True(condition) => format!("{} (true {condition})", edge.from),
            When::False(condition) => format!("{} (false {condition})", edge.from),
        })
        .collect();
    let any = match lines.processes[process].waits {
        Waits::All => "",
        Waits::Any => "any of ",
    };
    format!("{any}{}", inputs.join(", "))
}

#[test]
fn the_tables_of_the_feeder_are_its_lines() {
    let Example { lines, planned, .. } = example("feeder");
    let slots = table("| unit | slot bytes | is | fullest frame |");
    let wanted = lines.slots.iter();
    let wanted: Vec<_> = wanted.map(|s| numbers(&[s.node, s.bytes])).collect();
    assert_eq!(first_cells(&slots, 2), wanted);
    for slot in &lines.slots {
        let of_unit = frames(&planned.frames).into_iter();
        let used = of_unit.filter(|frame| u64::from(frame.node) == slot.node);
        let fullest = used.map(|frame| u64::from(frame.bytes)).max();
        assert_eq!(fullest, Some(slot.bytes), "{slot:?}");
    }
    let conditions = table("| condition | decided by | if true |");
    let wanted = lines.conditions.iter().zip(0..);
    let wanted: Vec<_> = wanted
        .map(|(c, number)| numbers(&[number, c.process]))
        .collect();
    assert_eq!(first_cells(&conditions, 2), wanted);
    let processes = table("| process | unit | ticks | after | does |");
    let wanted = lines.processes.iter().enumerate();
    let wanted: Vec<_> = wanted
        .map(|(number, process)| {
            let mut row = numbers(&[number as u64, process.node, process.ticks]);
            row.push(after(&lines, number));
            row
        })
        .collect();
    assert_eq!(first_cells(&processes, 4), wanted);
}

/// The events that the page names stand in the run of that combination.
#[test]
fn the_page_names_events_of_runs() {
    for (name, combination) in [("feeder", 7), ("largest", 2)] {
        let example = example(name);
        let table_file = temporary(&format!("{name}-events.table"));
        example.unit("plan", &table_file, &[]);
        let run = example.run(&table_file, combination);
        let headings = format!("| tick | event in combination {combination} | that is |");
        for row in table(&headings) {
            let line = format!("{}: {}", row[0], row[1]);
            assert!(run.lines().any(|printed| printed == line), "{name}: {line}");
        }
    }
}

/// The largest plan as the page lays it down: processes by stage and bay, and the edges of a bay.
fn station() -> Lines {
    const BAYS: u64 = 8;
    const FEEDERS: u64 = 6;
    let mut lines = bus(1, &Vec::from_iter((0..BAYS).map(|bay| (bay, 4)))).by_number();
    for stage in table("| stage | ticks | waits | does |") {
        for bay in 0..BAYS {
            lines = match &*stage[2] {
                "all" => lines.all(bay, number(&stage[1])),
                "any" => lines.any(bay, number(&stage[1])),
                other => panic!("{other}"),
            };
        }
    }
    for bay in 0..FEEDERS {
        lines = lines.decides(3 * BAYS + bay);
    }
    for bay in 0..BAYS {
        for edge in table("| from stage | to stage | bay | bytes | when |") {
            let to = match &*edge[2] {
                "own" => bay,
                "next" => (bay + 1) % BAYS,
                "previous" => (bay + BAYS - 1) % BAYS,
                other => panic!("{other}"),
            };
            let when = match &*edge[4] {
                "true" if bay < FEEDERS => When::True(bay),
                "false" if bay < FEEDERS => When::False(bay),
                _ => When::Always,
            };
            let from = number(&edge[0]) * BAYS + bay;
            lines = lines.edge(from, number(&edge[1]) * BAYS + to, number(&edge[3]), when);
        }
    }
    lines
}

#[test]
fn the_largest_is_as_its_tables_say() {
    let largest = example("largest");
    assert!(print(&station()) == largest.text);
    assert_eq!(largest.lines.plan.pick, Pick::Number);
}

/// Panics unless the page has these sentences.
fn page_says(sentences: &[String]) {
    let page = page();
    for sentence in sentences {
        assert!(page.contains(sentence), "{sentence}");
    }
}

/// Ticks of 100 microseconds as milliseconds.
fn milliseconds(ticks: u64) -> f64 {
    ticks as f64 / 10.0
}

/// The sentences of the page that name delays.
#[test]
fn the_page_says_what_each_combination_takes() {
    let [s, feeder, largest] = ["s", "feeder", "largest"].map(example);
    let (worst, delays) = (feeder.planned.delay, &feeder.planned.delays);
    assert_eq!(feeder.worst(), [5, 7, 13, 15]);
    for combination in combinations(&feeder.lines) {
        let (fault, failed) = (value(combination, 0), value(combination, 2));
        let like = usize::from(fault) + 4 * usize::from(fault && failed);
        assert_eq!(delays[combination as usize], delays[like]);
    }
    page_says(&[
        format!(
            "where it is false, everything ends at {}.",
            s.planned.delays[0]
        ),
        format!("# {worst}, the worst delay"),
        format!("target/feeder.table {worst}   # accepted"),
        format!(
            "The delay is {worst} ticks, {} ms, in combinations 5, 7, 13 and 15:",
            milliseconds(worst)
        ),
        format!("Without a fault everything ends at {}.", delays[0]),
        format!(
            "With a fault that the feeder breaker clears, it ends at {}.",
            delays[1]
        ),
        format!("The delay is {} ticks, 21 ms,", largest.planned.delay),
        format!(
            "goes at 164, and everything ends at {}.",
            largest.planned.delays[0]
        ),
    ]);
}

/// Slots as long as their nodes need them let nothing wait, and the delay falls.
#[test]
fn the_page_says_what_longer_slots_do() {
    let short = example("short");
    let mut lines = short.lines.clone();
    lines.slots[0].bytes = 2;
    lines.slots[1].bytes = 3;
    let longer = planned(&lines);
    assert_eq!(longer.passed_by_node, [0, 0]);
    page_says(&[
        format!(
            "Unit 0 has {} such slots and unit 1 {},",
            short.planned.passed_by_node[0], short.planned.passed_by_node[1]
        ),
        format!(
            "nothing waits, and the delay is {} in place of {}",
            longer.delay, short.planned.delay
        ),
    ]);
}

/// The feeder's trip order is message 15; process 12 looks for the direction of an earth fault.
#[test]
fn the_page_says_how_long_process_12_may_take() {
    let feeder = example("feeder");
    let with_ticks = |ticks| {
        let mut lines = feeder.lines.clone();
        lines.processes[12].ticks = ticks;
        lines
    };
    let orders = |lines: &Lines| -> Vec<u64> {
        let row = lines.processes.len() as u32 + 15;
        let all = entries(&planned(lines).words).into_iter();
        all.filter(|e| e.row == row)
            .map(|e| e.tick.into())
            .collect()
    };
    let order = orders(&feeder.lines)[0];
    assert_eq!(orders(&feeder.lines), [order, order]);
    for ticks in 1..=42 {
        assert_eq!(planned(&with_ticks(ticks)).delays, feeder.planned.delays);
    }
    let later = with_ticks(43);
    assert_eq!(orders(&later), [order, order + round_ticks(&later)]);
    page_says(&[
        format!("the trip order goes at {order} with both kinds of fault."),
        "Process 12 may take up to 42 ticks, and no delay changes.".to_string(),
        format!(
            "With 43 an earth fault's trip order goes a round later, and the worst delay is {}.",
            planned(&later).delay
        ),
    ]);
}

/// The sentences of the page that name heads and rounds.
#[test]
fn the_page_says_what_the_head_costs() {
    let feeder = example("feeder");
    let (round, head) = (round_ticks(&feeder.lines), feeder.lines.plan.head);
    let bytes: u64 = feeder.lines.slots.iter().map(|slot| slot.bytes).sum();
    let without = feeder.lines.clone().head(0);
    let less = feeder.planned.delay - planned(&without).delay;
    let largest = example("largest").lines;
    let with_longest = largest.clone().head(16);
    let planned_with_longest = planned(&with_longest);
    let delay = planned_with_longest.delay;
    assert!(planned_with_longest.delays.iter().all(|&d| d == delay));
    page_says(&[
        format!("- The head is {head} bytes:"),
        format!("- A round has {round} ticks, {} ms:", milliseconds(round)),
        format!("the six slots have {bytes} bytes, and each lasts {head} ticks more for the head."),
        format!(
            "With `(head 0)` a round has {} ticks and the worst delay is {}: {} ms less",
            round_ticks(&without),
            planned(&without).delay,
            milliseconds(less)
        ),
        format!(
            "a slot of 4 bytes: a round has {} ticks.",
            round_ticks(&largest)
        ),
        format!(
            "With `(head 16)` a round has {} ticks, every combination has the delay {delay}, \
             and the table has {} entries.",
            round_ticks(&with_longest),
            planned_with_longest.words.len() / ENTRY_WORDS
        ),
    ]);
}

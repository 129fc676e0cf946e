//! Where a refused text fails: what `where/where.awk` says is compared with the reference.

use std::path::{Path, PathBuf};
use std::process::Output;

use generate::broken::{broken, broken_twice, NUMBERS};
use generate::texts::{damaged_texts, of_length};
use generate::{Kind, Random};
use reference::text::{read_any_length, LONGEST_TEXT};
use reference::{failing, print, Failing};
use suite::telling::{self, awks, begin_of, head, number_behind, one_by_one, WIDEST};
use suite::{for_plans, s, S, S_LISTING};

/// The scripts that say where a plan text fails.
const SCRIPTS: [&str; 2] = ["text.awk", "where.awk"];

/// The folder for the texts of a test.
fn folder(name: &str) -> PathBuf {
    telling::folder(env!("CARGO_TARGET_TMPDIR"), name)
}

/// What is said of each of these texts, refused with this number; `name` keeps the files of tests
/// apart.
fn told_by(awk: &[&str], name: &str, number: u8, texts: &[&[u8]]) -> Vec<String> {
    let folder = folder(name);
    let names: Vec<String> = (0..texts.len()).map(|i| format!("{number}-{i}")).collect();
    for (name, text) in names.iter().zip(texts) {
        std::fs::write(folder.join(name), text).expect("a file for a text");
    }
    let told = one_by_one(&run(awk, &folder, number, &names));
    assert_eq!(told.len(), texts.len(), "of some text nothing is said");
    told
}

/// What the scripts say of the files of these names, as texts refused with this number.
fn run(awk: &[&str], folder: &Path, number: u8, names: &[String]) -> Output {
    telling::run(awk, &SCRIPTS, folder, number, names)
}

/// Panics unless what is said of a text is so.
fn compare(text: &[u8], place: Failing, said: &str) {
    let head = head(text, place.line);
    let why = said.strip_prefix(&head).unwrap_or_else(|| {
        panic!("expected {head}said {said}");
    });
    assert!(why.starts_with("  ") && why.ends_with('\n'), "{said}");
    let earlier = place
        .earlier
        .map(|line| format!("  {}", telling::head(text, line)));
    assert_eq!(why.contains("\n  line "), earlier.is_some(), "{said}");
    if let Some(earlier) = earlier {
        assert!(why.ends_with(&format!(":\n{earlier}")), "{earlier}{said}");
    }
    match place.number {
        1 => compare_form(text, place, why),
        _ => compare_figures(std::str::from_utf8(text).unwrap(), place, why),
    }
}

/// Panics unless what is said of a text refused with 1 is so.
fn compare_form(text: &[u8], place: Failing, why: &str) {
    let begin = begin_of(text, place.line);
    let fits = begin + place.fitting;
    let too_many = fits == LONGEST_TEXT && text.len() > fits;
    let lacks_feed = fits == text.len() && read_any_length(&[text, b"\n"].concat()).is_some();
    assert_eq!(why.contains("is byte 16385 of the text"), too_many, "{why}");
    assert_eq!(why.contains("line feed at the end"), lacks_feed, "{why}");
    if too_many {
        let column = number_behind(why, "column ");
        assert_eq!(column, Some(place.fitting + 1), "{why}");
    } else if let Some(column) = number_behind(why, "from column ") {
        let within_word = &text[begin + column - 1..fits];
        assert!(within_word.iter().all(u8::is_ascii_alphanumeric), "{why}");
        let ends = text.get(fits).copied().unwrap_or(b'\n') == b'\n';
        let needless = why.contains("a number of") && !within_word.is_empty();
        assert_eq!(why.contains("too early"), ends && !needless, "{why}");
    } else if !lacks_feed {
        compare_kinds(&text[..begin], why);
    }
}

/// Panics unless the kinds of lines that are said to be expected can stand behind these lines.
fn compare_kinds(before: &[u8], why: &str) {
    let s: Vec<&str> = S.split_inclusive('\n').collect();
    for example in [s[0], s[1], s[3], s[7], s[8]] {
        let kind = example.split(' ').next().unwrap();
        let can_stand = read_any_length(&[before, example.as_bytes()].concat()).is_some();
        assert_eq!(why.contains(&format!("\n    {kind} ")), can_stand, "{why}");
    }
}

/// The figures that refusal 3 is about, with their ranges.
const RANGES: [(&str, u64, u64); 4] = [
    ("byte", 1, 1_000),
    ("head", 0, 16),
    ("bytes", 1, 64),
    ("ticks", 1, 100_000),
];

/// Panics unless the figures that are said of a text refused with 2 to 9 are those of its lines.
fn compare_figures(text: &str, place: Failing, why: &str) {
    let lines: Vec<&str> = text.lines().collect();
    let line = lines.get(place.line - 1).copied().unwrap_or("");
    let of_kind = |kind: &str| -> Vec<usize> {
        let begin = format!("({kind} ");
        let all = (1..=lines.len()).filter(|&n| lines[n - 1].starts_with(&begin));
        all.collect()
    };
    let behind = |words| number_behind(why, words);
    let words: Vec<&str> = why.split_whitespace().collect();
    let value = words[2].trim_end_matches(',');
    let figures = [
        "byte", "head", "bytes", "ticks", "node", "process", "from", "to",
    ];
    if words[1] == "is" && figures.contains(&words[0]) {
        assert!(line.contains(&format!("({} {value})", words[0])), "{why}");
    }
    if let Some(count) = behind("must be below ") {
        let kind = words[words.len() - 2];
        assert_eq!(of_kind(kind).len(), count, "{why}");
        assert!(value.parse::<usize>().unwrap() >= count, "{why}");
    }
    match place.number {
        2 if words[0] == "this" => {
            let most: usize = words[words.len() - 1].parse().unwrap();
            assert_eq!(of_kind(words[2])[most], place.line, "{why}");
        }
        3 => {
            let mut ranges = RANGES.into_iter();
            let (_, least, most) = ranges.find(|(name, ..)| *name == words[0]).expect(why);
            let ends = format!(" must be from {least} to {most}\n");
            assert!(why.ends_with(&ends), "{why}");
            assert!(!(least..=most).contains(&value.parse().unwrap()), "{why}");
        }
        8 => compare_deciders(&of_kind("condition"), &lines, line, why),
        9 => {
            let (node, bytes) = (behind("node ").unwrap(), behind(") has ").unwrap());
            let slot = lines[behind("(line ").unwrap() - 1];
            assert_eq!(slot, format!("(slot (node {node}) (bytes {bytes}))"));
            assert!(value.parse::<usize>().unwrap() > bytes);
        }
        _ => {}
    }
}

/// Panics unless what is said of an edge refused with 8 is so; `conditions` has the numbers of the
/// condition lines.
fn compare_deciders(conditions: &[usize], lines: &[&str], edge: &str, why: &str) {
    let decides = |process| format!("(condition (process {process}))");
    let behind = |words| number_behind(why, words);
    let condition = behind("condition ").unwrap();
    assert!(edge.ends_with(&format!(" {condition})))")), "{why}");
    let decider = behind("decided by process ");
    assert_eq!(decider.is_some(), condition < conditions.len(), "{why}");
    if let Some(decider) = decider {
        assert_eq!(behind("(line "), Some(conditions[condition]), "{why}");
        assert_eq!(lines[conditions[condition] - 1], decides(decider), "{why}");
    }
    let from = number_behind(edge, "(from ").unwrap();
    assert!(
        why.contains(&format!("\n  process {from} decides ")),
        "{why}"
    );
    match behind("decides condition ") {
        Some(own) => assert_eq!(lines[conditions[own] - 1], decides(from), "{why}"),
        None => assert!(!lines.contains(&decides(from).as_str()), "{why}"),
    }
}

/// Compares what is said of these texts, as far as they are refused, and counts them by refusal.
fn compare_all(name: &str, texts: &[Vec<u8>]) -> [usize; 10] {
    let places: Vec<Option<Failing>> = texts.iter().map(|text| failing(text)).collect();
    let mut counts = [0; 10];
    std::thread::scope(|scope| {
        for number in 1..=9 {
            let refused: Vec<(&[u8], Failing)> = texts
                .iter()
                .zip(&places)
                .filter_map(|(text, place)| Some((&text[..], (*place)?)))
                .filter(|(_, place)| place.number == number)
                .collect();
            counts[usize::from(number)] = refused.len();
            scope.spawn(move || {
                let texts: Vec<&[u8]> = refused.iter().map(|&(text, _)| text).collect();
                let told = told_by(&["awk"], name, number, &texts);
                for ((text, place), said) in refused.into_iter().zip(told) {
                    compare(text, place, &said);
                }
            });
        }
    });
    counts
}

/// How many random plans of each kind are broken and damaged.
const PLANS: [(Kind, u64); 8] = [
    (Kind::Tiny, 12),
    (Kind::DenseBus, 2),
    (Kind::ManyConditions, 2),
    (Kind::NestedAny, 4),
    (Kind::Largest, 2),
    (Kind::LongestRound, 2),
    (Kind::ShortestRound, 3),
    (Kind::LongGaps, 2),
];

#[test]
fn broken_plans() {
    let mut plans = Vec::new();
    for_plans(41, &PLANS, |lines, random| {
        for number in NUMBERS {
            plans.extend((0..3).filter_map(|_| broken(lines, number, random)));
            let not_before = NUMBERS.into_iter().filter(|&n| n >= number);
            plans.extend(not_before.filter_map(|n| broken_twice(lines, number, n, random)));
        }
    });
    let texts: Vec<Vec<u8>> = plans.iter().map(print).collect();
    let counts = compare_all("broken", &texts);
    assert!(counts[1..].iter().all(|&count| count > 50), "{counts:?}");
}

#[test]
fn damaged_plans() {
    let mut texts = Vec::new();
    for_plans(42, &PLANS, |lines, random| {
        texts.extend(damaged_texts(lines, random).into_iter().map(|d| d.text));
    });
    let counts = compare_all("damaged", &texts);
    assert!(counts[1] > 500 && counts[2] > 50, "{counts:?}");
}

/// S with a byte replaced, inserted or left out, and S cut: at each place two of these.
fn damaged_everywhere() -> Vec<Vec<u8>> {
    let mut random = Random::new(43);
    let mut texts = Vec::new();
    for place in 0..S.len() {
        let (before, after) = S.as_bytes().split_at(place);
        let any = random.below(256) as u8;
        let usual = random.one_of(b"0129() \n\\altfe");
        if place % 2 == 0 {
            texts.push([before, &[any], &after[1..]].concat());
            texts.push([before, &after[1..]].concat());
        } else {
            texts.push([before, &[usual], after].concat());
            texts.push(before.to_vec());
        }
    }
    texts
}

#[test]
fn s_damaged_everywhere() {
    let counts = compare_all("everywhere", &damaged_everywhere());
    assert!(counts[1] > 800, "{counts:?}");
}

/// Random bytes behind some lines of S, or none.
#[test]
fn random_bytes() {
    let mut random = Random::new(44);
    let mut texts = Vec::new();
    for number in 0..300 {
        let bytes = (0..random.below(300)).map(|_| match number % 2 {
            0 => random.below(256) as u8,
            _ => random.one_of(b"0123456789() \nplanslotprocessconditionedge"),
        });
        let bytes: Vec<u8> = bytes.collect();
        let before = begin_of(S.as_bytes(), random.index(14) + 1);
        texts.push([&S.as_bytes()[..before], &bytes].concat());
    }
    let counts = compare_all("random", &texts);
    assert!(counts[1] > 250, "{counts:?}");
}

/// Texts about as long as one may be, whole and damaged about the last byte that counts.
#[test]
fn long_texts() {
    let mut random = Random::new(45);
    let mut texts = vec![vec![b'('; 40_000], vec![b'\n'; 40_000], vec![0; 40_000]];
    for length in (16_380..16_390).chain(16_440..16_450) {
        let text = of_length(&s(), length);
        for _ in 0..3 {
            let mut damaged = text.clone();
            let place = 16_300 + random.index(length - 16_300);
            damaged[place] = random.one_of(b"0() \n\0x");
            texts.push(damaged);
        }
        texts.push(text);
    }
    let counts = compare_all("long", &texts);
    assert!(counts[1] > 60 && counts[2] >= 5, "{counts:?}");
}

/// Every awk that is here says the same of a text.
#[test]
fn every_awk_says_the_same() {
    let damaged = damaged_everywhere();
    let chosen = damaged.iter().step_by(7).map(Vec::as_slice);
    let texts: Vec<&[u8]> = chosen
        .filter(|text| failing(text).is_some_and(|f| f.number == 1))
        .collect();
    let said = told_by(&["awk"], "awks", 1, &texts);
    for awk in awks() {
        assert_eq!(told_by(&awk, "awks", 1, &texts), said, "{awk:?}");
    }
}

/// Nothing is said of a text without refusal, of another refusal, and of a file that is not there.
#[test]
fn otherwise_nothing_is_said() {
    let folder = folder("otherwise");
    let (whole, empty) = ("whole".to_string(), "empty".to_string());
    std::fs::write(folder.join(&whole), S).expect("a file for S");
    std::fs::write(folder.join(&empty), "").expect("a file for no text");
    let mut calls: Vec<(u8, &String)> = (0..=20).map(|number| (number, &whole)).collect();
    let missing = "missing".to_string();
    calls.extend([
        (0, &empty),
        (2, &empty),
        (9, &empty),
        (10, &empty),
        (1, &missing),
    ]);
    for (number, name) in calls {
        let output = run(&["awk"], &folder, number, std::slice::from_ref(name));
        assert!(output.stdout.is_empty(), "{number} {name}");
    }
}

/// A file's name may hold anything.
#[test]
fn any_name_of_a_file() {
    let folder = folder("names");
    for name in [
        "it's", "''", "a b", "$HOME", "-v", "a=b", "`x`", "\"q\"", "b\\n*",
    ] {
        std::fs::write(folder.join(name), "(plan\n").expect("a file");
        let name = format!("./{name}");
        let output = run(&["awk"], &folder, 1, std::slice::from_ref(&name));
        assert!(output.stdout.starts_with(b"line 1: (plan\n"), "{name}");
    }
}

/// S with one text replaced by another in one of its lines, counted from 1.
fn edited(line: usize, old: &str, new: &str) -> Vec<u8> {
    let begin = begin_of(S.as_bytes(), line);
    let (before, after) = S.split_at(begin);
    assert!(after.contains(old));
    [before, &after.replacen(old, new, 1)].concat().into_bytes()
}

/// The last line of S.
const LAST_LINE: &str = "(edge (from 2) (to 3) (bytes 1) (when always))\n";

/// Lines of S, counted from 1.
fn only(lines: &[usize]) -> Vec<u8> {
    let s: Vec<&str> = S.split_inclusive('\n').collect();
    let lines = lines.iter().map(|&line| s[line - 1]);
    lines.collect::<String>().into_bytes()
}

/// Panics unless exactly this is said of a text.
fn says(name: &str, text: &[u8], expected: &str) {
    let number = failing(text).expect("a refused text").number;
    assert_eq!(told_by(&["awk"], name, number, &[text]), [expected]);
}

#[test]
fn words_for_a_wrong_beginning_of_a_line() {
    let says = |text: Vec<u8>, expected: &str| says("a_wrong_beginning_of_a_line", &text, expected);
    says(
        Vec::new(),
        "\
line 1:
  the text is empty: the plan line is missing
  expected a line of this form, N a number of one to nine digits without a needless leading zero
    (plan (byte N) (head N) (pick urgency)), or pick number
",
    );
    says(
        only(&[2, 3, 4]),
        "\
line 1: (slot (node 0) (bytes 2))
  the plan line must be the first
  expected a line of this form, N a number of one to nine digits without a needless leading zero
    (plan (byte N) (head N) (pick urgency)), or pick number
",
    );
    says(
        only(&[1, 1]),
        "\
line 2: (plan (byte 2) (head 0) (pick urgency))
  only the first line is a plan line
  expected a line of one of these forms, N a number of one to nine digits without a needless leading zero
    (slot (node N) (bytes N))
    (process (node N) (ticks N) (waits all)), or waits any
    (condition (process N))
    (edge (from N) (to N) (bytes N) (when always)), or when (true N), or when (false N)
",
    );
    says(
        [b"\xef\xbb\xbf", S.as_bytes()].concat(),
        "\
line 1: \\xef\\xbb\\xbf(plan (byte 2) (head 0) (pick urgency))
  a byte order mark (\\xef\\xbb\\xbf) stands here, and must not
  expected a line of this form, N a number of one to nine digits without a needless leading zero
    (plan (byte N) (head N) (pick urgency)), or pick number
",
    );
    says(
        edited(3, "(slot", "(Slot"),
        "\
line 3: (Slot (node 1) (bytes 2))
  no line that may stand here begins so
  expected a line of one of these forms, N a number of one to nine digits without a needless leading zero
    (slot (node N) (bytes N))
    (process (node N) (ticks N) (waits all)), or waits any
    (condition (process N))
    (edge (from N) (to N) (bytes N) (when always)), or when (true N), or when (false N)
",
    );
    says(
        edited(3, "(slot", "\n(slot"),
        "\
line 3:
  the line is empty
  expected a line of one of these forms, N a number of one to nine digits without a needless leading zero
    (slot (node N) (bytes N))
    (process (node N) (ticks N) (waits all)), or waits any
    (condition (process N))
    (edge (from N) (to N) (bytes N) (when always)), or when (true N), or when (false N)
",
    );
    says(
        only(&[1, 2, 4, 3]),
        "\
line 4: (slot (node 1) (bytes 2))
  a slot line cannot stand below a process line
  expected a line of one of these forms, N a number of one to nine digits without a needless leading zero
    (process (node N) (ticks N) (waits all)), or waits any
    (condition (process N))
    (edge (from N) (to N) (bytes N) (when always)), or when (true N), or when (false N)
",
    );
    says(
        only(&[1, 2, 4, 9, 8]),
        "\
line 5: (condition (process 0))
  a condition line cannot stand below an edge line
  expected a line of this form, N a number of one to nine digits without a needless leading zero
    (edge (from N) (to N) (bytes N) (when always)), or when (true N), or when (false N)
",
    );
}

/// A listing without the empty line before it.
#[test]
fn words_for_a_listing_behind_a_plan() {
    says(
        "a_listing_behind_a_plan",
        &[S, S_LISTING].concat().into_bytes(),
        "\
line 13: (delay 34)
  no line that may stand here begins so
  a listing begins here; where it is to be checked, an empty line stands before it
  expected a line of this form, N a number of one to nine digits without a needless leading zero
    (edge (from N) (to N) (bytes N) (when always)), or when (true N), or when (false N)
",
    );
}

#[test]
fn words_for_a_line_that_differs_inside() {
    let says = |text: Vec<u8>, expected: &str| says("a_line_that_differs_inside", &text, expected);
    says(
        edited(4, "node", "nodes"),
        "\
line 4: (process (nodes 0) (ticks 4) (waits all))
  from column 15 on, expected a blank
  the form of the line: (process (node N) (ticks N) (waits all)), or waits any
",
    );
    says(
        edited(4, "ticks", "tick"),
        "\
line 4: (process (node 0) (tick 4) (waits all))
  from column 20 on, expected \"ticks\"
  the form of the line: (process (node N) (ticks N) (waits all)), or waits any
",
    );
    says(
        edited(4, "4", "007"),
        "\
line 4: (process (node 0) (ticks 007) (waits all))
  from column 26 on, expected a number of one to nine digits without a needless leading zero
  the form of the line: (process (node N) (ticks N) (waits all)), or waits any
",
    );
    says(
        edited(4, "4", "1234567890"),
        "\
line 4: (process (node 0) (ticks 1234567890) (waits all))
  from column 26 on, expected a number of one to nine digits without a needless leading zero
  the form of the line: (process (node N) (ticks N) (waits all)), or waits any
",
    );
    says(
        edited(4, "4", "-4"),
        "\
line 4: (process (node 0) (ticks -4) (waits all))
  from column 26 on, expected a number of one to nine digits without a needless leading zero
  the form of the line: (process (node N) (ticks N) (waits all)), or waits any
",
    );
    says(
        edited(4, "4)", "4"),
        "\
line 4: (process (node 0) (ticks 4 (waits all))
  from column 27 on, expected \")\"
  the form of the line: (process (node N) (ticks N) (waits all)), or waits any
",
    );
    says(
        edited(4, "all", "some"),
        "\
line 4: (process (node 0) (ticks 4) (waits some))
  from column 36 on, expected \"all\" or \"any\"
  the form of the line: (process (node N) (ticks N) (waits all)), or waits any
",
    );
    says(
        edited(4, " (waits all)", ""),
        "\
line 4: (process (node 0) (ticks 4))
  from column 28 on, expected a blank
  the form of the line: (process (node N) (ticks N) (waits all)), or waits any
",
    );
    says(
        edited(4, "all))", "all))\r"),
        "\
line 4: (process (node 0) (ticks 4) (waits all))\\x0d
  from column 41 on, expected the end of the line; a carriage return (\\x0d) stands there, and must not
  the form of the line: (process (node N) (ticks N) (waits all)), or waits any
",
    );
    says(
        edited(4, "all))", "all)) ; trip"),
        "\
line 4: (process (node 0) (ticks 4) (waits all)) ; trip
  from column 41 on, expected the end of the line
  the form of the line: (process (node N) (ticks N) (waits all)), or waits any
",
    );
    says(
        edited(11, "\n", " (when (true 0))\n"),
        "\
line 11: (edge (from 1) (to 3) (bytes 2) (when always)) (when (true 0))
  from column 47 on, expected the end of the line
  the form of the line: (edge (from N) (to N) (bytes N) (when always)), or when (true N), or when (false N)
",
    );
    says(
        edited(9, "(true 0)", "sometimes"),
        "\
line 9: (edge (from 0) (to 1) (bytes 1) (when sometimes))
  from column 39 on, expected always, (true N) or (false N)
  the form of the line: (edge (from N) (to N) (bytes N) (when always)), or when (true N), or when (false N)
",
    );
    says(
        edited(9, "true", "yes"),
        "\
line 9: (edge (from 0) (to 1) (bytes 1) (when (yes 0)))
  from column 40 on, expected \"true\" or \"false\"
  the form of the line: (edge (from N) (to N) (bytes N) (when always)), or when (true N), or when (false N)
",
    );
    says(
        edited(1, "urgency", "speed"),
        "\
line 1: (plan (byte 2) (head 0) (pick speed))
  from column 31 on, expected \"urgency\" or \"number\"
  the form of the line: (plan (byte N) (head N) (pick urgency)), or pick number
",
    );
}

#[test]
fn words_for_a_head_that_is_not_of_the_form() {
    let says = |text: Vec<u8>, expected: &str| {
        says("a_head_that_is_not_of_the_form", &text, expected);
    };
    says(
        edited(1, " (head 0)", ""),
        "\
line 1: (plan (byte 2) (pick urgency))
  from column 17 on, expected \"head\"
  the part head is missing: write (head 0) after (byte 2)
  head is the number of bytes that a frame has beside its data, from 0 to 16
  the form of the line: (plan (byte N) (head N) (pick urgency)), or pick number
",
    );
    says(
        edited(1, "(byte 2) (head 0)", "(head 0) (byte 2)"),
        "\
line 1: (plan (head 0) (byte 2) (pick urgency))
  from column 8 on, expected \"byte\"
  the part head must stand after byte and before pick
  the form of the line: (plan (byte N) (head N) (pick urgency)), or pick number
",
    );
    says(
        edited(1, "(head 0) (pick urgency)", "(pick urgency) (head 0)"),
        "\
line 1: (plan (byte 2) (pick urgency) (head 0))
  from column 17 on, expected \"head\"
  the part head must stand after byte and before pick
  the form of the line: (plan (byte N) (head N) (pick urgency)), or pick number
",
    );
    says(
        edited(1, "(head 0)", "(head 0) (head 0)"),
        "\
line 1: (plan (byte 2) (head 0) (head 0) (pick urgency))
  from column 26 on, expected \"pick\"
  the form of the line: (plan (byte N) (head N) (pick urgency)), or pick number
",
    );
    says(
        edited(1, "head 0", "head 01"),
        "\
line 1: (plan (byte 2) (head 01) (pick urgency))
  from column 22 on, expected a number of one to nine digits without a needless leading zero
  the form of the line: (plan (byte N) (head N) (pick urgency)), or pick number
",
    );
    says(
        edited(2, "(bytes 2)", "(head 0) (bytes 2)"),
        "\
line 2: (slot (node 0) (head 0) (bytes 2))
  from column 17 on, expected \"bytes\"
  the form of the line: (slot (node N) (bytes N))
",
    );
}

#[test]
fn words_for_the_end_of_a_text() {
    let says = |text: Vec<u8>, expected: &str| says("the_end_of_a_text", &text, expected);
    says(
        S.as_bytes()[..S.len() - 1].to_vec(),
        "\
line 12: (edge (from 2) (to 3) (bytes 1) (when always))
  the line feed at the end of the last line is missing
",
    );
    says(
        S.as_bytes()[..S.len() - 5].to_vec(),
        "\
line 12: (edge (from 2) (to 3) (bytes 1) (when alwa
  the text ends too early: from column 39 on, expected always, (true N) or (false N)
  the form of the line: (edge (from N) (to N) (bytes N) (when always)), or when (true N), or when (false N)
",
    );
    says(
        [S, "(ed"].concat().into_bytes(),
        "\
line 13: (ed
  the text ends within this line
  expected a line of this form, N a number of one to nine digits without a needless leading zero
    (edge (from N) (to N) (bytes N) (when always)), or when (true N), or when (false N)
",
    );
    says(
        [S, "\0\\"].concat().into_bytes(),
        "\
line 13: \\x00\\x5c
  no line that may stand here begins so
  expected a line of this form, N a number of one to nine digits without a needless leading zero
    (edge (from N) (to N) (bytes N) (when always)), or when (true N), or when (false N)
",
    );
    says(
        [S, &"x".repeat(500), "\n"].concat().into_bytes(),
        &format!(
            "line 13: {} .. (cut here)
  no line that may stand here begins so
  expected a line of this form, N a number of one to nine digits without a needless leading zero
    (edge (from N) (to N) (bytes N) (when always)), or when (true N), or when (false N)
",
            "x".repeat(WIDEST)
        ),
    );
    says(
        [S, &LAST_LINE.repeat(400)].concat().into_bytes(),
        "\
line 351: (edge (from 2) (to 3) (bytes 1) (when always))
  column 26 is byte 16385 of the text, and a text has at most 16384
",
    );
}

#[test]
fn words_for_too_many_lines_and_missing_ones() {
    let says =
        |text: Vec<u8>, expected: &str| says("too_many_lines_and_missing_ones", &text, expected);
    says(
        only(&[1]),
        "\
line 2:
  the text ends, and there is no slot line, and a text has 1 to 8
",
    );
    says(
        only(&[1, 4]),
        "\
line 2: (process (node 0) (ticks 4) (waits all))
  above this line there is no slot line, and a text has 1 to 8
",
    );
    says(
        only(&[1, 2, 3]),
        "\
line 4:
  the text ends, and there is no process line, and a text has 1 to 64
",
    );
    says(
        only(&[1, 2, 3, 9]),
        "\
line 4: (edge (from 0) (to 1) (bytes 1) (when (true 0)))
  above this line there is no process line, and a text has 1 to 64
",
    );
    says(
        only(&[1, 2, 3, 3, 3, 3, 3, 3, 3, 3, 4]),
        "\
line 10: (slot (node 1) (bytes 2))
  this is slot line 9, and a text has at most 8
",
    );
    says(
        only(&[1, 2, 4, 8, 8, 8, 8, 8, 8, 8]),
        "\
line 10: (condition (process 0))
  this is condition line 7, and a text has at most 6
",
    );
}

#[test]
fn words_for_sizes() {
    let says = |text: Vec<u8>, expected: &str| says("sizes", &text, expected);
    says(
        edited(1, "2", "0"),
        "\
line 1: (plan (byte 0) (head 0) (pick urgency))
  byte is 0, and must be from 1 to 1000
",
    );
    says(
        edited(1, "head 0", "head 17"),
        "\
line 1: (plan (byte 2) (head 17) (pick urgency))
  head is 17, and must be from 0 to 16
",
    );
    says(
        edited(2, "2", "65"),
        "\
line 2: (slot (node 0) (bytes 65))
  bytes is 65, and must be from 1 to 64
",
    );
    says(
        edited(7, "ticks 2", "ticks 100001"),
        "\
line 7: (process (node 0) (ticks 100001) (waits any))
  ticks is 100001, and must be from 1 to 100000
",
    );
    says(
        edited(9, "bytes 1", "bytes 0"),
        "\
line 9: (edge (from 0) (to 1) (bytes 0) (when (true 0)))
  bytes is 0, and must be from 1 to 64
",
    );
}

#[test]
fn words_for_nodes_and_conditions() {
    let says = |text: Vec<u8>, expected: &str| says("nodes_and_conditions", &text, expected);
    says(
        edited(5, "node 1", "node 2"),
        "\
line 5: (process (node 2) (ticks 3) (waits all))
  node is 2, and must be below 2, the number of slot lines
",
    );
    says(
        edited(3, "node 1", "node 0"),
        "\
line 3: (slot (node 0) (bytes 2))
  node 0 has a slot already, and each node has exactly one:
  line 2: (slot (node 0) (bytes 2))
",
    );
    says(
        edited(8, "0", "4"),
        "\
line 8: (condition (process 4))
  process is 4, and must be below 4, the number of process lines
",
    );
    says(
        only(&[1, 2, 3, 4, 8, 8]),
        "\
line 6: (condition (process 0))
  process 0 decides a condition already, and decides at most one:
  line 5: (condition (process 0))
",
    );
}

#[test]
fn words_for_edges() {
    let says = |text: Vec<u8>, expected: &str| says("edges", &text, expected);
    says(
        edited(10, "to 2", "to 4"),
        "\
line 10: (edge (from 0) (to 4) (bytes 1) (when (false 0)))
  to is 4, and must be below 4, the number of process lines
",
    );
    says(
        edited(11, "from 1", "from 3"),
        "\
line 11: (edge (from 3) (to 3) (bytes 2) (when always))
  from is 3 and to is 3, and from must be below to
",
    );
    says(
        edited(10, "to 2", "to 1"),
        "\
line 10: (edge (from 0) (to 1) (bytes 1) (when (false 0)))
  an edge from 0 to 1 is there already; put both messages into one:
  line 9: (edge (from 0) (to 1) (bytes 1) (when (true 0)))
",
    );
    says(
        edited(11, "always", "(true 0)"),
        "\
line 11: (edge (from 1) (to 3) (bytes 2) (when (true 0)))
  condition 0 is decided by process 0 (line 8), and this edge is from process 1
  process 1 decides no condition: write always
",
    );
    says(
        edited(9, "true 0", "true 1"),
        "\
line 9: (edge (from 0) (to 1) (bytes 1) (when (true 1)))
  there is no condition 1: the number of condition lines is 1, and they are numbered from 0
  process 0 decides condition 0: write (true 0), (false 0) or always
",
    );
    says(
        edited(11, "bytes 2", "bytes 3"),
        "\
line 11: (edge (from 1) (to 3) (bytes 3) (when always))
  bytes is 3, and the slot of its sender's node 1 (line 3) has 2
",
    );
}

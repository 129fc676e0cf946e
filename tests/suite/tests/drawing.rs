//! Pictures of plans: S, random ones, one combination of a largest, and refusals.

use std::path::{Path, PathBuf};

use generate::{plan, Kind, Random};
use reference::who_runs::Combination;
use suite::drawing::{compare, draw, picture};
use suite::{s, With};

/// The files of a test, without their extensions.
fn files(test: &str) -> PathBuf {
    Path::new(env!("CARGO_TARGET_TMPDIR")).join(test)
}

/// The words after `awk` that draw one combination alone.
fn only(combination: Combination) -> Vec<String> {
    vec!["-v".into(), format!("only={combination}")]
}

#[test]
fn s_is_drawn() {
    let lines = s();
    compare(&files("s"), &lines, &[0, 1], &[]);
    let picture = picture(&files("s"), &lines, &[]);
    for title in [
        "process 0: ticks 0 to 4",
        "process 3: ticks 32 to 34",
        "tell 0: frame of unit 0, ticks 8 to 12",
        "combination 1: condition 0 true; ends at 34, the worst delay",
        ">worst delay 34 (red line), passed over 0 (node 0), 0 (node 1)<",
        ">0 false<",
    ] {
        assert!(picture.contains(title), "{title}");
    }
}

#[test]
fn frames_are_drawn_with_their_head() {
    let lines = s().head(1);
    compare(&files("head"), &lines, &[0, 1], &[]);
    let picture = picture(&files("head"), &lines, &[]);
    for title in [
        "tell 0: frame of unit 0, ticks 12 to 18",
        "send 2: frame of unit 1, ticks 42 to 48",
        "combination 1: condition 0 true; ends at 50, the worst delay",
        ">worst delay 50 (red line), passed over 0 (node 0), 0 (node 1), head 1<",
    ] {
        assert!(picture.contains(title), "{title}");
    }
}

#[test]
fn random_plans_are_drawn() {
    let mut random = Random::new(31);
    for kind in [Kind::Tiny, Kind::NestedAny, Kind::DenseBus] {
        for _ in 0..6 {
            let lines = plan(kind, &mut random);
            if reference::plan(&lines, 15_000, 6_000).is_ok() {
                let all: Vec<Combination> = reference::who_runs::combinations(&lines).collect();
                compare(&files("random"), &lines, &all, &[]);
            }
        }
    }
}

#[test]
fn one_combination_of_a_largest_plan_is_drawn() {
    let lines = (0..)
        .map(|number| plan(Kind::Largest, &mut Random::new(number)))
        .find(|lines| reference::plan(lines, 15_000, 6_000).is_ok())
        .expect("a plan that is accepted");
    compare(&files("largest"), &lines, &[37], &only(37));
}

#[test]
fn a_refused_plan_and_a_combination_that_is_none_are_not_drawn() {
    let refused = draw(&files("refused"), b"(plan\n", &[]);
    assert_eq!(refused.status.code(), Some(1));
    assert!(refused.stdout.is_empty());
    let said = String::from_utf8(refused.stderr).unwrap();
    assert!(said.contains("the plan is refused with 1"));
    let none = draw(&files("none"), &reference::print(&s()), &only(2));
    assert_eq!(none.status.code(), Some(1));
    assert!(none.stdout.is_empty());
}

//! The picture of a plan: what `draw/draw.awk` draws is counted and compared with the table.

use std::collections::BTreeSet;
use std::path::{Path, PathBuf};
use std::process::{Command, Output};

use reference::table::{entries, row, row_node, Row};
use reference::who_runs::Combination;
use reference::{bus, Lines};

use crate::planned;

/// Draws a plan from its text and listing, with these words after `awk`; `files` is where the files
/// of the test may lie, without their extensions.
pub fn draw(files: &Path, text: &[u8], words: &[String]) -> Output {
    let (text_file, listing_file) = (
        files.with_extension("plan"),
        files.with_extension("listing"),
    );
    std::fs::write(&text_file, text).expect("a file for the text");
    std::fs::write(&listing_file, reference::program(text)).expect("a file for the listing");
    let script = PathBuf::from(env!("CARGO_MANIFEST_DIR")).join("../../draw/draw.awk");
    Command::new("awk")
        .args(words)
        .arg("-f")
        .arg(script)
        .args([text_file, listing_file])
        .output()
        .expect("awk")
}

/// The picture of a plan that is accepted.
pub fn picture(files: &Path, lines: &Lines, words: &[String]) -> String {
    let output = draw(files, &reference::print(lines), words);
    assert!(output.status.success() && output.stderr.is_empty());
    String::from_utf8(output.stdout).expect("text")
}

/// Panics unless the elements of a picture are nested as they should be.
fn well_formed(picture: &str) {
    let mut open: Vec<&str> = Vec::new();
    for part in picture.split('<').skip(1) {
        let (tag, rest) = part.split_once('>').expect("the end of a tag");
        assert!(!rest.contains('>') && !rest.contains('&'));
        let name = tag.trim_start_matches('/').split(' ').next().unwrap();
        if tag.starts_with('/') {
            assert_eq!(open.pop(), Some(name));
        } else if !tag.ends_with('/') {
            open.push(name);
        }
    }
    assert!(open.is_empty());
}

/// The titles that the boxes of some combinations should have, in no order.
fn titles(lines: &Lines, combinations: &[Combination]) -> Vec<String> {
    let planned = planned(lines);
    let mut titles = Vec::new();
    for &combination in combinations {
        let mut frames = BTreeSet::new();
        for entry in entries(&planned.words) {
            if !entry.met(combination) {
                continue;
            }
            let of = row(lines, entry.row).expect("a row of the plan");
            let begin = u64::from(entry.tick);
            if let Row::Process(process) = of {
                let end = begin + lines.processes[process].ticks;
                titles.push(format!("process {process}: ticks {begin} to {end}"));
            } else {
                frames.insert((begin, row_node(lines, of)));
            }
        }
        titles.extend(frames.iter().map(|&(begin, node)| {
            let end = begin + bus::slot_ticks_of(lines, node);
            format!("frame of unit {node}, ticks {begin} to {end}")
        }));
    }
    titles.sort();
    titles
}

/// The titles that the boxes of a picture have; of a frame's, what stands behind its items.
fn titles_in(picture: &str) -> Vec<String> {
    let mut titles: Vec<String> = picture
        .split("<title>")
        .skip(1)
        .map(|part| {
            let title = part.split("</title>").next().unwrap();
            let frame = title.find("frame of").unwrap_or(0);
            title[frame..].to_string()
        })
        .collect();
    titles.sort();
    titles
}

/// Compares the picture of some combinations of a plan with its table.
pub fn compare(files: &Path, lines: &Lines, combinations: &[Combination], words: &[String]) {
    let picture = picture(files, lines, words);
    well_formed(&picture);
    let panels = picture.matches("<g class=\"combination\">").count();
    assert_eq!(panels, combinations.len());
    assert_eq!(titles_in(&picture), titles(lines, combinations));
    let planned = planned(lines);
    let counts = planned.passed_by_node.iter().enumerate();
    let counts: Vec<String> = counts
        .map(|(node, count)| format!("{count} (node {node})"))
        .collect();
    let (delay, passed) = (planned.delay, counts.join(", "));
    let top = format!(">worst delay {delay} (red line), passed over {passed}");
    assert!(picture.contains(&top), "{top}");
}

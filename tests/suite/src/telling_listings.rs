//! Where listings fail: what `where/listing.awk` says of refused ones.

use std::path::Path;
use std::process::Output;

use reference::{failing_listing, print, FailingListing, Lines};

use crate::telling::{self, folder, one_by_one};

/// The scripts that say where a listing fails.
const SCRIPTS: [&str; 3] = ["text.awk", "table.awk", "listing.awk"];

/// The refusals that a listing can meet.
pub const NUMBERS: [u8; 10] = [13, 14, 15, 16, 17, 18, 19, 20, 21, 22];

/// A refused listing of a plan, and where it fails.
pub struct Refused {
    /// The plan.
    pub lines: Lines,
    /// The listing.
    pub listing: Vec<u8>,
    /// Where it fails by the reference.
    pub place: FailingListing,
}

/// A listing of a plan with these pass-over counts, if it is refused.
pub fn refused(lines: &Lines, listing: Vec<u8>, pass_overs: &[u64]) -> Option<Refused> {
    let place = failing_listing(lines, &listing, pass_overs)?;
    Some(Refused {
        lines: lines.clone(),
        listing,
        place,
    })
}

/// What the scripts say of pairs of files, plan and listing, refused with this number.
pub fn run(awk: &[&str], folder: &Path, number: u8, names: &[String]) -> Output {
    telling::run(awk, &SCRIPTS, folder, number, names)
}

/// What is said of each of these listings, all refused with this number; their files lie in the folder.
pub fn told_by(awk: &[&str], folder: &Path, number: u8, all: &[&Refused]) -> Vec<String> {
    let mut names = Vec::new();
    for (i, refused) in all.iter().enumerate() {
        let texts = [
            ("plan", &print(&refused.lines)),
            ("listing", &refused.listing),
        ];
        for (kind, text) in texts {
            let name = format!("{number}-{i}.{kind}");
            std::fs::write(folder.join(&name), text).expect("a file for a text");
            names.push(name);
        }
    }
    one_by_one(&run(awk, folder, number, &names))
}

/// Panics unless exactly this is said of a listing of a plan that passes nothing over, refused with this
/// number. The files of the test lie below a folder for all tests.
pub fn says_of(below: &str, lines: &Lines, listing: &str, number: u8, expected: &str) {
    let none = vec![0; lines.slots.len()];
    let refused = refused(lines, listing.as_bytes().to_vec(), &none).expect("a refused listing");
    assert_eq!(refused.place.number, number, "{listing}");
    let thread = std::thread::current();
    let name = format!("words {}", thread.name().unwrap_or_default());
    let told = told_by(&["awk"], &folder(below, &name), number, &[&refused]);
    assert_eq!(told, [expected]);
}

/// What is said where a line of this form is expected.
pub fn expected(form: &str) -> String {
    format!(
        "  expected a line of this form, N a number of one to nine digits without a needless leading zero
    {form}
"
    )
}

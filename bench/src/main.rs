//! Plain mirrors of `pebbles`: the same answers by arrays alone, for boards whose places all hold
//! labels. Two answer `solve`, `report` and `check`, of documents up to symmetries too, and number
//! configurations by ranks or by classes; one answers `report` by the gaps of classes, and one
//! `report` and `starts` by the orbits of gaps. A fifth counts chains. README.md says what they are
//! for.

mod board;
mod chains;
mod check;
mod class_check;
mod class_document;
mod classes;
mod document;
mod gaps;
mod levels;
mod lists;
mod measure;
mod normal;
mod numbering;
mod orbits;
mod proof;
mod ranks;
mod reader;
mod report;
mod space;
mod symmetries;
mod values;

use board::Board;
use classes::Classes;
use numbering::Numbering;
use proof::{Proof, Version};
use ranks::Ranks;
use std::io::Write as _;

/// Reads an element without a bound test, as proved code does.
#[inline(always)]
fn at<T: Copy>(items: &[T], place: u32) -> T {
    debug_assert!((place as usize) < items.len());
    // Safety: places are numbers, gaps and labels of one board, for which the tables were made.
    unsafe { *items.get_unchecked(place as usize) }
}

/// Lends an element without a bound test.
#[inline(always)]
fn at_mut<T>(items: &mut [T], place: u32) -> &mut T {
    debug_assert!((place as usize) < items.len());
    // Safety: as for `at`.
    unsafe { items.get_unchecked_mut(place as usize) }
}

/// Ends the mirror with this on standard error.
#[cold]
fn refuse(told: &str) -> ! {
    eprintln!("mirror: {told}");
    std::process::exit(2)
}

/// What a file has.
fn contents(path: Option<&String>) -> Vec<u8> {
    let path = path.unwrap_or_else(|| refuse(USAGE));
    std::fs::read(path).unwrap_or_else(|error| refuse(&format!("{path}: {error}")))
}

const USAGE: &str = "ranks COMMAND, classes COMMAND, gaps report BOARD, orbits report MAPS BOARD, \
                     orbits starts MAPS BOARD, chains BOARD or measure PROGRAM; COMMAND is solve BOARD, \
                     solve-large BOARD, report BOARD or check BOARD PROOF";

/// The output of a command by one numbering.
fn output<N: Numbering>(words: &[String]) -> Vec<u8> {
    let Some(command) = words.first() else { refuse(USAGE) };
    let board = Board::read(&contents(words.get(1)));
    match command.as_str() {
        "solve" => document::document::<N>(&board),
        "report" => report::report::<N>(&board),
        "check" => {
            let text = contents(words.get(2));
            let proof = Proof::read(&board, &text);
            match proof.version {
                Version::Configurations => check::check(&board, proof),
                Version::Classes | Version::UpToSymmetries => class_check::check(&board, &proof),
            }
            .into_bytes()
        }
        "solve-large" => class_document::document(&board),
        _ => refuse(USAGE),
    }
}

fn main() {
    let words: Vec<String> = std::env::args().collect();
    let word = |place: usize| words.get(place).map_or("", String::as_str);
    let output = match (word(1), word(2)) {
        ("ranks", _) => output::<Ranks>(&words[2..]),
        ("classes", _) => output::<Classes>(&words[2..]),
        ("gaps", "report") => gaps::report(&Board::read(&contents(words.get(3)))),
        ("orbits", command) => orbits::output(command, &contents(words.get(3)), &contents(words.get(4))),
        ("chains", path) if !path.is_empty() => chains::chains(&Board::read(&contents(words.get(2)))),
        ("measure", program) if !program.is_empty() => measure::measure(&words[2..]).into_bytes(),
        _ => refuse(USAGE),
    };
    std::io::stdout().write_all(&output).unwrap();
    std::process::exit(0);
}

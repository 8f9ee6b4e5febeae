//! The text of a document with the claim `value k` or `forever`.

use crate::board::Board;
use crate::reader::Reader;
use crate::symmetries::Images;
use crate::values::FOREVER;

/// The greatest number of a claim and of a row.
const MOST_TURNS: u32 = 1_000_000_000;

/// The greatest number of maps.
const MOST_MAPS: u32 = 64;

/// The versions of the format: rows for configurations, for classes, or for all places that maps of
/// labels take to one another.
#[derive(Clone, Copy, PartialEq)]
pub enum Version {
    Configurations,
    Classes,
    UpToSymmetries,
}

impl Version {
    pub fn of(text: &[u8]) -> Version {
        if text.starts_with(b"proof 2\n") {
            Version::Classes
        } else if text.starts_with(b"proof 3\n") {
            Version::UpToSymmetries
        } else {
            Version::Configurations
        }
    }

    fn line(self) -> &'static str {
        match self {
            Version::Configurations => "proof 1\n",
            Version::Classes => "proof 2\n",
            Version::UpToSymmetries => "proof 3\n",
        }
    }

    fn most_rows(self) -> u32 {
        match self {
            Version::Configurations => 1 << 20,
            Version::Classes | Version::UpToSymmetries => 1 << 24,
        }
    }
}

pub struct Row {
    pub labels: [u32; 6],
    pub turns: u32,
    /// The answer to each request, or the request: a pebble, or the label of one.
    pub moves: [u32; 6],
}

pub struct Proof {
    pub version: Version,
    pub claim: u32,
    pub maps: Vec<Images>,
    pub labeller: Vec<Row>,
    /// None if the claim is for ever.
    pub adversary: Vec<Row>,
}

impl Proof {
    pub fn read(board: &Board, text: &[u8]) -> Proof {
        let version = Version::of(text);
        let mut text = Reader::of(text);
        text.take(version.line());
        let is_forever = text.does_begin("forever\n");
        text.take(if is_forever { "forever\n" } else { "value " });
        let claim = if is_forever { FOREVER } else { text.number(0..=MOST_TURNS, b'\n') };
        let has_maps = version == Version::UpToSymmetries;
        let maps = if has_maps { read_maps(board, &mut text) } else { Vec::new() };
        text.take("labeller ");
        let labeller = read_rows(board, version, &mut text, |row, text| {
            if is_forever {
                text.take("* ");
                row.turns = FOREVER;
            } else {
                row.turns = text.number(1..=MOST_TURNS, b' ');
            }
            text.take("take ");
            text.numbers(&mut row.moves[..board.pebbles as usize], board.labels - 1, b'\n');
        });
        let mut adversary = Vec::new();
        if !is_forever {
            text.take("adversary ");
            adversary = read_rows(board, version, &mut text, |row, text| {
                row.turns = text.number(0..=MOST_TURNS, b' ');
                text.take("ask ");
                let is_by_classes = version != Version::Configurations;
                let most = if is_by_classes { board.labels } else { board.pebbles } - 1;
                row.moves[0] = text.number(0..=most, b'\n');
                if is_by_classes && !row.labels[..board.pebbles as usize].contains(&row.moves[0]) {
                    text.refuse("a label of the row was wanted");
                }
            });
        }
        text.take("end\n");
        text.end();
        Proof { version, claim, maps, labeller, adversary }
    }

    /// What the mirror prints of the document.
    pub fn verdict(&self, is_shown: bool) -> String {
        match self.claim {
            _ if !is_shown => String::from("refused\n"),
            FOREVER => String::from("accepted forever\n"),
            value => format!("accepted value {value}\n"),
        }
    }
}

/// The maps of labels, as many as are said before them.
pub fn read_maps(board: &Board, text: &mut Reader) -> Vec<Images> {
    text.take("symmetries ");
    let count = text.number(0..=MOST_MAPS, b'\n');
    let mut labels = vec![0; board.labels as usize];
    let mut read = |_| {
        text.take("map ");
        text.numbers(&mut labels, board.labels - 1, b'\n');
        let mut images = [0; 256];
        labels.iter().zip(&mut images).for_each(|(label, image)| *image = *label as u8);
        images
    };
    (0..count).map(&mut read).collect()
}

/// The rows of a section, each later than the one before it. What comes after the places is read by `rest`.
fn read_rows(
    board: &Board,
    version: Version,
    text: &mut Reader,
    rest: impl Fn(&mut Row, &mut Reader),
) -> Vec<Row> {
    let count = text.number(0..=version.most_rows(), b'\n');
    let mut rows: Vec<Row> = Vec::new();
    for _ in 0..count {
        let mut row = Row { labels: [0; 6], turns: 0, moves: [0; 6] };
        text.take("at ");
        let labels = &mut row.labels[..board.pebbles as usize];
        text.numbers(labels, board.labels - 1, b' ');
        let is_arranged = version == Version::Configurations || labels.is_sorted();
        if !is_arranged || rows.last().is_some_and(|last| last.labels >= row.labels) {
            text.refuse("arranged places after those of the last row were wanted");
        }
        text.take("for ");
        rest(&mut row, text);
        rows.push(row);
    }
    rows
}

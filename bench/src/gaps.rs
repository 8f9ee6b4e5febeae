//! The report of a board by its gaps: no number of a class, and no table of classes.
//!
//! A gap is a list of all labels but one. A class is stuck if one of its gaps has no answer: for the
//! list of all labels of a gap but one, the row `dead` has the labels with which no label beats all,
//! so that the labels with which a gap makes a stuck class are the union of the rows of its lists.
//! Its answers that are left are those of the next rounds.

use crate::board::Board;
use crate::levels::{Level, Row, above, and, bit, count, insertions, is_empty, or, row, set, without};
use crate::lists::Ways;
use crate::report::report_text;
use crate::space::for_each_bit;

/// The most gaps, by which no number of one is above 32 bits.
const MAX_GAPS: u64 = 1 << 25;

/// The lists of all pebbles but two, and what they say of gaps.
struct Rows<'a, const W: usize> {
    board: &'a Board,
    pebbles: usize,
    ways: Ways,
    /// The lists of each length up to that.
    levels: Vec<Level<W>>,
    every: Row<W>,
    beats: Vec<Row<W>>,
    /// The labels with which a list has no answer.
    dead: Vec<Row<W>>,
}

impl<'a, const W: usize> Rows<'a, W> {
    fn of(board: &'a Board, ways: Ways) -> Rows<'a, W> {
        let pebbles = board.pebbles as usize;
        let mut levels = vec![Level::empty(board)];
        for length in 0..pebbles - 2 {
            levels.push(levels[length].longer(board, &ways));
        }
        let every = row(&board.every());
        let beats: Vec<Row<W>> = board.beats.iter().map(row).collect();
        let dead = levels[pebbles - 2].answers.iter().map(|answers| {
            let mut beaten = [0; W];
            for_each_bit(answers, |label| beaten = or(&beaten, &beats[label as usize]));
            without(&every, &beaten)
        });
        let dead = dead.collect();
        Rows { board, pebbles, ways, levels, every, beats, dead }
    }

    #[inline(always)]
    fn base(&self) -> &Level<W> {
        &self.levels[self.pebbles - 2]
    }

    /// The answers of the gap of a list and its greatest label.
    #[inline(always)]
    fn answers(&self, list: u32, label: u32) -> Row<W> {
        and(&self.base().answers[list as usize], &row(&self.board.beaten_by[label as usize]))
    }

    /// The labels with which the gap of a list and its greatest label makes a stuck class.
    #[inline(always)]
    fn stuck(&self, answers: &Row<W>, list: u32, label: u32) -> Row<W> {
        if is_empty(answers) {
            return self.every;
        }
        let below = self.ways.below(self.pebbles - 2, label);
        let length = self.base().length;
        let others = &self.base().minus[list as usize * length..][..length];
        let own = self.dead[list as usize];
        others.iter().fold(own, |stuck, other| or(&stuck, &self.dead[(below + other) as usize]))
    }

    /// The number of the gap of these ascending labels.
    fn gap_of(&self, labels: &[u32]) -> u32 {
        (1..).zip(labels).map(|(length, label)| self.ways.below(length, *label)).sum()
    }
}

/// How many configurations are stuck, and the gaps that have answers and none that is left.
#[inline(never)]
fn first_round<const W: usize>(rows: &Rows<W>) -> (u64, Vec<u32>) {
    let pebbles = rows.pebbles as u32;
    let mut filed = 0;
    let mut closing = Vec::new();
    let mut gap = 0;
    for label in 0..rows.board.labels {
        let later = above(&rows.every, label);
        for list in 0..rows.ways.below(rows.pebbles - 2, label + 1) {
            let answers = rows.answers(list, label);
            let stuck = rows.stuck(&answers, list, label);
            let copies = u32::from(rows.base().copies_with(list, label));
            let orders = rows.base().orders[list as usize] * (pebbles - 1) / copies * pebbles;
            filed += u64::from(count(&and(&stuck, &later)) * orders);
            if bit(&stuck, label) {
                filed += u64::from(orders / (copies + 1));
            }
            if !is_empty(&answers) && is_empty(&without(&answers, &stuck)) {
                closing.push(gap);
            }
            gap += 1;
        }
    }
    (filed, closing)
}

/// The rounds after the first.
struct Rounds<'a, const W: usize> {
    rows: &'a Rows<'a, W>,
    gaps: Level<W>,
    /// For each list of all pebbles but two and each label the gap of both.
    insertions: Vec<u32>,
    /// For each gap the labels with which it makes a class that has a value.
    filed: Vec<Row<W>>,
    /// The gaps that close in the next round.
    next: Vec<u32>,
}

impl<'a, const W: usize> Rounds<'a, W> {
    fn of(rows: &'a Rows<'a, W>) -> Rounds<'a, W> {
        let gaps = rows.base().longer(rows.board, &rows.ways);
        let insertions = insertions(&rows.ways, rows.board.labels, rows.pebbles - 2);
        let mut filed = Vec::with_capacity(gaps.size());
        for gap in 0..gaps.size() {
            let list = gaps.minus[gap * gaps.length];
            filed.push(rows.stuck(&gaps.answers[gap], list, u32::from(gaps.greatest[gap])));
        }
        Rounds { rows, gaps, insertions, filed, next: Vec::new() }
    }

    /// The labels of a gap, greatest first.
    fn labels_of(&self, gap: u32) -> [u32; 6] {
        let mut labels = [0; 6];
        let mut list = gap as usize;
        for place in 0..self.gaps.length {
            let level = if place == 0 { &self.gaps } else { &self.rows.levels[self.gaps.length - place] };
            labels[place] = u32::from(level.greatest[list]);
            list = level.minus[list * level.length] as usize;
        }
        labels
    }

    /// Closes a gap: gives how many configurations get a value by it, and tells the other gaps.
    fn close(&mut self, gap: u32) -> u64 {
        let open = without(&self.rows.every, &self.filed[gap as usize]);
        if is_empty(&open) {
            return 0;
        }
        self.filed[gap as usize] = self.rows.every;
        let orders = self.gaps.orders[gap as usize] * self.rows.pebbles as u32;
        let labels = self.labels_of(gap);
        let mut filed = 0;
        let mut others = count(&open);
        let mut copies = 0;
        for place in 0..self.gaps.length {
            let label = labels[place];
            copies += 1;
            if place + 1 < self.gaps.length && labels[place + 1] == label {
                continue;
            }
            if bit(&open, label) {
                others -= 1;
                filed += u64::from(orders / (copies + 1));
            }
            copies = 0;
            self.tell(self.gaps.minus[gap as usize * self.gaps.length + place], label, &open);
        }
        filed + u64::from(others * orders)
    }

    /// Tells the gaps of a list and each of the labels that are open that this label isn't.
    #[inline(always)]
    fn tell(&mut self, list: u32, label: u32, open: &Row<W>) {
        let labels = self.rows.board.labels as usize;
        let row = &self.insertions[list as usize * labels..][..labels];
        let does_beat_list = bit(&self.rows.base().answers[list as usize], label);
        let beaten = self.rows.beats[label as usize];
        for_each_bit(open, |x| {
            let other = row[x as usize];
            let told = &mut self.filed[other as usize];
            set(told, label);
            let is_answer = does_beat_list && bit(&beaten, x);
            if is_answer && is_empty(&without(&self.gaps.answers[other as usize], told)) {
                self.next.push(other);
            }
        });
    }
}

/// The value of the start, and how many configurations have each finite value.
fn solved_by<const W: usize>(board: &Board, ways: Ways) -> (Option<u32>, Vec<u64>) {
    let rows = Rows::<W>::of(board, ways);
    let (filed, closing) = first_round(&rows);
    let mut sizes = Vec::new();
    if filed == 0 {
        return (None, sizes);
    }
    sizes.push(filed);
    let mut start = board.start.clone();
    start.sort();
    let last = start.pop().unwrap_or(0);
    let gap = rows.gap_of(&start);
    let greatest = start.pop().unwrap_or(0);
    let list = rows.gap_of(&start);
    if bit(&rows.stuck(&rows.answers(list, greatest), list, greatest), last) {
        return (Some(0), sizes_of(&rows, sizes, closing, |_| ()));
    }
    let mut value = None;
    let sizes = sizes_of(&rows, sizes, closing, |rounds: &Told<W>| {
        if value.is_none() && bit(&rounds.filed[gap as usize], last) {
            value = Some(rounds.value);
        }
    });
    (value, sizes)
}

/// What is known after a round.
struct Told<'a, const W: usize> {
    filed: &'a [Row<W>],
    value: u32,
}

/// The sizes after all rounds; `after` is called after each.
#[inline(never)]
fn sizes_of<const W: usize>(
    rows: &Rows<W>,
    mut sizes: Vec<u64>,
    closing: Vec<u32>,
    mut after: impl FnMut(&Told<W>),
) -> Vec<u64> {
    if closing.is_empty() {
        return sizes;
    }
    let mut rounds = Rounds::of(rows);
    let mut todo = closing;
    loop {
        let filed = todo.iter().map(|gap| rounds.close(*gap)).sum::<u64>();
        if filed == 0 {
            return sizes;
        }
        after(&Told { filed: &rounds.filed, value: sizes.len() as u32 });
        sizes.push(filed);
        std::mem::swap(&mut todo, &mut rounds.next);
        rounds.next.clear();
    }
}

pub fn report(board: &Board) -> Vec<u8> {
    if board.pebbles < 2 {
        crate::refuse("1 pebble, and the mirror by gaps takes 2 to 6");
    }
    let ways = Ways::of(board.labels, board.pebbles as usize - 1);
    Board::limit(ways.most(), MAX_GAPS, "gaps");
    let (value, sizes) = match board.labels.div_ceil(64) {
        1 => solved_by::<1>(board, ways),
        2 => solved_by::<2>(board, ways),
        _ => solved_by::<4>(board, ways),
    };
    report_text(board, value, &sizes)
}

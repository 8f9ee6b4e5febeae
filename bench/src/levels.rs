//! Lists of labels, all of one length, level by level: each list is its greatest label and the list
//! of the others. The number of a list is that of the lists with a smaller greatest label and that
//! of the others, so that a table of a level is made from that of the level below by blocks, one for
//! each greatest label, that are copied with a constant added.

use crate::at;
use crate::board::Board;
use crate::lists::Ways;

/// A bit for each label.
pub type Row<const W: usize> = [u64; W];

#[inline(always)]
pub fn and<const W: usize>(x: &Row<W>, y: &Row<W>) -> Row<W> {
    std::array::from_fn(|word| x[word] & y[word])
}

#[inline(always)]
pub fn or<const W: usize>(x: &Row<W>, y: &Row<W>) -> Row<W> {
    std::array::from_fn(|word| x[word] | y[word])
}

#[inline(always)]
pub fn without<const W: usize>(x: &Row<W>, y: &Row<W>) -> Row<W> {
    std::array::from_fn(|word| x[word] & !y[word])
}

#[inline(always)]
pub fn is_empty<const W: usize>(x: &Row<W>) -> bool {
    x.iter().fold(0, |all, word| all | word) == 0
}

#[inline(always)]
pub fn count<const W: usize>(x: &Row<W>) -> u32 {
    x.iter().map(|word| word.count_ones()).sum()
}

#[inline(always)]
pub fn bit<const W: usize>(x: &Row<W>, label: u32) -> bool {
    x[label as usize / 64] >> (label % 64) & 1 != 0
}

#[inline(always)]
pub fn set<const W: usize>(x: &mut Row<W>, label: u32) {
    x[label as usize / 64] |= 1 << (label % 64);
}

/// The labels above this one.
#[inline(always)]
pub fn above<const W: usize>(x: &Row<W>, label: u32) -> Row<W> {
    std::array::from_fn(|word| {
        let first = word as u32 * 64;
        match label {
            _ if label < first => x[word],
            _ if label - first >= 63 => 0,
            _ => x[word] >> (label - first + 1) << (label - first + 1),
        }
    })
}

/// The first words of a row of all labels.
pub fn row<const W: usize>(labels: &[u64; 4]) -> Row<W> {
    std::array::from_fn(|word| labels[word])
}

/// All lists of one length.
pub struct Level<const W: usize> {
    pub length: usize,
    /// The labels that beat all of a list.
    pub answers: Vec<Row<W>>,
    /// The greatest label of each list, and how often the list has it.
    pub greatest: Vec<u8>,
    pub copies: Vec<u8>,
    /// In how many orders the labels of each list can be put.
    pub orders: Vec<u32>,
    /// For each list the numbers of the lists without one of its labels, the greatest one first.
    pub minus: Vec<u32>,
}

impl<const W: usize> Level<W> {
    pub fn empty(board: &Board) -> Level<W> {
        Level {
            length: 0,
            answers: vec![row(&board.every())],
            greatest: vec![0],
            copies: vec![0],
            orders: vec![1],
            minus: Vec::new(),
        }
    }

    pub fn size(&self) -> usize {
        self.answers.len()
    }

    /// The lists that are longer by one.
    pub fn longer(&self, board: &Board, ways: &Ways) -> Level<W> {
        let labels = board.labels;
        let length = self.length + 1;
        let size = ways.below(length, labels) as usize;
        let mut longer = Level {
            length,
            answers: Vec::with_capacity(size),
            greatest: Vec::with_capacity(size),
            copies: Vec::with_capacity(size),
            orders: Vec::with_capacity(size),
            minus: Vec::with_capacity(size * length),
        };
        for label in 0..labels {
            let beaten_by = row(&board.beaten_by[label as usize]);
            let below = ways.below(self.length, label);
            for list in 0..ways.below(self.length, label + 1) {
                longer.answers.push(and(&self.answers[list as usize], &beaten_by));
                let copies = self.copies_with(list, label);
                let together = at(&self.orders, list) * length as u32;
                longer.greatest.push(label as u8);
                longer.copies.push(copies);
                longer.orders.push(together / u32::from(copies));
                longer.minus.push(list);
                let others = &self.minus[list as usize * self.length..][..self.length];
                longer.minus.extend(others.iter().map(|other| below + other));
            }
        }
        longer
    }

    /// How often a list has this label, none of it being greater, when it has come to the list.
    #[inline(always)]
    pub fn copies_with(&self, list: u32, label: u32) -> u8 {
        let is_equal = self.length > 0 && u32::from(at(&self.greatest, list)) == label;
        if is_equal { at(&self.copies, list) + 1 } else { 1 }
    }
}

/// For each list of a length and each label the number of the list with the label: below the list's
/// greatest label those of the list of the others, which follow all lists with a smaller greatest
/// label, and from it on the list itself under the new one.
pub fn insertions(ways: &Ways, labels: u32, length: usize) -> Vec<u32> {
    let mut table: Vec<u32> = (0..labels).collect();
    for shorter in 0..length {
        let mut longer = Vec::new();
        let mut number = 0;
        for label in 0..labels {
            let below = ways.below(shorter + 2, label);
            for list in 0..ways.below(shorter, label + 1) {
                let row = &table[(list * labels) as usize..][..label as usize];
                longer.extend(row.iter().map(|other| below + other));
                longer.extend((label..labels).map(|x| ways.below(shorter + 2, x) + number));
                number += 1;
            }
        }
        table = longer;
    }
    table
}

//! Tables with guards about them, so that a number set outside them shows.

use crate::generate::Random;
use crate::paper::*;

/// Numbers before and behind each table that nobody may touch.
pub const GUARD: usize = 32;
const MARK: u32 = 0xa5a5_5a5a;

#[derive(Default)]
pub struct Tables {
    numbers: [Vec<u32>; 3],
    sizes: [usize; 3],
}

impl Tables {
    /// Tables of these sizes, full of marks: what a former transaction left.
    pub fn prepare(&mut self, sizes: [usize; 3]) {
        self.sizes = sizes;
        for (numbers, size) in self.numbers.iter_mut().zip(sizes) {
            numbers.clear();
            numbers.resize(GUARD + size + GUARD, MARK);
        }
    }

    pub fn lent(&mut self) -> Lent<'_> {
        self.lent_of(self.sizes)
    }

    /// The same tables in other sizes, larger by at most the guard.
    pub fn lent_of(&mut self, sizes: [usize; 3]) -> Lent<'_> {
        let [inputs, outputs, items] = &mut self.numbers;
        Lent {
            inputs: &mut inputs[GUARD..GUARD + sizes[0]],
            outputs: &mut outputs[GUARD..GUARD + sizes[1]],
            items: &mut items[GUARD..GUARD + sizes[2]],
        }
    }

    pub fn table(&self, table: usize) -> &[u32] {
        &self.numbers[table][GUARD..GUARD + self.sizes[table]]
    }

    pub fn copy(&mut self, from: &Tables) {
        self.numbers.clone_from(&from.numbers);
        self.sizes = from.sizes;
    }

    pub fn equal(&self, other: &Tables) -> bool {
        self.numbers == other.numbers
    }

    pub fn is_zero(&self) -> bool {
        (0..3).all(|table| self.table(table).iter().all(|&number| number == 0))
    }

    pub fn guards_stand(&self) -> bool {
        self.numbers.iter().zip(self.sizes).all(|(numbers, size)| {
            numbers[..GUARD].iter().chain(&numbers[GUARD + size..]).all(|&number| number == MARK)
        })
    }

    /// Numbers altered by the caller: the same ones for the same random state.
    pub fn scribble(&mut self, random: &mut Random) {
        for table in 0..3 {
            let size = self.sizes[table];
            for _ in 0..2 {
                let (at, number) = (random.below(size.max(1)), random.draw() as u32);
                if size > 0 {
                    self.numbers[table][GUARD + at] = number;
                }
            }
        }
    }

    /// The first number in which the two differ.
    pub fn difference(&self, other: &Tables) -> Option<String> {
        for (table, name) in ["input", "output", "item"].iter().enumerate() {
            if self.numbers[table] == other.numbers[table] {
                continue;
            }
            let pairs = self.numbers[table].iter().zip(&other.numbers[table]);
            let at = pairs.clone().position(|(one, two)| one != two).unwrap_or(0);
            let place = at as isize - GUARD as isize;
            let record = place.div_euclid(WIDTHS[table] as isize);
            let number = place.rem_euclid(WIDTHS[table] as isize);
            let (one, two) = (self.numbers[table][at], other.numbers[table][at]);
            return Some(format!("{name} table, record {record}, number {number}: paper {one}, found {two}"));
        }
        None
    }
}

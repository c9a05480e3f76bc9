//! A run of many sheets through a call and through the clear checker, with counts of what came back.

use crate::damage;
use crate::rng::Rng;
use crate::rules::{sheet_answer, sheet_code, show, Question, Refused};
use crate::threads::{on_two_threads, Counts};

/// So many sheets at least.
const SHEETS: u64 = 1_000_000;

/// A sheet check, and the clear checker that it is compared with.
#[derive(Clone, Copy)]
pub struct Check {
    pub what: &'static str,
    pub call: fn(&Question, &[u8]) -> u64,
    pub checker: fn(&Question, &[u8]) -> Result<(), Refused>,
}

impl Check {
    fn trial(self) -> Trial {
        Trial { check: self, seen: [0; 16], highest: [0; 16] }
    }

    /// What both say to one sheet.
    pub fn answer(self, q: &Question, sheet: &[u8]) -> Result<(), Refused> {
        sheet_answer(self.trial().sheet(q, sheet))
    }

    /// A million sheets: `one` tries some.
    pub fn a_million(self, one: fn(&mut Rng, &mut Trial)) -> Trial {
        on_two_threads(1, || self.trial(), |trial| trial.total() >= SHEETS / 2, one)
    }
}

pub struct Trial {
    check: Check,
    /// For each number of the table: how often it came back, and the highest place with it.
    seen: [u64; 16],
    highest: [u64; 16],
}

impl Trial {
    /// One sheet: both must say the same, number and place.
    pub fn sheet(&mut self, q: &Question, sheet: &[u8]) -> u64 {
        let expected = sheet_code((self.check.checker)(q, sheet));
        let back = (self.check.call)(q, sheet);
        if back != expected {
            panic!(
                "{} gave {} at {}, expected {} at {}\n{}\nsheet {:02x?}",
                self.check.what, back % 16, back / 16, expected % 16, expected / 16, show(q), sheet,
            );
        }
        let number = (back % 16) as usize;
        self.seen[number] += 1;
        self.highest[number] = self.highest[number].max(back / 16);
        back
    }

    /// The same sheet for other questions: with faults, with another goal, with a damaged pack.
    pub fn other_questions(&mut self, rng: &mut Rng, q: &Question, sheet: &[u8]) {
        for faulty in damage::questions(rng, q) {
            self.sheet(&faulty, sheet);
        }
        for _ in 0..4 {
            let (a, b) = (rng.below(q.n as usize) as u64, rng.below(q.n as usize) as u64);
            self.sheet(&Question { a, b, ..q.clone() }, sheet);
        }
        for i in damage::places(rng, q.pack.len(), 24) {
            let mut other = q.clone();
            other.pack[i] = damage::byte(rng, other.pack[i]);
            self.sheet(&other, sheet);
        }
    }

    /// The sheet with each byte damaged, or with so many of them; cut short; made longer.
    pub fn other_bytes(&mut self, rng: &mut Rng, q: &Question, sheet: &[u8], most: usize) {
        let mut copy = sheet.to_vec();
        for i in damage::places(rng, sheet.len(), most) {
            copy[i] = damage::byte(rng, copy[i]);
            self.sheet(q, &copy);
            copy[i] = sheet[i];
        }
        for other in damage::lengths(rng, sheet) {
            self.sheet(q, &other);
        }
    }

    fn total(&self) -> u64 {
        self.seen.iter().sum()
    }

    /// Prints how often each number came back, and asserts that exactly these did and none of them seldom: one
    /// sheet of twenty was accepted, and one of a thousand refused with each number.
    pub fn report(&self, numbers: &[usize], with_place: &[usize]) {
        let counts: Vec<String> = (0..16)
            .filter(|&number| self.seen[number] > 0)
            .map(|number| match self.highest[number] {
                0 => format!("{number}: {}", self.seen[number]),
                place => format!("{number}: {} (to place {place})", self.seen[number]),
            })
            .collect();
        println!("counts: {}, {} sheets; {}", self.check.what, self.total(), counts.join(", "));
        assert!(self.total() >= SHEETS);
        for number in 0..16 {
            let least = self.total() / if number == 0 { 20 } else { 1000 };
            match numbers.contains(&number) {
                true => assert!(self.seen[number] >= least, "number {number}, {} times", self.seen[number]),
                false => assert_eq!(self.seen[number], 0, "number {number}"),
            }
            let placed = with_place.contains(&number);
            assert_eq!(self.highest[number] > 0, placed, "the place of number {number}");
        }
    }
}

impl Counts for Trial {
    fn join(mut self, other: Trial) -> Trial {
        for number in 0..16 {
            self.seen[number] += other.seen[number];
            self.highest[number] = self.highest[number].max(other.highest[number]);
        }
        self
    }
}

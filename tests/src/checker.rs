//! The clear checker of yes and no sheets, written from document 01, "Facts and rules" and "Sheets", and from
//! document 02 for kind 7.

use crate::rules::*;

/// The facts that are free or concluded so far.
struct Facts {
    n: usize,
    held: Vec<bool>,
}

impl Facts {
    fn free(n: u64, m: u64) -> Facts {
        let (n, m) = (n as usize, m as usize);
        let mut facts = Facts { n, held: vec![false; n * n * (1 + m)] };
        (0..n as u8).for_each(|x| facts.add(Fact::In(x, x)));
        facts
    }

    fn index(&self, fact: Fact) -> usize {
        let (table, x, y) = match fact {
            Fact::In(x, b) => (0, x, b),
            Fact::Link(x, r, y) => (1 + usize::from(r), x, y),
        };
        (table * self.n + usize::from(x)) * self.n + usize::from(y)
    }

    fn holds(&self, fact: Fact) -> bool {
        self.held[self.index(fact)]
    }

    fn add(&mut self, fact: Fact) {
        let index = self.index(fact);
        self.held[index] = true;
    }
}

/// A record's rule at x, y, z: its premises and its conclusion.
fn rule(record: Record, x: u8, y: u8, z: u8) -> (Vec<Fact>, Fact) {
    use Fact::{In, Link};
    let Record { kind, a, b, c } = record;
    match kind {
        1 => (vec![In(x, a)], In(x, b)),
        2 => (vec![In(x, a), In(x, b)], In(x, c)),
        3 => (vec![In(x, a)], Link(x, b, c)),
        4 => (vec![Link(x, a, y), In(y, b)], In(x, c)),
        5 => (vec![Link(x, a, y)], Link(x, b, y)),
        6 => (vec![Link(x, a, y), Link(y, b, z)], Link(x, c, z)),
        7 => (vec![], Link(x, a, x)),
        _ => unreachable!("the pack was checked"),
    }
}

/// How many of X, Y, Z a kind uses.
pub fn used(kind: u8) -> usize {
    match kind {
        1..=3 | 7 => 1,
        4 | 5 => 2,
        _ => 3,
    }
}

/// The conclusion of a step, if the step is good after the known facts.
fn good_step(q: &Question, count: usize, known: &Facts, step: &[u8]) -> Option<Fact> {
    let place = usize::from(u16::from_le_bytes([step[0], step[1]]));
    if place >= count || !marked(&q.marks, place) {
        return None;
    }
    let record = record(&q.pack, place);
    let (numbers, zeros) = step[2..8].split_at(used(record.kind));
    if numbers.iter().any(|&number| u64::from(number) >= q.n) || zeros.iter().any(|&zero| zero != 0) {
        return None;
    }
    let (premises, conclusion) = rule(record, step[2], step[3], step[4]);
    premises.iter().all(|&premise| known.holds(premise)).then_some(conclusion)
}

pub fn check_yes(q: &Question, sheet: &[u8]) -> Result<(), Refused> {
    let count = check_question(q)? as usize;
    if sheet.len() % 8 != 0 || sheet.len() > 524_288 {
        return Err(LENGTH);
    }
    let mut known = Facts::free(q.n, q.m);
    for (i, step) in sheet.chunks_exact(8).enumerate() {
        let conclusion = good_step(q, count, &known, step).ok_or(step_at(i))?;
        known.add(conclusion);
    }
    let goal = Fact::In(q.a as u8, q.b as u8);
    known.holds(goal).then_some(()).ok_or(NOT_SHOWN)
}

/// A world of k things, as a no sheet's rows describe it.
struct World {
    k: usize,
    rows: Vec<u64>,
}

impl World {
    fn has(&self, x: usize, concept: u8) -> bool {
        self.rows[x] >> concept & 1 == 1
    }

    fn linked(&self, x: usize, role: u8, y: usize) -> bool {
        self.rows[self.k * (1 + usize::from(role)) + x] >> y & 1 == 1
    }

    fn obeys(&self, record: Record) -> bool {
        let things = || 0..self.k;
        let Record { kind, a, b, c } = record;
        match kind {
            1 => things().all(|x| !self.has(x, a) || self.has(x, b)),
            2 => things().all(|x| !(self.has(x, a) && self.has(x, b)) || self.has(x, c)),
            3 => things()
                .all(|x| !self.has(x, a) || things().any(|y| self.linked(x, b, y) && self.has(y, c))),
            4 => things().all(|x| {
                things().all(|y| !(self.linked(x, a, y) && self.has(y, b)) || self.has(x, c))
            }),
            5 => things().all(|x| things().all(|y| !self.linked(x, a, y) || self.linked(x, b, y))),
            6 => things().all(|x| {
                things().filter(|&y| self.linked(x, a, y)).all(|y| {
                    things().all(|z| !self.linked(y, b, z) || self.linked(x, c, z))
                })
            }),
            7 => things().all(|x| self.linked(x, a, x)),
            _ => unreachable!("the pack was checked"),
        }
    }
}

pub fn check_no(q: &Question, sheet: &[u8]) -> Result<(), Refused> {
    let count = check_question(q)? as usize;
    let m = q.m as usize;
    let k = (1..=64).find(|k| sheet.len() == 8 * k * (1 + m)).ok_or(LENGTH)?;
    let row = |bytes: &[u8]| u64::from_le_bytes(bytes.try_into().expect("8 bytes"));
    let world = World { k, rows: sheet.chunks_exact(8).map(row).collect() };
    for (i, &row) in world.rows.iter().enumerate() {
        let end = if i < k { q.n as usize } else { k };
        if (end..64).any(|bit| row >> bit & 1 == 1) {
            return Err(row_at(i));
        }
    }
    for place in 0..count {
        if marked(&q.marks, place) && !world.obeys(record(&q.pack, place)) {
            return Err(broken_at(place));
        }
    }
    let (a, b) = (q.a as u8, q.b as u8);
    let refuted = (0..k).any(|x| world.has(x, a) && !world.has(x, b));
    refuted.then_some(()).ok_or(NOT_SHOWN)
}

#[cfg(test)]
mod tests {
    use super::*;
    use crate::packs::{self, rows, steps};

    #[test]
    fn c3_and_c11() {
        let q = packs::valve(0, 1);
        let sheet = packs::valve_yes_sheet();
        assert_eq!(check_yes(&q, &sheet), Ok(()));
        assert_eq!(check_yes(&q, &sheet[8..]), Err(step_at(1)));
        assert_eq!(check_yes(&q, &sheet[..24]), Err(NOT_SHOWN));
    }

    #[test]
    fn c6() {
        let mut q = packs::valve(2, 1);
        let sheet = packs::valve_no_sheet();
        assert_eq!(check_no(&q, &sheet), Ok(()));
        q.a = 0;
        assert_eq!(check_no(&q, &sheet), Err(NOT_SHOWN));
    }

    #[test]
    fn c12() {
        let q = packs::question(2, 0, &[[1, 0, 1, 0]], 0, 1);
        assert_eq!(check_no(&q, &rows(&[0])), Err(NOT_SHOWN));
        assert_eq!(check_no(&q, &rows(&[1])), Err(broken_at(0)));
        assert_eq!(check_no(&q, &rows(&[4])), Err(row_at(0)));
    }

    #[test]
    fn c1_c2_c8_c9() {
        let empty = packs::question(1, 0, &[], 0, 0);
        assert_eq!(check_yes(&empty, &[]), Ok(()));
        assert_eq!(check_no(&empty, &[]), Err(LENGTH));
        let two = packs::question(2, 0, &[], 0, 1);
        assert_eq!(check_yes(&two, &[]), Err(NOT_SHOWN));
        assert_eq!(check_no(&two, &rows(&[1, 2])), Ok(()));
        let joined = packs::question(2, 0, &[[2, 0, 0, 1]], 0, 1);
        assert_eq!(check_yes(&joined, &steps(&[[0, 0, 0, 0]])), Ok(()));
        let passes = packs::question(3, 0, &[[1, 1, 2, 0], [1, 0, 1, 0]], 0, 2);
        assert_eq!(check_yes(&passes, &steps(&[[0, 1, 0, 0], [1, 0, 0, 0], [0, 0, 0, 0]])), Ok(()));
        assert_eq!(check_yes(&passes, &steps(&[[0, 0, 0, 0]])), Err(step_at(0)));
    }

    #[test]
    fn the_chain_is_read_one_way() {
        // C10: part-of then site is not site then part-of.
        let mut q = packs::valve(0, 1);
        q.pack[16..20].copy_from_slice(&[6, 1, 0, 0]);
        assert_eq!(check_yes(&q, &packs::valve_yes_sheet()), Err(step_at(2)));
    }

    #[test]
    fn a_world_may_break_each_kind() {
        // Things 0 and 1; concepts 0 to 2; roles 0 to 2; only what a line names is there.
        let broken = |record: [u8; 4], rows: &[u64]| {
            let q = packs::question(3, 3, &[record], 0, 1);
            check_no(&q, &packs::rows(rows)) == Err(broken_at(0))
        };
        assert!(broken([2, 0, 1, 2], &[3, 0, 0, 0, 0, 0, 0, 0]));
        assert!(!broken([2, 0, 1, 2], &[7, 1, 0, 0, 0, 0, 0, 0]));
        // Kind 3 asks for the link and for the concept of its end.
        assert!(broken([3, 0, 1, 2], &[1, 0, 0, 0, 2, 0, 0, 0]));
        assert!(broken([3, 0, 1, 2], &[1, 4, 0, 0, 0, 2, 0, 0]));
        assert!(!broken([3, 0, 1, 2], &[1, 4, 0, 0, 2, 0, 0, 0]));
        assert!(broken([4, 1, 0, 2], &[0, 1, 0, 0, 2, 0, 0, 0]));
        assert!(!broken([4, 1, 0, 2], &[0, 1, 0, 0, 0, 1, 0, 0]));
        assert!(broken([5, 1, 2, 0], &[0, 0, 0, 0, 2, 0, 0, 2]));
        assert!(!broken([5, 1, 2, 0], &[0, 0, 0, 0, 2, 0, 2, 0]));
        // 0 by role 0 to 1, 1 by role 1 to 0: the chain asks 0 by role 2 to 0.
        assert!(broken([6, 0, 1, 2], &[0, 0, 2, 0, 0, 1, 0, 1]));
        assert!(!broken([6, 0, 1, 2], &[0, 0, 2, 0, 0, 1, 1, 0]));
        // Every thing by role 1 to itself, whatever else it is linked to.
        assert!(broken([7, 1, 0, 0], &[1, 0, 3, 3, 1, 0, 3, 3]));
        assert!(broken([7, 1, 0, 0], &[1, 0, 3, 3, 2, 3, 3, 3]));
        assert!(!broken([7, 1, 0, 0], &[1, 0, 0, 0, 1, 3, 0, 0]));
    }

    #[test]
    fn a_step_of_kind_7_uses_x_alone() {
        let q = packs::kind_7();
        assert_eq!(steps(&packs::KIND_7_STEPS), packs::KIND_7_SHEET);
        assert_eq!(check_yes(&q, &packs::KIND_7_SHEET), Ok(()));
        for step in [0, 1] {
            let x = step as u16;
            for other in [[0, x, 1, 0], [0, x, 0, 1], [0, x, 1, 1], [0, 2, 0, 0]] {
                let mut list = packs::KIND_7_STEPS;
                list[step] = other;
                assert_eq!(check_yes(&q, &steps(&list)), Err(step_at(step)));
            }
        }
    }
}

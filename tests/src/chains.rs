//! Small packs with planted reasons: goals that follow by way of several records, of every kind.

use crate::packs::{self, random_record};
use crate::reasoner::passes;
use crate::rng::Rng;
use crate::rules::Question;

/// A small question, with a ≠ b where there are two concepts: with planted reasons in so many of a hundred cases,
/// else any, roles and records as few as may be.
pub fn small_question(rng: &mut Rng, planted: usize) -> Question {
    if rng.chance(planted) {
        return question(rng);
    }
    let (n, m, count) = (rng.between(1, 6), rng.between(0, 3), rng.below(13));
    let q = packs::random_question(rng, n, m, count);
    with_goal(rng, q)
}

/// Any small question in which a fifth of the records are of kind 7.
pub fn fifth_of_kind_7(rng: &mut Rng) -> Question {
    let (n, m, count) = (rng.between(2, 6), rng.between(1, 3), rng.between(4, 12));
    let q = packs::fifth_of_kind_7(rng, n, m, count);
    with_goal(rng, q)
}

/// With a goal that is drawn by what the passes add.
fn with_goal(rng: &mut Rng, mut q: Question) -> Question {
    passes(&q).draw_goal(rng, &mut q);
    q
}

/// A question of 4 to 7 concepts, 1 to 3 roles and 8 to 12 records. Reasons for a goal with a ≠ b are
/// planted among random records; that goal is asked, or another one.
pub fn question(rng: &mut Rng) -> Question {
    let (n, m, count) = (rng.between(4, 7), rng.between(1, 3), rng.between(8, 12));
    let (a, b) = packs::two_concepts(rng, n);
    let mut records = Vec::new();
    while records.is_empty() || rng.chance(50) {
        let chain = chain(rng, n, m, a as u8, b as u8);
        if records.len() + chain.len() <= count {
            records.extend(chain);
        }
    }
    while records.len() < count {
        records.push(random_record(rng, n, m));
    }
    rng.shuffle(&mut records);
    let share = rng.pick(&[100, 100, 100, 90]);
    let mut q = packs::stated(rng, n, m, &records, share);
    (q.a, q.b) = (a, b);
    if rng.chance(30) { with_goal(rng, q) } else { q }
}

/// Records that put a under b, each with the conclusions of those before it: from a by one to three steps to
/// other concepts, the last one b.
fn chain(rng: &mut Rng, n: usize, m: usize, a: u8, b: u8) -> Vec<[u8; 4]> {
    let mut records = Vec::new();
    let mut held = vec![a];
    for _ in 0..rng.below(3) {
        let next = rng.below(n) as u8;
        if next != b && !held.contains(&next) {
            step(rng, n, m, &held, next, &mut records);
            held.push(next);
        }
    }
    step(rng, n, m, &held, b, &mut records);
    records
}

/// From the last of the concepts held to the next one: by kind 1, by kind 2 with another one held, or by links.
fn step(rng: &mut Rng, n: usize, m: usize, held: &[u8], next: u8, records: &mut Vec<[u8; 4]>) {
    let last = held[held.len() - 1];
    match rng.below(5) {
        0 => records.push([1, last, next, 0]),
        1 => {
            let mut both = [last, rng.pick(held)];
            rng.shuffle(&mut both);
            records.push([2, both[0], both[1], next]);
        }
        _ => by_links(rng, n, m, last, next, records),
    }
}

/// A link by kind 3 or 7; none to two times kind 5, or another such link and kind 6; then kind 4.
fn by_links(rng: &mut Rng, n: usize, m: usize, from: u8, next: u8, records: &mut Vec<[u8; 4]>) {
    let role = |rng: &mut Rng| rng.below(m) as u8;
    let mut by = role(rng);
    let mut end = link(rng, n, from, by, records);
    for _ in 0..rng.pick(&[0, 1, 1, 2]) {
        let (first, second) = (by, role(rng));
        by = role(rng);
        if by != first && rng.chance(60) {
            records.push([5, first, by, 0]);
        } else {
            end = link(rng, n, end, second, records);
            records.push([6, first, second, by]);
        }
    }
    records.push([4, by, end, next]);
}

/// Links what is in a concept: by kind 3 to another one, or by kind 7 to itself. The concept that it is linked to.
fn link(rng: &mut Rng, n: usize, from: u8, by: u8, records: &mut Vec<[u8; 4]>) -> u8 {
    if rng.chance(20) {
        records.push([7, by, 0, 0]);
        return from;
    }
    let end = rng.below(n) as u8;
    records.push([3, from, by, end]);
    end
}

#[cfg(test)]
mod tests {
    use super::*;
    use crate::rules::check_question;

    #[test]
    fn what_is_planted_follows() {
        let mut rng = Rng::new(81);
        let mut kinds = [0; 8];
        for _ in 0..2000 {
            let (n, m) = (rng.between(4, 7), rng.between(1, 3));
            let (a, b) = packs::two_concepts(&mut rng, n);
            let records = chain(&mut rng, n, m, a as u8, b as u8);
            let q = packs::question(n as u64, m as u64, &records, a, b);
            assert!(passes(&q).answer(a, b).follows, "{records:?}");
            records.iter().for_each(|record| kinds[usize::from(record[0])] += 1);
        }
        assert!(kinds[1..].iter().all(|&times| times > 300), "{kinds:?}");
    }

    #[test]
    fn questions_are_good() {
        let mut rng = Rng::new(82);
        for _ in 0..2000 {
            let q = question(&mut rng);
            let count = check_question(&q).expect("a good question");
            assert!((8..=12).contains(&count) && q.a != q.b);
            assert!(check_question(&fifth_of_kind_7(&mut rng)).is_ok());
        }
    }
}

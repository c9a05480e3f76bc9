//! Damage to questions (numbers 1 to 5 of the table) and to bytes.

use crate::packs;
use crate::rng::Rng;
use crate::rules::{record, record_at, record_good, Question, Refused, GOAL, MARKS, PACK, SIZES};

type Fault = fn(&mut Rng, &mut Question);

/// One maker of faults for each of the numbers 1 to 5.
const FAULTS: [Fault; 5] = [sizes, pack, some_record, marks, goal];

/// The question with each fault alone, and with several at once.
pub fn questions(rng: &mut Rng, q: &Question) -> Vec<Question> {
    let mut list: Vec<Question> = FAULTS.iter().map(|fault| faulty(rng, q, &[*fault])).collect();
    // Highest number first, so that an earlier fault does not hide what the next one needs.
    let several: Vec<Fault> = FAULTS.iter().rev().copied().filter(|_| rng.chance(50)).collect();
    list.push(faulty(rng, q, &several));
    list
}

fn faulty(rng: &mut Rng, q: &Question, faults: &[Fault]) -> Question {
    let mut q = q.clone();
    faults.iter().for_each(|fault| fault(rng, &mut q));
    q
}

fn sizes(rng: &mut Rng, q: &mut Question) {
    if rng.chance(50) {
        q.n = rng.pick(&[0, 65, 256, q.n + (1 << 32), u64::MAX]);
    } else {
        q.m = rng.pick(&[9, 255, q.m + (1 << 32), u64::MAX]);
    }
}

fn pack(rng: &mut Rng, q: &mut Question) {
    if rng.chance(10) {
        q.pack.resize(8200, 0);
    } else {
        let extra = rng.between(1, 7);
        q.pack.extend(rng.bytes(extra));
    }
}

/// A byte of a record that breaks its rule, or a record of no kind where there is none to break.
fn some_record(rng: &mut Rng, q: &mut Question) {
    let count = q.pack.len() / 8;
    if count == 0 {
        return q.pack.extend([0; 8]);
    }
    let place = rng.below(count);
    let field = rng.below(4);
    for _ in 0..8 {
        q.pack[8 * place + field] = rng.pick(&[0, 7, 8, q.n as u8, q.m as u8, 255]);
        if !record_good(q.n, q.m, record(&q.pack, place)) {
            return;
        }
    }
}

fn marks(rng: &mut Rng, q: &mut Question) {
    let count = (q.pack.len() / 8).min(1024);
    if count == 1024 || rng.chance(20) {
        return q.marks.resize(rng.pick(&[0, 8, 120, 127, 129, 136, 256]), 0);
    }
    let place = if rng.chance(50) { count } else { rng.between(count, 1023) };
    if q.marks.len() == 128 {
        q.marks[place / 8] |= 1 << (place % 8);
    }
}

fn goal(rng: &mut Rng, q: &mut Question) {
    let far = rng.pick(&[q.n, q.n + 1, 64, 256, 1 << 32, u64::MAX]);
    if rng.chance(50) {
        q.a = far.max(q.n);
    } else {
        q.b = far.max(q.n);
    }
}

/// Questions on the valve pack with several faults, made by hand, and the lowest number of each.
pub fn several_at_once() -> Vec<(Question, Refused)> {
    let mut list = Vec::new();
    let mut q = packs::valve(5, 1);
    list.push((q.clone(), GOAL));
    q.marks[0] |= 0x40;
    list.push((q.clone(), MARKS));
    q.pack[17] = 2;
    q.pack[40] = 9;
    list.push((q.clone(), record_at(2)));
    q.pack.extend([0; 3]);
    list.push((q.clone(), PACK));
    q.n = 65;
    list.push((q, SIZES));
    // Each later fault alone beside the sizes, and the lengths beside the goal.
    list.push((Question { n: 0, ..packs::valve(0, 1) }, SIZES));
    list.push((Question { m: 9, marks: vec![], ..packs::valve(0, 9) }, SIZES));
    list.push((Question { pack: vec![9; 8200], marks: vec![], ..packs::valve(9, 9) }, PACK));
    list.push((Question { marks: vec![0; 127], ..packs::valve(9, 9) }, MARKS));
    // A bad record counts though it is not marked, and its lowest place though the goal is free.
    let mut q = Question { marks: packs::marks([0]), ..packs::valve(3, 3) };
    q.pack[32] = 0;
    q.pack[40] = 8;
    list.push((q, record_at(4)));
    // Kind 7 with b not zero, and then before it with a role that is not there.
    let mut q = packs::valve(9, 9);
    q.pack[40..44].copy_from_slice(&[7, 0, 1, 0]);
    list.push((q.clone(), record_at(5)));
    q.pack[32..36].copy_from_slice(&[7, 2, 0, 0]);
    list.push((q, record_at(4)));
    list
}

/// Nine records of kind 7, at n 5 and m 2, of which the first, a middle one or the last has a bad field: a role at
/// m or above, b not zero, c not zero. Also a pack without a bad field, and packs with two.
pub fn fields_of_kind_7() -> Vec<(Question, Result<u64, Refused>)> {
    let with = |bad: &[(usize, [u8; 4])]| {
        let mut records = [[7, 1, 0, 0]; 9];
        bad.iter().for_each(|&(place, record)| records[place] = record);
        packs::question(5, 2, &records, 0, 1)
    };
    let [role, far, highest] = [[7, 2, 0, 0], [7, 3, 0, 0], [7, 255, 0, 0]];
    let [b, high_b, c, high_c] = [[7, 0, 1, 0], [7, 1, 255, 0], [7, 0, 0, 1], [7, 1, 0, 255]];
    let mut list = vec![(with(&[]), Ok(9))];
    for place in [0, 4, 8] {
        for record in [role, far, highest, b, high_b, c, high_c] {
            list.push((with(&[(place, record)]), Err(record_at(place))));
            // Marked or not.
            let marks = packs::marks((0..9).filter(|&other| other != place));
            list.push((Question { marks, ..with(&[(place, record)]) }, Err(record_at(place))));
        }
    }
    list.push((with(&[(8, b), (4, c)]), Err(record_at(4))));
    list.push((with(&[(4, role), (0, c)]), Err(record_at(0))));
    list
}

/// Another value for a byte: a bit turned, one more, one less, or any.
pub fn byte(rng: &mut Rng, old: u8) -> u8 {
    match rng.below(4) {
        0 => old.wrapping_add(1),
        1 => old.wrapping_sub(1),
        2 => old ^ rng.between(1, 255) as u8,
        _ => old ^ 1 << rng.below(8),
    }
}

/// The bytes to damage one by one: all of a short sheet, some of a long one.
pub fn places(rng: &mut Rng, len: usize, most: usize) -> Vec<usize> {
    if len <= most {
        return (0..len).collect();
    }
    (0..most).map(|_| rng.below(len)).collect()
}

/// The sheet cut short and made longer, at and beside whole parts of 8 bytes.
pub fn lengths(rng: &mut Rng, sheet: &[u8]) -> Vec<Vec<u8>> {
    let mut list = Vec::new();
    for cut in [1, 7, 8, 9, 16].into_iter().filter(|&cut| cut <= sheet.len()) {
        list.push(sheet[..sheet.len() - cut].to_vec());
        list.push(sheet[cut..].to_vec());
    }
    list.push(sheet[..rng.below(sheet.len() + 1)].to_vec());
    list.push(sheet[..rng.below(sheet.len() / 8 + 1) * 8].to_vec());
    for more in [1, 7, 8, 16] {
        list.push([sheet, &vec![0; more]].concat());
        list.push([sheet, &rng.bytes(more)].concat());
    }
    list.push([sheet, sheet].concat());
    list
}

#[cfg(test)]
mod tests {
    use super::*;
    use crate::rules::{check_question, number};

    #[test]
    fn several_faults_give_the_lowest_number() {
        for (q, expected) in several_at_once() {
            assert_eq!(check_question(&q), Err(expected));
        }
        for (q, expected) in fields_of_kind_7() {
            assert_eq!(check_question(&q), expected);
        }
    }

    #[test]
    fn each_fault_gives_its_number() {
        let mut rng = Rng::new(9);
        let mut seen = [[0; 6]; 5];
        for _ in 0..2000 {
            let (n, m, count) = (rng.between(1, 64), rng.between(0, 8), rng.below(20));
            let q = packs::random_question(&mut rng, n, m, count);
            for (i, q) in questions(&mut rng, &q)[..5].iter().enumerate() {
                seen[i][number(check_question(q))] += 1;
            }
        }
        for (i, numbers) in seen.iter().enumerate() {
            // A field may have no bad value to draw; every other try gives the fault's own number.
            assert!(numbers[i + 1] > 1500, "{seen:?}");
        }
    }
}

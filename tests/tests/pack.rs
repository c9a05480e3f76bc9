//! The pack check and the question check against the rules of documents 01 and 02 and against written-out answers.

use noolukask_tests::rng::Rng;
use noolukask_tests::rules::{
    self, desk_answer, number, record_at, show, Question, Refused, GOAL, MARKS, PACK, SIZES,
};
use noolukask_tests::{calls, damage, packs};

/// What the pack check gives, after comparing it with the rules.
fn pack_check(n: u64, m: u64, pack: &[u8]) -> Result<u64, Refused> {
    let back = desk_answer(calls::check_pack(n, m, pack));
    assert_eq!(back, rules::check_pack(n, m, pack), "n {n} m {m} pack {pack:02x?}");
    back
}

/// What the question check gives, after comparing it with the rules.
fn question_check(q: &Question) -> Result<u64, Refused> {
    let back = desk_answer(calls::check_question(q));
    assert_eq!(back, rules::check_question(q), "{}", show(q));
    back
}

#[test]
fn the_valve_pack() {
    let q = packs::valve(0, 1);
    assert_eq!(pack_check(5, 2, &q.pack), Ok(6));
    assert_eq!(question_check(&q), Ok(6));
    // Concept 4 and role 1 are named.
    assert_eq!(pack_check(4, 2, &q.pack), Err(record_at(4)));
    assert_eq!(pack_check(5, 1, &q.pack), Err(record_at(1)));
}

#[test]
fn sizes_and_lengths() {
    for n in [0, 1, 64, 65, (1 << 32) + 5, u64::MAX] {
        for m in [0, 8, 9, u64::MAX] {
            for len in [0usize, 7, 8, 8192, 8193, 8200] {
                let q = packs::of_length(n, m, len);
                let expected = match (n, m, len) {
                    (0 | 65.., _, _) | (_, 9.., _) => Err(SIZES),
                    (_, _, 7 | 8193 | 8200) => Err(PACK),
                    _ => Ok(len as u64 / 8),
                };
                assert_eq!(pack_check(n, m, &q.pack), expected);
                // The question check tests the same before its own numbers.
                assert_eq!(question_check(&q), expected);
            }
        }
    }
}

#[test]
fn n_and_m_are_taken_to_their_last_value() {
    for n in 0..=300 {
        let expected = if (1..=64).contains(&n) { Ok(0) } else { Err(SIZES) };
        assert_eq!(pack_check(n, 3, &[]), expected);
    }
    for m in 0..=300 {
        assert_eq!(pack_check(7, m, &[]), if m <= 8 { Ok(0) } else { Err(SIZES) });
    }
}

#[test]
fn every_length() {
    let long = packs::filler(8210);
    for len in 0..long.len() {
        let expected = if len % 8 == 0 && len <= 8192 { Ok(len as u64 / 8) } else { Err(PACK) };
        assert_eq!(pack_check(1, 0, &long[..len]), expected);
    }
}

/// A good record of each kind at n, m, with its highest numbers.
fn highest(kind: u8, n: u8, m: u8) -> [u8; 4] {
    match kind {
        1 => [1, n - 1, n - 1, 0],
        2 => [2, n - 1, n - 1, n - 1],
        3 => [3, n - 1, m - 1, n - 1],
        4 => [4, m - 1, n - 1, n - 1],
        5 => [5, m - 1, m - 1, 0],
        6 => [6, m - 1, m - 1, m - 1],
        _ => [7, m - 1, 0, 0],
    }
}

/// Where a field's good values end, written out a line per kind: 'n', 'm' or 1 for a zero.
fn field_end(kind: u8, field: usize, n: u8, m: u8) -> u8 {
    match (kind, field) {
        (1, 1) | (1, 2) => n,
        (1, 3) => 1,
        (2, _) => n,
        (3, 1) | (3, 3) => n,
        (3, 2) => m,
        (4, 1) => m,
        (4, 2) | (4, 3) => n,
        (5, 1) | (5, 2) => m,
        (5, 3) => 1,
        (6, _) => m,
        (7, 1) => m,
        (7, 2) | (7, 3) => 1,
        _ => unreachable!(),
    }
}

#[test]
fn every_value_of_every_field_of_every_kind() {
    for (n, m, records) in [(1, 1, 1), (5, 2, 9), (64, 8, 3), (64, 8, 1024)] {
        let filler = packs::filler(8 * records);
        for kind in 1..=7 {
            for place in [0, records / 2, records - 1] {
                let mut pack = filler.clone();
                pack[8 * place..8 * place + 4].copy_from_slice(&highest(kind, n, m));
                assert_eq!(pack_check(n.into(), m.into(), &pack), Ok(records as u64));
                for field in 1..4 {
                    let good = pack[8 * place + field];
                    for value in 0..=255 {
                        pack[8 * place + field] = value;
                        let expected = match value < field_end(kind, field, n, m) {
                            true => Ok(records as u64),
                            false => Err(record_at(place)),
                        };
                        assert_eq!(pack_check(n.into(), m.into(), &pack), expected);
                    }
                    pack[8 * place + field] = good;
                }
            }
        }
    }
}

#[test]
fn every_kind_byte() {
    for place in [0, 4, 8] {
        for kind in 0..=255 {
            let mut pack = packs::filler(8 * 9);
            pack[8 * place] = kind;
            let expected = if (1..=7).contains(&kind) { Ok(9) } else { Err(record_at(place)) };
            assert_eq!(pack_check(5, 2, &pack), expected);
        }
    }
}

#[test]
fn damaged_fields_of_kind_7() {
    for (q, expected) in damage::fields_of_kind_7() {
        assert_eq!(question_check(&q), expected);
        assert_eq!(pack_check(q.n, q.m, &q.pack), expected);
    }
}

#[test]
fn without_roles_no_record_may_name_one() {
    for kind in 1..=7 {
        let expected = if kind <= 2 { Ok(1) } else { Err(record_at(0)) };
        assert_eq!(pack_check(5, 0, &packs::pack(&[[kind, 0, 0, 0]])), expected);
    }
}

#[test]
fn statement_numbers_are_of_any_value() {
    let mut q = packs::valve(0, 1);
    for i in (0..q.pack.len()).filter(|i| i % 8 >= 4) {
        q.pack[i] = 255;
    }
    assert_eq!(pack_check(5, 2, &q.pack), Ok(6));
    assert_eq!(question_check(&q), Ok(6));
}

#[test]
fn the_lowest_bad_place_is_given() {
    for (first, second) in [(0, 1), (0, 1023), (511, 512), (1022, 1023)] {
        let mut pack = packs::filler(8192);
        pack[8 * second] = 0;
        assert_eq!(pack_check(64, 8, &pack), Err(record_at(second)));
        pack[8 * first + 1] = 64;
        assert_eq!(pack_check(64, 8, &pack), Err(record_at(first)));
    }
}

#[test]
fn unmarked_records_are_judged_too() {
    let mut q = packs::valve(0, 1);
    q.marks = packs::marks([]);
    assert_eq!(question_check(&q), Ok(6));
    q.pack[40] = 9;
    assert_eq!(question_check(&q), Err(record_at(5)));
}

#[test]
fn of_several_faults_the_lowest_number() {
    for (q, expected) in damage::several_at_once() {
        assert_eq!(question_check(&q), Err(expected));
        // The pack check knows the first three numbers.
        assert_eq!(pack_check(q.n, q.m, &q.pack).is_err(), expected.number <= 3);
    }
}

#[test]
fn goals() {
    for far in [5, 6, 64, 255, 256, 257, 1 << 32, (1 << 32) + 1, u64::MAX] {
        assert_eq!(question_check(&packs::valve(far, 0)), Err(GOAL));
        assert_eq!(question_check(&packs::valve(0, far)), Err(GOAL));
        assert_eq!(question_check(&packs::valve(far, far)), Err(GOAL));
    }
    for (a, b) in [(0, 0), (4, 4), (0, 4), (4, 0)] {
        assert_eq!(question_check(&packs::valve(a, b)), Ok(6));
    }
}

#[test]
fn marks_of_other_lengths() {
    for len in (0..=136).chain([256, 1024, 8192]) {
        let mut q = packs::valve(0, 1);
        q.marks = vec![0; len];
        assert_eq!(question_check(&q), if len == 128 { Ok(6) } else { Err(MARKS) });
    }
}

#[test]
fn every_single_mark() {
    for records in [0usize, 1, 6, 63, 64, 65, 127, 128, 129, 511, 1023, 1024] {
        let pack = packs::filler(8 * records);
        for place in 0..1024 {
            let marks = packs::marks([place]);
            let q = Question { n: 2, m: 0, pack: pack.clone(), marks, a: 0, b: 1 };
            let expected = if place < records { Ok(records as u64) } else { Err(MARKS) };
            assert_eq!(question_check(&q), expected);
        }
        // Every record marked, and then one mark more.
        let mut q = Question { n: 2, m: 0, pack, marks: packs::marks(0..records), a: 0, b: 1 };
        assert_eq!(question_check(&q), Ok(records as u64));
        if records < 1024 {
            q.marks = packs::marks(0..=records);
            assert_eq!(question_check(&q), Err(MARKS));
        }
    }
}

#[test]
fn the_longest_pack_with_its_last_record_marked() {
    let mut q = packs::longest();
    assert_eq!(pack_check(64, 8, &q.pack), Ok(1024));
    assert_eq!(question_check(&q), Ok(1024));
    q.pack.extend([1, 0, 1, 0, 0, 0, 0, 0]);
    assert_eq!(question_check(&q), Err(PACK));
}

#[test]
fn random_bytes() {
    let mut rng = Rng::new(11);
    let mut numbers = [0u32; 6];
    for _ in 0..200_000 {
        let (n, m) = (rng.below(67) as u64, rng.below(10) as u64);
        let short = if rng.chance(10) { rng.below(40) } else { 8 * rng.below(6) };
        let len = short + if rng.chance(1) { 8176 } else { 0 };
        let wild = rng.chance(20);
        // Small numbers keep the rules often enough to reach the later places.
        let pack: Vec<u8> = rng.bytes(len).iter().map(|b| if wild { *b } else { b % 4 }).collect();
        let of_pack = pack_check(n, m, &pack);
        let (a, b) = (rng.below(70) as u64, rng.below(70) as u64);
        let marks = match rng.below(3) {
            0 => rng.bytes(128),
            1 => packs::marks((0..len.min(8192) / 8).filter(|_| rng.chance(50))),
            _ => vec![0; rng.pick(&[127, 128, 128, 129])],
        };
        let back = question_check(&Question { n, m, pack, marks, a, b });
        assert!(of_pack.is_ok() || of_pack == back);
        numbers[number(back)] += 1;
    }
    println!("counts: question check on random bytes, numbers 0 to 5: {numbers:?}");
    assert!(numbers.iter().all(|&times| times > 5000));
}

#[test]
fn random_packs_with_one_byte_changed() {
    let mut rng = Rng::new(12);
    let mut numbers = [0; 6];
    for _ in 0..3000 {
        let (n, m, records) = (rng.between(1, 64), rng.between(0, 8), rng.between(1, 20));
        let mut q = packs::random_question(&mut rng, n, m, records);
        assert_eq!(question_check(&q), Ok(records as u64));
        for i in 0..q.pack.len() {
            let good = q.pack[i];
            q.pack[i] = rng.byte();
            let back = question_check(&q);
            assert_eq!(pack_check(q.n, q.m, &q.pack), back);
            numbers[number(back)] += 1;
            q.pack[i] = good;
        }
    }
    println!("counts: question check on packs with one byte changed, numbers 0 to 5: {numbers:?}");
    // A changed byte leaves a good record or makes a bad one.
    assert!(numbers[0] > 50_000 && numbers[3] > 50_000 && numbers[0] + numbers[3] == numbers.iter().sum());
}

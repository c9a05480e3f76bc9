//! The no check against the clear checker, number and row or place, on good and on damaged sheets.

use noolukask_tests::packs::{self, rows};
use noolukask_tests::rng::Rng;
use noolukask_tests::rules::{
    broken_at, number, row_at, sheet_answer, Question, Refused, ACCEPTED, GOAL, LENGTH, NOT_SHOWN,
};
use noolukask_tests::trial::{Check, Trial};
use noolukask_tests::{calls, checker, damage, worlds};

const CHECK: Check = Check { what: "no check", call: calls::check_no, checker: checker::check_no };

/// What the no check gives, after comparing it with the clear checker.
fn no(q: &Question, sheet: &[u8]) -> Result<(), Refused> {
    CHECK.answer(q, sheet)
}

#[test]
fn a_million_sheets() {
    CHECK.a_million(one_world).report(&[0, 1, 2, 3, 4, 5, 9, 11, 12, 13], &[3, 11, 12]);
}

/// One pack and one world that obeys it, and every sort of damage to them.
fn one_world(rng: &mut Rng, t: &mut Trial) {
    let n = rng.pick(&[2, 3, 5, 8, 64]).min(rng.between(1, 64));
    let m = rng.between(0, 8);
    // Few large worlds and few long packs: each costs as much as many small ones.
    let large = rng.chance(6);
    let k = if large { rng.between(9, 64) } else { rng.between(1, 8) };
    let count = match (large, rng.chance(1)) {
        (true, _) => rng.below(6),
        (false, true) => rng.between(64, 1024),
        (false, false) => rng.below(24),
    };
    let mut q = packs::random_question(rng, n, m, count);
    let world = if n <= 8 && rng.chance(15) {
        worlds::finished(&q)
    } else {
        let (concepts, links) = (rng.pick(&[3, 10, 30]), rng.pick(&[0, 3, 10, 30]));
        let mut world = worlds::random(rng, &q, k, concepts, links);
        if rng.chance(90) {
            world.close(rng, &q, None);
        }
        world
    };
    if let Some(goal) = world.refuted(rng, q.n) {
        (q.a, q.b) = goal;
    }
    let sheet = world.sheet();
    t.sheet(&q, &sheet);
    t.other_questions(rng, &q, &sheet);
    t.other_bytes(rng, &q, &sheet, if large { 40 } else { 120 });
    other_sizes_and_marks(rng, t, &q, &sheet);
    other_things(rng, t, &q, &sheet);
    other_rows(rng, t, &q, &sheet, world.k);
    random_sheets(rng, t, &q);
}

/// The good sheet with other sizes and other marks.
fn other_sizes_and_marks(rng: &mut Rng, t: &mut Trial, q: &Question, sheet: &[u8]) {
    for m in 0..=8 {
        t.sheet(&Question { m, ..q.clone() }, sheet);
    }
    for place in damage::places(rng, q.pack.len() / 8, 24) {
        // Marked becomes unmarked, and the other way round.
        let mut other = q.clone();
        other.marks[place / 8] ^= 1 << (place % 8);
        t.sheet(&other, sheet);
    }
}

/// A thing more, a thing less, and things in nothing.
fn other_things(rng: &mut Rng, t: &mut Trial, q: &Question, sheet: &[u8]) {
    let a_thing = 8 * (1 + q.m as usize);
    t.sheet(q, &[sheet, &vec![0; a_thing]].concat());
    t.sheet(q, &sheet[a_thing..]);
    t.sheet(q, &vec![0; a_thing * rng.between(1, 66)]);
}

/// Forbidden bits in each region, a yes turned in each region, rows swapped.
fn other_rows(rng: &mut Rng, t: &mut Trial, q: &Question, sheet: &[u8], k: usize) {
    let n = q.n as usize;
    let mut copy = sheet.to_vec();
    let turn = |copy: &mut Vec<u8>, row: usize, bit: usize| {
        copy[8 * row + bit / 8] ^= 1 << (bit % 8);
    };
    for region in 0..=q.m as usize {
        let end = if region == 0 { n } else { k };
        let row = region * k + rng.below(k);
        if end < 64 {
            for bit in [end, 63, rng.between(end, 63)] {
                turn(&mut copy, row, bit);
                t.sheet(q, &copy);
                // And a second one, in any row: the lowest row is given.
                let (other, far) = (rng.below(copy.len() / 8), rng.below(64));
                turn(&mut copy, other, far);
                t.sheet(q, &copy);
                copy.copy_from_slice(sheet);
            }
        }
        for _ in 0..12 {
            let (row, bit) = (region * k + rng.below(k), rng.below(end));
            turn(&mut copy, row, bit);
            t.sheet(q, &copy);
            copy.copy_from_slice(sheet);
        }
        let (i, j) = (region * k + rng.below(k), rng.below(copy.len() / 8));
        for byte in 0..8 {
            copy.swap(8 * i + byte, 8 * j + byte);
        }
        t.sheet(q, &copy);
        copy.copy_from_slice(sheet);
    }
}

/// Random bytes of possible and impossible lengths, and random worlds that need obey nothing.
fn random_sheets(rng: &mut Rng, t: &mut Trial, q: &Question) {
    let len = rng.below(100);
    t.sheet(q, &rng.bytes(len));
    let len = 8 * (1 + q.m as usize) * rng.between(1, 4);
    t.sheet(q, &rng.bytes(len));
    for percent in [0, 2, 20, 50, 100] {
        let k = rng.between(1, 6);
        t.sheet(q, &worlds::random(rng, q, k, percent, percent).sheet());
    }
}

#[test]
fn c12() {
    let q = packs::question(2, 0, &[[1, 0, 1, 0]], 0, 1);
    assert_eq!(no(&q, &[0, 0, 0, 0, 0, 0, 0, 0]), Err(NOT_SHOWN));
    assert_eq!(no(&q, &[1, 0, 0, 0, 0, 0, 0, 0]), Err(broken_at(0)));
    assert_eq!(no(&q, &[3, 0, 0, 0, 0, 0, 0, 0]), Err(NOT_SHOWN));
    assert_eq!(no(&q, &[4, 0, 0, 0, 0, 0, 0, 0]), Err(row_at(0)));
    assert_eq!(no(&Question { a: 1, b: 0, ..q }, &[2, 0, 0, 0, 0, 0, 0, 0]), ACCEPTED);
}

#[test]
fn c2_and_c6() {
    let q = packs::question(2, 0, &[], 0, 1);
    assert_eq!(no(&q, &rows(&[1, 2])), ACCEPTED);
    assert_eq!(no(&q, &rows(&[3, 2])), Err(NOT_SHOWN));
    let sheet = packs::valve_no_sheet();
    assert_eq!(sheet.len(), 8 * 15);
    assert_eq!(no(&packs::valve(2, 1), &sheet), ACCEPTED);
    // Without the link from valve to heart the world breaks record 1; with valve in 1 it refutes no more.
    let changed = |row: usize, value: u8| {
        let mut sheet = packs::valve_no_sheet();
        sheet[8 * row] = value;
        no(&packs::valve(2, 1), &sheet)
    };
    assert_eq!(changed(12, 0), Err(broken_at(1)));
    // A link to thing 5, which is not there.
    assert_eq!(changed(12, 0x28), Err(row_at(12)));
    assert_eq!(changed(5, 0x04), Err(broken_at(2)));
    assert_eq!(changed(0, 0x11), Err(broken_at(3)));
    assert_eq!(changed(4, 0x10), Err(broken_at(5)));
    assert_eq!(changed(2, 0x06), Err(NOT_SHOWN));
}

#[test]
fn a_goal_that_is_free_is_never_refuted() {
    let q = packs::question(1, 0, &[], 0, 0);
    assert_eq!(no(&q, &[]), Err(LENGTH));
    assert_eq!(no(&q, &rows(&[1])), Err(NOT_SHOWN));
    assert_eq!(no(&packs::valve(0, 0), &packs::valve_no_sheet()), Err(NOT_SHOWN));
}

#[test]
fn lengths_for_every_m() {
    for m in 0..=8usize {
        let q = Question { m: m as u64, ..packs::question(2, 0, &[], 0, 1) };
        for words in 0..=66 * (1 + m) {
            let possible = words % (1 + m) == 0 && (1..=64).contains(&(words / (1 + m)));
            let expected = if possible { Err(NOT_SHOWN) } else { Err(LENGTH) };
            assert_eq!(no(&q, &vec![0; 8 * words]), expected, "{words} rows, m {m}");
            assert_eq!(no(&q, &vec![0; 8 * words + 1]), Err(LENGTH));
        }
    }
}

#[test]
fn every_forbidden_bit_of_every_row() {
    for (n, m, k) in [(5, 2, 3), (1, 8, 63), (63, 1, 1), (64, 2, 64)] {
        let q = Question { m: m as u64, ..packs::question(n as u64, 0, &[], 0, 0) };
        for row in 0..k * (1 + m) {
            for bit in 0..64 {
                let mut words = vec![0u64; k * (1 + m)];
                words[row] = 1 << bit;
                let end = if row < k { n } else { k };
                let expected = if bit < end { Err(NOT_SHOWN) } else { Err(row_at(row)) };
                assert_eq!(no(&q, &rows(&words)), expected);
            }
        }
    }
}

#[test]
fn a_row_comes_before_a_broken_record_and_that_before_the_goal() {
    let mut sheet = packs::valve_no_sheet();
    let q = packs::valve(0, 1);
    assert_eq!(no(&q, &sheet), Err(NOT_SHOWN));
    sheet[8 * 4] = 0x10;
    assert_eq!(no(&q, &sheet), Err(broken_at(5)));
    sheet[8 * 14] = 0x20;
    assert_eq!(no(&q, &sheet), Err(row_at(14)));
    sheet[8 * 9 + 7] = 0x80;
    assert_eq!(no(&q, &sheet), Err(row_at(9)));
    sheet.pop();
    assert_eq!(no(&q, &sheet), Err(LENGTH));
    assert_eq!(no(&packs::valve(0, 5), &sheet), Err(GOAL));
}

#[test]
fn broken_records_of_each_kind_and_only_marked_ones() {
    // Two things; concepts 0 to 2; roles 0 to 2. Each world breaks its record and, mended, obeys it.
    let cases: [([u8; 4], [u64; 8], [u64; 8]); 7] = [
        ([1, 0, 2, 0], [0, 1, 0, 0, 0, 0, 0, 0], [0, 5, 0, 0, 0, 0, 0, 0]),
        ([2, 0, 1, 2], [0, 3, 0, 0, 0, 0, 0, 0], [2, 1, 0, 0, 0, 0, 0, 0]),
        ([3, 0, 1, 2], [1, 0, 0, 0, 2, 0, 0, 0], [1, 4, 0, 0, 2, 0, 0, 0]),
        ([4, 1, 0, 2], [0, 1, 0, 0, 2, 0, 0, 0], [4, 1, 0, 0, 2, 0, 0, 0]),
        ([5, 1, 2, 0], [1, 0, 0, 0, 2, 0, 0, 2], [1, 0, 0, 0, 2, 0, 2, 0]),
        ([6, 0, 1, 2], [1, 0, 2, 0, 0, 1, 0, 1], [1, 0, 2, 0, 0, 1, 1, 0]),
        ([7, 1, 0, 0], [1, 0, 3, 3, 3, 1, 3, 3], [1, 0, 0, 0, 1, 2, 0, 0]),
    ];
    for (record, breaks, obeys) in cases {
        // A record before it that every world obeys; the goal is refuted by some thing in 0.
        let mut q = packs::question(3, 3, &[[1, 0, 0, 0], record], 0, 1);
        assert_eq!(no(&q, &rows(&breaks)), Err(broken_at(1)), "{record:?}");
        let mended = no(&q, &rows(&obeys));
        assert_eq!(mended, ACCEPTED, "{record:?}");
        q.marks = packs::marks([0]);
        assert!(number(no(&q, &rows(&breaks))) != 12);
    }
}

#[test]
fn a_world_that_lacks_one_self_link() {
    // As many things as concepts, fewer and more; the record of kind 7 first, in the middle and last.
    for (n, k) in [(2, 1), (2, 2), (5, 3), (3, 64), (64, 63), (64, 64)] {
        for place in [0, 4, 8] {
            let mut records = [[1, 0, 0, 0]; 9];
            records[place] = [7, 1, 0, 0];
            let q = packs::question(n, 2, &records, 0, 1);
            // Every thing is in 0 alone, and linked by role 1 to itself alone, or to everything.
            let mut world = worlds::World { k, concepts: vec![1; k], links: vec![vec![0; k]; 2] };
            for all in [0, u64::MAX >> (64 - k)] {
                (0..k).for_each(|x| world.links[1][x] = all | 1 << x);
                assert_eq!(no(&q, &world.sheet()), ACCEPTED);
                for x in 0..k {
                    world.links[1][x] ^= 1 << x;
                    assert_eq!(no(&q, &world.sheet()), Err(broken_at(place)), "thing {x} of {k}");
                    // By role 0 it is of no use; where the record is not marked it is not missed.
                    world.links[0][x] = 1 << x;
                    assert_eq!(no(&q, &world.sheet()), Err(broken_at(place)));
                    let marks = packs::marks((0..9).filter(|&other| other != place));
                    assert_eq!(no(&Question { marks, ..q.clone() }, &world.sheet()), ACCEPTED);
                    (world.links[0][x], world.links[1][x]) = (0, all | 1 << x);
                }
            }
        }
    }
}

#[test]
fn kind_7_among_other_broken_records() {
    // Two things; record 1 asks for self-links by role 0, record 2 that whoever is linked to one in 0 is in 1.
    let q = packs::question(2, 1, &[[1, 0, 0, 0], [7, 0, 0, 0], [4, 0, 0, 1]], 0, 1);
    assert_eq!(no(&Question { a: 1, b: 0, ..q.clone() }, &rows(&[3, 2, 1, 2])), ACCEPTED);
    // No world refutes goal (0,1): thing 0 is linked to itself, or record 1 is broken.
    assert_eq!(no(&q, &rows(&[1, 2, 1, 2])), Err(broken_at(2)));
    assert_eq!(no(&q, &rows(&[1, 2, 0, 2])), Err(broken_at(1)));
    // Both broken; a link to thing 2 comes before them.
    assert_eq!(no(&q, &rows(&[1, 1, 2, 2])), Err(broken_at(1)));
    assert_eq!(no(&q, &rows(&[1, 1, 2, 6])), Err(row_at(3)));
    // The same two worlds where record 1 is not marked.
    let q = Question { marks: packs::marks([0, 2]), ..q };
    assert_eq!(no(&q, &rows(&[1, 1, 2, 2])), Err(broken_at(2)));
    assert_eq!(no(&q, &rows(&[1, 2, 0, 2])), ACCEPTED);
}

#[test]
fn damaged_fields_of_kind_7() {
    for (q, expected) in damage::fields_of_kind_7() {
        // One thing that is in 0 alone, linked to itself by role 1.
        assert_eq!(no(&q, &rows(&[1, 0, 1])), expected.map(|_| ()));
    }
}

#[test]
fn sizes_and_the_longest_pack() {
    let one = |n: u64, m: u64, len: usize| {
        let sheet = rows(&vec![1; 1 + m as usize]);
        number(no(&Question { b: n.min(64).saturating_sub(1), ..packs::of_length(n, m, len) }, &sheet))
    };
    assert_eq!([one(0, 0, 0), one(65, 0, 0), one(64, 0, 0), one(1, 0, 0)], [1, 1, 0, 13]);
    assert_eq!([one(64, 8, 0), one(64, 9, 0), one((1 << 32) + 5, 0, 0)], [0, 1, 1]);
    assert_eq!([one(64, 8, 8192), one(64, 8, 8200), one(64, 8, 7)], [0, 2, 2]);
    // 64 things: only the last record is marked, and it asks 1 of whatever has 0.
    let q = packs::longest();
    let world = |first: u64, second: u64| {
        let mut words = vec![u64::MAX; 64 * 9];
        (words[0], words[63]) = (first, second);
        rows(&words)
    };
    assert_eq!(no(&q, &world(1, 1)), Err(broken_at(1023)));
    assert_eq!(no(&q, &world(3, 1)), Err(broken_at(1023)));
    assert_eq!(no(&q, &world(3, 3)), Err(NOT_SHOWN));
    assert_eq!(no(&Question { a: 1, b: 0, ..q }, &world(2, 3)), ACCEPTED);
}

#[test]
fn a_rejected_no_sheet_is_no_proof_of_yes() {
    // Goal (2,1) does not follow, whatever a bad sheet looks like.
    let q = packs::valve(2, 1);
    let good = packs::valve_no_sheet();
    let mut broken = good.clone();
    broken[8 * 12] = 0;
    let rejected = [no(&q, &[]), no(&q, &broken), no(&q, &good[..24])];
    assert!(rejected.iter().all(|&back| back != ACCEPTED), "{rejected:?}");
    assert_eq!(sheet_answer(calls::check_yes(&q, &packs::valve_yes_sheet())), Err(NOT_SHOWN));
    assert_eq!(no(&q, &good), ACCEPTED);
}

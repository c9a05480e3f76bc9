//! The yes check against the clear checker, number and step, on good and on damaged sheets.

use noolukask_tests::packs::{self, steps};
use noolukask_tests::rng::Rng;
use noolukask_tests::rules::{
    marked, number, record, sheet_answer, step_at, Question, Refused, ACCEPTED, LENGTH, NOT_SHOWN,
};
use noolukask_tests::trial::{Check, Trial};
use noolukask_tests::{calls, checker, damage, derive};

const CHECK: Check = Check { what: "yes check", call: calls::check_yes, checker: checker::check_yes };

/// What the yes check gives, after comparing it with the clear checker.
fn yes(q: &Question, sheet: &[u8]) -> Result<(), Refused> {
    CHECK.answer(q, sheet)
}

#[test]
fn a_million_sheets() {
    CHECK.a_million(one_derivation).report(&[0, 1, 2, 3, 4, 5, 9, 10, 13], &[3, 10]);
}

/// One pack and one derivation, and every sort of damage to them.
fn one_derivation(rng: &mut Rng, t: &mut Trial) {
    let n = rng.pick(&[2, 3, 5, 8, 64]).min(rng.between(1, 64));
    let m = rng.between(0, 8);
    let count = if rng.chance(1) { rng.between(64, 1024) } else { rng.below(24) };
    let mut q = packs::random_question(rng, n, m, count);
    let limit = if rng.chance(1) { 2000 } else { rng.between(1, 24) };
    let found = derive::derivation(rng, &q, limit, 10);
    if !found.shown.is_empty() {
        let (a, b) = *found.shown.last().expect("not empty");
        (q.a, q.b) = (a.into(), b.into());
    }
    let sheet = found.sheet();
    t.sheet(&q, &sheet);
    t.other_questions(rng, &q, &sheet);
    t.other_bytes(rng, &q, &sheet, 200);
    unmarked_records(t, &q, &sheet);
    other_steps(rng, t, &q, &sheet);
    random_sheets(rng, t, &q);
}

/// The sheet where the record of one of its steps is not marked.
fn unmarked_records(t: &mut Trial, q: &Question, sheet: &[u8]) {
    for used in sheet.chunks_exact(8).take(12) {
        let mut unmarked = q.clone();
        unmarked.marks[usize::from(used[1]) * 32 + usize::from(used[0]) / 8] &= !(1 << (used[0] % 8));
        t.sheet(&unmarked, sheet);
    }
}

/// Steps swapped and repeated, other places in them, unused numbers set.
fn other_steps(rng: &mut Rng, t: &mut Trial, q: &Question, sheet: &[u8]) {
    let (count, records) = (sheet.len() / 8, q.pack.len() / 8);
    let mut list: Vec<[u8; 8]> =
        sheet.chunks_exact(8).map(|step| step.try_into().expect("8 bytes")).collect();
    for _ in 0..count.min(12) {
        let (i, j) = (rng.below(count), rng.below(count));
        list.swap(i, j);
        t.sheet(q, &list.concat());
        list.swap(i, j);
        // A step again: at the end, and right where another stands.
        t.sheet(q, &[&list.concat()[..], &list[i]].concat());
        let mut twice = list.clone();
        twice.insert(j, list[i]);
        t.sheet(q, &twice.concat());
        let good = list[i];
        for place in [rng.below(records), records, records + 1, 1023, 1024, 65535, rng.below(65536)] {
            list[i][..2].copy_from_slice(&(place as u16).to_le_bytes());
            t.sheet(q, &list.concat());
        }
        list[i] = good;
        let unmarked: Vec<usize> = (0..records).filter(|&place| !marked(&q.marks, place)).collect();
        if !unmarked.is_empty() {
            list[i][..2].copy_from_slice(&(rng.pick(&unmarked) as u16).to_le_bytes());
            t.sheet(q, &list.concat());
            list[i] = good;
        }
        let place = usize::from(u16::from_le_bytes([good[0], good[1]]));
        for unused in 2 + checker::used(record(&q.pack, place).kind)..8 {
            list[i][unused] = rng.between(1, 255) as u8;
            t.sheet(q, &list.concat());
            list[i] = good;
        }
        for used in 2..5 {
            list[i][used] = rng.pick(&[0, q.n as u8 - 1, q.n as u8, 64, 255]);
            t.sheet(q, &list.concat());
            list[i] = good;
        }
    }
}

/// Random bytes, and steps of random numbers that are in range.
fn random_sheets(rng: &mut Rng, t: &mut Trial, q: &Question) {
    let len = rng.below(33);
    t.sheet(q, &rng.bytes(len));
    for _ in 0..6 {
        let mut sheet = Vec::new();
        for _ in 0..rng.below(4) {
            let place = rng.below((q.pack.len() / 8).max(1)) as u8;
            let mut number = || if rng.chance(70) { rng.below(q.n as usize) as u8 } else { 0 };
            sheet.extend([place, 0, number(), number(), number(), 0, 0, 0]);
        }
        t.sheet(q, &sheet);
    }
}

#[test]
fn c3_and_c11() {
    let q = packs::valve(0, 1);
    let sheet = [
        0, 0, 0, 0, 0, 0, 0, 0, //
        1, 0, 2, 0, 0, 0, 0, 0, //
        2, 0, 0, 2, 3, 0, 0, 0, //
        3, 0, 0, 3, 0, 0, 0, 0,
    ];
    assert_eq!(sheet[..], packs::valve_yes_sheet());
    assert_eq!(yes(&q, &sheet), ACCEPTED);
    assert_eq!(yes(&q, &sheet[8..]), Err(step_at(1)));
    assert_eq!(yes(&q, &sheet[..24]), Err(NOT_SHOWN));
    assert_eq!(yes(&q, &sheet[..31]), Err(LENGTH));
    // X of step 2 changed; and, every step good, another goal.
    assert_eq!(yes(&q, &[&sheet[..18], &[1], &sheet[19..]].concat()), Err(step_at(2)));
    assert_eq!(yes(&packs::valve(2, 1), &sheet), Err(NOT_SHOWN));
    // Only the first step is good: a check that reads no further would be content.
    assert_eq!(yes(&q, &[&sheet[..8], &sheet[24..]].concat()), Err(step_at(1)));
    // The two steps by way of the open chest repair show it as well.
    assert_eq!(yes(&q, &steps(&[[4, 0, 0, 0], [5, 0, 0, 0]])), ACCEPTED);
    assert_eq!(yes(&q, &steps(&[[5, 0, 0, 0], [4, 0, 0, 0]])), Err(step_at(0)));
}

#[test]
fn the_chain_read_the_other_way_round() {
    // C10: with record 2 as 6 1 0 0 the third step has no premise.
    let mut q = packs::valve(0, 1);
    q.pack[16..20].copy_from_slice(&[6, 1, 0, 0]);
    assert_eq!(yes(&q, &packs::valve_yes_sheet()), Err(step_at(2)));
}

#[test]
fn a_goal_that_is_free_needs_no_step() {
    let q = packs::question(1, 0, &[], 0, 0);
    assert_eq!(yes(&q, &[]), ACCEPTED);
    assert_eq!(yes(&q, &[0; 8]), Err(step_at(0)));
    assert_eq!(yes(&packs::valve(3, 3), &[]), ACCEPTED);
    assert_eq!(yes(&packs::valve(3, 2), &[]), Err(NOT_SHOWN));
}

#[test]
fn each_kind_in_one_step_more() {
    // Concepts 0 to 4, roles 0 to 3; each line adds a kind to the steps before it.
    let records = [
        [1, 0, 1, 0], [2, 0, 1, 2], [3, 2, 0, 3], [5, 0, 1, 0], [6, 1, 1, 2], [4, 1, 3, 3], [3, 3, 1, 0], [7, 3, 0, 0],
        [4, 3, 3, 4],
    ];
    let list = [
        [0, 0, 0, 0], // 0 in 1
        [1, 0, 0, 0], // 0 in 2
        [2, 0, 0, 0], // 0 r0 3
        [3, 0, 3, 0], // 0 r1 3
        [6, 3, 0, 0], // 3 r1 0
        [4, 0, 3, 0], // 0 r2 0
        [5, 0, 3, 0], // 0 in 3
        [7, 0, 0, 0], // 0 r3 0
        [8, 0, 0, 0], // 0 in 4
    ];
    let q = packs::question(5, 4, &records, 0, 4);
    assert_eq!(yes(&q, &steps(&list)), ACCEPTED);
    for missing in 0..list.len() {
        let mut short = list.to_vec();
        short.remove(missing);
        let expected = match missing {
            0..=2 => Err(step_at(missing)),
            3 | 4 => Err(step_at(4)),
            5 => ACCEPTED,
            6 | 7 => Err(step_at(7)),
            _ => Err(NOT_SHOWN),
        };
        assert_eq!(yes(&q, &steps(&short)), expected, "without step {missing}");
    }
}

#[test]
fn kind_7_needs_no_premise() {
    let q = packs::kind_7();
    let sheet = packs::KIND_7_SHEET;
    assert_eq!(yes(&q, &sheet), ACCEPTED);
    // 1 r 1 is not needed, and may be concluded again; 0 r 0 is needed, and 1 r 1 is no 0 r 0.
    assert_eq!(yes(&q, &[&sheet[..8], &sheet[16..]].concat()), ACCEPTED);
    assert_eq!(yes(&q, &[&sheet[..16], &sheet[8..]].concat()), ACCEPTED);
    assert_eq!(yes(&q, &sheet[8..]), Err(step_at(1)));
    assert_eq!(yes(&q, &sheet[16..]), Err(step_at(0)));
    assert_eq!(yes(&q, &sheet[..16]), Err(NOT_SHOWN));
    // Not without the record.
    assert_eq!(yes(&Question { marks: packs::marks([1]), ..q.clone() }, &sheet), Err(step_at(0)));
    // A self-link by role 0 is none by role 1.
    let other = packs::question(2, 2, &[[7, 0, 0, 0], [4, 1, 0, 1]], 0, 1);
    assert_eq!(yes(&other, &sheet), Err(step_at(2)));
}

#[test]
fn a_step_of_kind_7_uses_x_alone() {
    // Steps of kind 7 for the highest X and others, at the start, in the middle and at the end of a sheet.
    let records = [[1, 0, 1, 0], [7, 7, 0, 0], [7, 0, 0, 0]];
    let good = [[1, 63, 0, 0], [0, 0, 0, 0], [2, 0, 0, 0], [1, 5, 0, 0], [2, 63, 0, 0]];
    let q = packs::question(64, 8, &records, 0, 1);
    assert_eq!(yes(&q, &steps(&good)), ACCEPTED);
    for step in [0, 2, 3, 4] {
        let [place, x, _, _] = good[step];
        // Y, Z or both are set, also to X itself; X is not below n.
        let unused = [[1, 0], [0, 1], [x, x], [x.max(1), 0], [0, x.max(1)], [63, 63], [255, 0], [0, 255]];
        let unused = unused.into_iter().filter(|&other| other != [0, 0]).map(|[y, z]| [place, x, y, z]);
        for bad in unused.chain([[place, 64, 0, 0], [place, 255, 0, 0]]) {
            let mut list = good;
            list[step] = bad;
            assert_eq!(yes(&q, &steps(&list)), Err(step_at(step)), "{bad:?}");
        }
        // The three zero bytes.
        for byte in 5..8 {
            let mut sheet = steps(&good);
            sheet[8 * step + byte] = 1;
            assert_eq!(yes(&q, &sheet), Err(step_at(step)));
        }
    }
}

#[test]
fn every_x_is_linked_to_itself_alone() {
    // Some r Y is under 4: what is X is in it where Y is X, and not by another Y.
    for (x, y) in (0..4).flat_map(|x| (0..4).map(move |y| (x, y))) {
        let q = packs::question(5, 1, &[[7, 0, 0, 0], [4, 0, y as u8, 4]], x, 4);
        let sheet = steps(&[[0, x as u16, 0, 0], [1, x as u16, y, 0]]);
        assert_eq!(yes(&q, &sheet), if x == u64::from(y) { ACCEPTED } else { Err(step_at(1)) });
    }
}

#[test]
fn damaged_fields_of_kind_7() {
    for (q, expected) in damage::fields_of_kind_7() {
        // One step for each record; the goal is another.
        let sheet = steps(&[[0, 0, 0, 0], [4, 4, 0, 0], [8, 1, 0, 0]]);
        assert_eq!(yes(&q, &sheet), expected.and(Err(NOT_SHOWN)));
        assert_eq!(yes(&Question { b: q.a, ..q }, &sheet), expected.map(|_| ()));
    }
}

#[test]
fn unused_numbers_and_zeros() {
    let q = packs::valve(0, 1);
    for (step, first_unused) in [(0, 3), (1, 3), (2, 5), (3, 4)] {
        for byte in 0..8 {
            let mut sheet = packs::valve_yes_sheet();
            sheet[8 * step + byte] = 4;
            let back = yes(&q, &sheet);
            if byte >= first_unused {
                assert_eq!(back, Err(step_at(step)));
            }
        }
    }
}

#[test]
fn places_of_two_bytes() {
    let q = packs::valve(0, 1);
    for place in [4, 6, 260, 1024, 1028, 65535] {
        let expected = if place == 4 { ACCEPTED } else { Err(step_at(0)) };
        assert_eq!(yes(&q, &steps(&[[place, 0, 0, 0], [5, 0, 0, 0]])), expected, "place {place}");
    }
}

#[test]
fn an_unmarked_record_gives_no_step() {
    let without = |place: usize, sheet: &[u8]| {
        let marks = packs::marks((0..6).filter(|&at| at != place));
        yes(&Question { marks, ..packs::valve(0, 1) }, sheet)
    };
    let (long, short) = (packs::valve_yes_sheet(), steps(&[[4, 0, 0, 0], [5, 0, 0, 0]]));
    assert_eq!([0, 1, 2, 3].map(|i| without(i, &long)), [0, 1, 2, 3].map(|i| Err(step_at(i))));
    assert_eq!([4, 5].map(|i| without(i, &long)), [ACCEPTED; 2]);
    assert_eq!([4, 5].map(|i| without(i, &short)), [Err(step_at(0)), Err(step_at(1))]);
}

#[test]
fn the_longest_sheet() {
    let q = packs::question(2, 0, &[[1, 0, 1, 0]], 0, 1);
    let sheet = steps(&vec![[0, 0, 0, 0]; 65_536]);
    assert_eq!(sheet.len(), 524_288);
    assert_eq!(yes(&q, &sheet), ACCEPTED);
    assert_eq!(yes(&q, &[&sheet[..], &[0]].concat()), Err(LENGTH));
    assert_eq!(yes(&q, &[&sheet[..], &[0; 8]].concat()), Err(LENGTH));
    let mut damaged = sheet.clone();
    damaged[524_282] = 1;
    assert_eq!(yes(&q, &damaged), Err(step_at(65_535)));
    assert_eq!(yes(&Question { a: 1, b: 0, ..q }, &sheet), Err(NOT_SHOWN));
}

#[test]
fn sizes_and_the_longest_pack() {
    let one = |n, m, len: usize| number(yes(&packs::of_length(n, m, len), &[]));
    assert_eq!([one(0, 0, 0), one(65, 0, 0), one(64, 0, 0), one(1, 0, 0)], [1, 1, 0, 0]);
    assert_eq!([one(64, 8, 0), one(64, 9, 0), one((1 << 32) + 5, 0, 0)], [0, 1, 1]);
    assert_eq!([one(64, 8, 8192), one(64, 8, 8200), one(64, 8, 7)], [0, 2, 2]);
    let q = packs::longest();
    assert_eq!(yes(&q, &steps(&[[1023, 0, 0, 0]])), ACCEPTED);
    assert_eq!(yes(&q, &steps(&[[1022, 0, 0, 0]])), Err(step_at(0)));
    assert_eq!(yes(&q, &[]), Err(NOT_SHOWN));
}

#[test]
fn a_rejected_yes_sheet_is_no_proof_of_no() {
    let no = |q: &Question| sheet_answer(calls::check_no(q, &packs::valve_no_sheet()));
    // Goal (0,1) follows, whatever a bad sheet looks like; and no world refutes it.
    let q = packs::valve(0, 1);
    let good = packs::valve_yes_sheet();
    let bad = [&[][..], &good[..24], &good[8..], &good[..31]];
    let rejected = bad.map(|sheet| yes(&q, sheet));
    assert_eq!(rejected, [Err(NOT_SHOWN), Err(NOT_SHOWN), Err(step_at(1)), Err(LENGTH)]);
    assert_eq!(yes(&q, &good), ACCEPTED);
    assert_eq!(no(&q), Err(NOT_SHOWN));
    // Goal (2,1) does not follow: only the accepted no sheet says so.
    let q = packs::valve(2, 1);
    assert_eq!(yes(&q, &good), Err(NOT_SHOWN));
    assert_eq!(no(&q), ACCEPTED);
}

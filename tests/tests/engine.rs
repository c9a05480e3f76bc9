//! The verdict and the sheet writer against the independent reasoner: the numbers that come back, every
//! byte of every buffer, and what both sheet checks say to the sheets.

use noolukask_tests::calls::filled;
use noolukask_tests::packs::{self, marks, places, question, rows, steps, Shape, KIND_7_STEPS, VALVE};
use noolukask_tests::reasoner::{self, Answer, Passes};
use noolukask_tests::rng::Rng;
use noolukask_tests::rules::{
    self, desk_code, no_room, record, sheet_answer, show, Fact, Question, Refused, ACCEPTED, GOAL, MARKS, NOT_SHOWN,
    PACK, SIZES,
};
use noolukask_tests::threads::{self, on_two_threads};
use noolukask_tests::{calls, chains, checker, damage, runs};

const SMALL_PACKS: u64 = 100_000;
/// Further ones in which a fifth of the records are of kind 7.
const SELF_LINKED_PACKS: u64 = 20_000;
/// 400 of them, and some of the few, with a fifth of kind 7.
const LARGE_PACKS: u64 = 2_400;

/// The verdict's number.
fn verdict(follows: bool) -> u64 {
    256 * u64::from(follows)
}
/// The sheet writer's number: the count is of steps or of rows.
fn written(follows: bool, count: usize) -> u64 {
    256 * (2 * count as u64 + u64::from(follows))
}

/// Both calls on a good question: the verdict; the writer with a buffer that fits, longer ones, one of a byte
/// less and another short one; and both checks on the sheet that was written.
fn settle(q: &Question, run: &Passes, more: usize, less: usize) -> Answer {
    let ours = run.answer(q.a, q.b);
    let len = ours.sheet.len();
    assert_eq!(calls::verdict(q), verdict(ours.follows), "verdict\n{}", show(q));
    for room in [len, len + 1 + more] {
        let before = filled(room);
        let (back, after) = calls::write_sheet(q, &before);
        assert_eq!(back, written(ours.follows, ours.count), "room {room}\n{}", show(q));
        assert!(after[..len] == ours.sheet[..], "{:02x?}\nnot {:02x?}\n{}", &after[..len], ours.sheet, show(q));
        assert!(after[len..] == before[len..], "touched past its end\n{}", show(q));
    }
    if len > 0 {
        for room in [len - 1, less % len] {
            let before = filled(room);
            let (back, after) = calls::write_sheet(q, &before);
            assert_eq!(back, desk_code(Err(no_room(len))), "room {room}\n{}", show(q));
            assert!(after == before, "touched without room\n{}", show(q));
        }
    }
    through_both_checks(q, run, &ours);
    ours
}

/// The sheet of the true sort is accepted. The other check accepts neither the same bytes nor the best sheet
/// of its own sort: the finished world for a goal that follows, all steps for one that does not.
fn through_both_checks(q: &Question, run: &Passes, ours: &Answer) {
    let (yes, no) = (yes_check(q, &ours.sheet), no_check(q, &ours.sheet));
    if ours.follows {
        assert_eq!(yes, ACCEPTED, "{}", show(q));
        assert_eq!(no, checker::check_no(q, &ours.sheet));
        assert_ne!(no, ACCEPTED, "{}", show(q));
        assert_eq!(no_check(q, &run.world()), Err(NOT_SHOWN), "{}", show(q));
    } else {
        assert_eq!(no, ACCEPTED, "{}", show(q));
        assert_eq!(yes, checker::check_yes(q, &ours.sheet));
        assert_ne!(yes, ACCEPTED, "{}", show(q));
        assert_eq!(yes_check(q, &run.all_steps()), Err(NOT_SHOWN), "{}", show(q));
    }
}

fn yes_check(q: &Question, sheet: &[u8]) -> Result<(), Refused> {
    sheet_answer(calls::check_yes(q, sheet))
}

fn no_check(q: &Question, sheet: &[u8]) -> Result<(), Refused> {
    sheet_answer(calls::check_no(q, sheet))
}

/// Both calls refuse a question with this number, and the buffer keeps every byte, whatever its length.
fn refused(q: &Question, number: Refused) {
    let expected = desk_code(Err(number));
    assert_eq!(calls::verdict(q), expected, "verdict\n{}", show(q));
    for room in [0, 7, 48, 640] {
        let before = filled(room);
        let (back, after) = calls::write_sheet(q, &before);
        assert_eq!(back, expected, "room {room}\n{}", show(q));
        assert!(after == before, "touched in a refusal\n{}", show(q));
    }
    assert_eq!(calls::write_sheet_to_null(q), expected);
}

/// The question's answer by the reasoner, after both calls gave the same.
fn answer(q: &Question) -> Answer {
    settle(q, &reasoner::passes(q), 9, 8)
}

/// The steps (place X Y Z) of the yes sheet that the writer gave; the goal follows.
fn yes_steps(q: &Question) -> Vec<[u16; 4]> {
    let ours = answer(q);
    assert!(ours.follows, "{}", show(q));
    let step = |s: &[u8]| [u16::from_le_bytes([s[0], s[1]]), s[2].into(), s[3].into(), s[4].into()];
    ours.sheet.chunks_exact(8).map(step).collect()
}

/// The rows of the no sheet that the writer gave; the goal does not follow.
fn no_rows(q: &Question) -> Vec<u64> {
    let ours = answer(q);
    assert!(!ours.follows, "{}", show(q));
    let row = |row: &[u8]| u64::from_le_bytes(row.try_into().expect("8 bytes"));
    ours.sheet.chunks_exact(8).map(row).collect()
}

// ---- Random packs ----

/// Counts of what came up in a run of random packs.
#[derive(Default)]
struct Counts {
    packs: u64,
    /// Goals with a = b, and of the others those that follow and those that do not.
    free: u64,
    follow: u64,
    not: u64,
    by_meaning: [u64; 2],
    /// Goals that follow, and do not with the records of kind 7 struck.
    by_kind_7: u64,
    refused: [u64; 6],
    /// The most of each in one pack or sheet.
    passes: usize,
    facts: usize,
    steps: usize,
}

impl Counts {
    fn answered(&mut self, run: &Passes, ours: &Answer) {
        self.passes = self.passes.max(run.count);
        self.facts = self.facts.max(run.added.len());
        self.steps = self.steps.max(if ours.follows { ours.count } else { 0 });
        match (ours.follows, ours.count) {
            (true, 0) => self.free += 1,
            (true, _) => self.follow += 1,
            (false, _) => self.not += 1,
        }
    }

    fn print(&self, what: &str) {
        println!(
            "counts: engine on {} {what}: {} goals are free, {} follow, {} do not (by the meaning too: {}, {}); \
             {} follow, and not without kind 7; most passes {}, facts {}, steps {}; refused with 1 to 5: {:?}",
            self.packs, self.free, self.follow, self.not, self.by_meaning[1], self.by_meaning[0],
            self.by_kind_7, self.passes, self.facts, self.steps, &self.refused[1..],
        );
    }
}

impl threads::Counts for Counts {
    fn join(mut self, other: Counts) -> Counts {
        self.packs += other.packs;
        self.free += other.free;
        self.follow += other.follow;
        self.not += other.not;
        self.by_kind_7 += other.by_kind_7;
        (0..2).for_each(|i| self.by_meaning[i] += other.by_meaning[i]);
        (0..6).for_each(|i| self.refused[i] += other.refused[i]);
        self.passes = self.passes.max(other.passes);
        self.facts = self.facts.max(other.facts);
        self.steps = self.steps.max(other.steps);
        self
    }
}

/// The question with faults, through both calls.
fn with_faults(rng: &mut Rng, q: &Question, counts: &mut Counts) {
    for faulty in damage::questions(rng, q) {
        // A fault may fail to do damage.
        if let Err(number) = rules::check_question(&faulty) {
            refused(&faulty, number);
            counts.refused[number.number as usize] += 1;
        }
    }
}

/// A goal that follows is asked again with the records of kind 7 struck.
fn without_kind_7(q: &Question, ours: &Answer, counts: &mut Counts) {
    let others = places(&q.marks).into_iter().filter(|&place| record(&q.pack, place).kind != 7);
    let struck = Question { marks: marks(others), ..q.clone() };
    if ours.follows && struck.marks != q.marks {
        let still = reasoner::passes(&struck).answer(q.a, q.b).follows;
        assert_eq!(calls::verdict(&struck), verdict(still), "{}", show(&struck));
        counts.by_kind_7 += u64::from(!still);
    }
}

/// One small pack: by passes, as the closure and by the meaning; sometimes with faults and for every goal.
fn small_pack(rng: &mut Rng, mut q: Question, counts: &mut Counts) {
    let run = reasoner::passes(&q);
    let ours = settle(&q, &run, rng.below(40), rng.below(1000));
    counts.answered(&run, &ours);
    without_kind_7(&q, &ours, counts);
    let closed = reasoner::closure(&q);
    assert!(run.facts() == closed, "{}", show(&q));
    if let Some(follows) = reasoner::meaning(&q) {
        assert_eq!(ours.follows, follows, "by the meaning\n{}", show(&q));
        counts.by_meaning[usize::from(follows)] += 1;
    }
    if counts.packs % 40 == 0 {
        with_faults(rng, &q, counts);
        // Every goal of the pack, not only the one drawn.
        for (a, b) in (0..q.n).flat_map(|a| (0..q.n).map(move |b| (a, b))) {
            (q.a, q.b) = (a, b);
            let ours = settle(&q, &run, 0, 0);
            assert_eq!(ours.follows, closed.contains(&Fact::In(a as u8, b as u8)));
            counts.answered(&run, &ours);
        }
    }
    counts.packs += 1;
}

#[test]
fn a_hundred_thousand_small_packs() {
    let counts = on_two_threads(41, Counts::default, |counts| counts.packs == SMALL_PACKS / 2, |rng, counts| {
        let q = chains::small_question(rng, 40);
        small_pack(rng, q, counts);
    });
    counts.print("small packs");
    assert_eq!(counts.packs, SMALL_PACKS);
    assert!(counts.follow > 40_000 && counts.not > 40_000);
    assert!(counts.by_meaning.iter().all(|&times| times > 10_000));
    assert!(counts.by_kind_7 > 5_000);
    assert!(counts.refused[1..].iter().all(|&times| times > 500));
}

#[test]
fn twenty_thousand_small_packs_with_a_fifth_of_kind_7() {
    let done = |counts: &Counts| counts.packs == SELF_LINKED_PACKS / 2;
    let counts = on_two_threads(47, Counts::default, done, |rng, counts| {
        let q = chains::fifth_of_kind_7(rng);
        small_pack(rng, q, counts);
    });
    counts.print("small packs with a fifth of kind 7");
    assert_eq!(counts.packs, SELF_LINKED_PACKS);
    assert!(counts.follow > 5_000 && counts.not > 5_000);
    assert!(counts.by_meaning.iter().all(|&times| times > 2_000));
    assert!(counts.by_kind_7 > 1_000);
    assert!(counts.refused[1..].iter().all(|&times| times > 100));
}

#[test]
fn twenty_four_hundred_large_packs() {
    let counts = on_two_threads(43, Counts::default, |counts| counts.packs == LARGE_PACKS / 2, |rng, counts| {
        let mut q = packs::large_question(rng, Shape::at(counts.packs));
        let run = reasoner::passes(&q);
        run.draw_goal(rng, &mut q);
        let ours = settle(&q, &run, rng.below(5000), rng.below(300_000));
        counts.answered(&run, &ours);
        without_kind_7(&q, &ours, counts);
        if counts.packs % 21 == 0 {
            with_faults(rng, &q, counts);
            // Sets are too slow for full tables.
            if run.added.len() < 3000 {
                assert!(run.facts() == reasoner::closure(&q), "{}", show(&q));
            }
        }
        counts.packs += 1;
    });
    counts.print("packs of n = 64, m = 8");
    assert_eq!(counts.packs, LARGE_PACKS);
    assert!(counts.follow > 500 && counts.not > 500 && counts.by_kind_7 > 100);
    assert!(counts.refused[1..].iter().all(|&times| times > 20));
}

// ---- Document 01's cases ----

/// The valve pack, goal (0,1), with only these records marked.
fn valve_with(places: &[usize]) -> Question {
    Question { marks: marks(places.iter().copied()), ..packs::valve(0, 1) }
}

#[test]
fn c1() {
    let q = question(1, 0, &[], 0, 0);
    assert_eq!(calls::verdict(&q), 256);
    assert_eq!(calls::write_sheet(&q, &[]), (256, vec![]));
    assert_eq!(calls::write_sheet(&q, &[7; 9]), (256, vec![7; 9]));
    assert!(yes_steps(&q).is_empty());
}

#[test]
fn c2() {
    let q = question(2, 0, &[], 0, 1);
    assert_eq!(calls::verdict(&q), 0);
    // Two rows: 2 times 2 for NOT, above the low byte.
    let sheet = [1, 0, 0, 0, 0, 0, 0, 0, 2, 0, 0, 0, 0, 0, 0, 0];
    assert_eq!(calls::write_sheet(&q, &[7; 16]), (0x400, sheet.to_vec()));
    assert_eq!(calls::write_sheet(&q, &[7; 15]), (0x1008, vec![7; 15]));
    assert_eq!(no_rows(&q), [1, 2]);
}

#[test]
fn c3() {
    let q = packs::valve(0, 1);
    assert_eq!(calls::verdict(&q), 256);
    // Four steps: 2 times 4 and 1 for FOLLOWS, above the low byte.
    let sheet = [
        0, 0, 0, 0, 0, 0, 0, 0, //
        1, 0, 2, 0, 0, 0, 0, 0, //
        2, 0, 0, 2, 3, 0, 0, 0, //
        3, 0, 0, 3, 0, 0, 0, 0,
    ];
    assert_eq!(calls::write_sheet(&q, &[7; 32]), (0x900, sheet.to_vec()));
    assert_eq!(calls::write_sheet(&q, &[7; 35]), (0x900, [&sheet[..], &[7; 3]].concat()));
    assert_eq!(calls::write_sheet(&q, &[7; 31]), (0x2008, vec![7; 31]));
    assert_eq!(yes_steps(&q), [[0, 0, 0, 0], [1, 2, 0, 0], [2, 0, 2, 3], [3, 0, 3, 0]]);
}

#[test]
fn c4() {
    let q = valve_with(&[0, 1, 2, 3, 5]);
    assert_eq!(calls::verdict(&q), 256);
    assert_eq!(yes_steps(&q), [[0, 0, 0, 0], [1, 2, 0, 0], [2, 0, 2, 3], [3, 0, 3, 0]]);
}

/// What C5 and C10 leave: valve repair has site valve and no other site.
const ONE_SITE: [u64; 15] = [
    0x01, 0x02, 0x04, 0x08, 0x12, // concepts
    0x04, 0, 0, 0, 0, // site
    0, 0, 0x08, 0, 0, // part of
];

#[test]
fn c5() {
    let q = valve_with(&[0, 1, 3, 5]);
    assert_eq!(calls::verdict(&q), 0);
    assert_eq!(calls::write_sheet(&q, &[7; 120]), (256 * 30, rows(&ONE_SITE)));
    assert_eq!(no_rows(&q), ONE_SITE);
}

#[test]
fn c6() {
    let q = packs::valve(2, 1);
    let expected = [0x13, 0x02, 0x04, 0x08, 0x12, 0x0C, 0, 0, 0, 0, 0, 0, 0x08, 0, 0];
    assert_eq!(calls::verdict(&q), 0);
    assert_eq!(calls::write_sheet(&q, &[7; 120]), (256 * 30, rows(&expected)));
    assert_eq!(calls::write_sheet(&q, &[7; 119]), (desk_code(Err(no_room(120))), vec![7; 119]));
    assert_eq!(no_rows(&q), expected);
}

#[test]
fn c7() {
    // Of two alike records the first one adds; the second adds when it alone is marked.
    let mut q = question(2, 0, &[[1, 0, 1, 0], [1, 0, 1, 0]], 0, 1);
    assert_eq!(yes_steps(&q), [[0, 0, 0, 0]]);
    q.marks = marks([1]);
    assert_eq!(yes_steps(&q), [[1, 0, 0, 0]]);
    q.marks = marks([]);
    assert_eq!(no_rows(&q), [1, 2]);
}

#[test]
fn c8() {
    let q = question(2, 0, &[[2, 0, 0, 1]], 0, 1);
    assert_eq!(calls::verdict(&q), 256);
    assert_eq!(calls::write_sheet(&q, &[7; 8]), (0x300, vec![0; 8]));
    assert_eq!(yes_steps(&q), [[0, 0, 0, 0]]);
}

#[test]
fn c9_a_single_pass_is_not_enough() {
    let q = question(3, 0, &[[1, 1, 2, 0], [1, 0, 1, 0]], 0, 2);
    assert_eq!(calls::verdict(&q), 256);
    // 1 in 2 and 0 in 1 in the first pass, 0 in 2 in the second.
    assert_eq!(yes_steps(&q), [[0, 1, 0, 0], [1, 0, 0, 0], [0, 0, 0, 0]]);
    assert_eq!(reasoner::passes(&q).count, 3);
    // The same with links: 0 is linked to 1 in the first pass, and put under 2 in the second.
    let q = question(3, 1, &[[4, 0, 1, 2], [3, 0, 0, 1]], 0, 2);
    assert_eq!(yes_steps(&q), [[1, 0, 0, 0], [0, 0, 1, 0]]);
}

#[test]
fn c10_the_chain_is_read_one_way() {
    let mut q = valve_with(&[0, 1, 2, 3, 5]);
    q.pack[16..20].copy_from_slice(&[6, 1, 0, 0]);
    assert_eq!(calls::verdict(&q), 0);
    assert_eq!(calls::write_sheet(&q, &[7; 120]), (256 * 30, rows(&ONE_SITE)));
    assert_eq!(no_rows(&q), ONE_SITE);
    // The other way round with roles and records exchanged it follows again.
    let mut turned = VALVE;
    (turned[0], turned[1]) = ([3, 0, 1, 2], [3, 2, 0, 3]);
    (turned[2], turned[3]) = ([6, 1, 0, 1], [4, 1, 3, 1]);
    let mut q = question(5, 2, &turned, 0, 1);
    q.marks = marks([0, 1, 2, 3]);
    assert_eq!(yes_steps(&q), [[0, 0, 0, 0], [1, 2, 0, 0], [2, 0, 2, 3], [3, 0, 3, 0]]);
}

#[test]
fn every_goal_of_the_valve_pack() {
    let under = [vec![0, 1, 4], vec![1], vec![2], vec![3], vec![1, 4]];
    for (a, b) in (0..5).flat_map(|a| (0..5).map(move |b| (a, b))) {
        let q = packs::valve(a, b);
        let follows = under[a as usize].contains(&b);
        assert_eq!(calls::verdict(&q), verdict(follows));
        assert_eq!(answer(&q).follows, follows);
    }
    // By way of the open chest repair, where the first four records are not marked.
    assert_eq!(yes_steps(&valve_with(&[4, 5])), [[4, 0, 0, 0], [5, 0, 0, 0]]);
    // The goal (4,1) comes after the four steps for (0,1) and record 4's own addition.
    let long = [[0, 0, 0, 0], [1, 2, 0, 0], [2, 0, 2, 3], [3, 0, 3, 0], [4, 0, 0, 0], [5, 4, 0, 0]];
    assert_eq!(yes_steps(&packs::valve(4, 1)), long);
}

// ---- Kind 7 ----

#[test]
fn kind_7_and_kind_4() {
    let q = packs::kind_7();
    assert_eq!(calls::verdict(&q), 256);
    // Three steps: 2 times 3 and 1 for FOLLOWS, above the low byte.
    let sheet = packs::KIND_7_SHEET;
    assert_eq!(calls::write_sheet(&q, &[7; 24]), (0x700, sheet.to_vec()));
    assert_eq!(calls::write_sheet(&q, &[7; 26]), (0x700, [&sheet[..], &[7; 2]].concat()));
    assert_eq!(calls::write_sheet(&q, &[7; 23]), (0x1808, vec![7; 23]));
    assert_eq!(yes_steps(&q), KIND_7_STEPS);
    // Everything is linked to itself, and the other way round nothing follows.
    assert_eq!(no_rows(&Question { a: 1, b: 0, ..q.clone() }), [3, 2, 1, 2]);
    // Record 0 not marked.
    let q = Question { marks: marks([1]), ..q };
    assert_eq!(calls::verdict(&q), 0);
    assert_eq!(calls::write_sheet(&q, &[7; 32]), (0x800, rows(&[1, 2, 0, 0])));
    assert_eq!(no_rows(&q), [1, 2, 0, 0]);
    // Record 0 alone.
    let q = Question { marks: marks([0]), ..q };
    assert_eq!(calls::write_sheet(&q, &[7; 32]), (0x800, rows(&[1, 2, 1, 2])));
    assert_eq!(no_rows(&q), [1, 2, 1, 2]);
}

#[test]
fn kind_7_links_by_its_role_alone() {
    let diagonal = |n: u64| (0..n).map(|x| 1 << x).collect::<Vec<u64>>();
    for n in [2, 3, 63, 64] {
        for role in 0..8 {
            let mut expected = diagonal(n);
            (0..8).for_each(|r| expected.extend(if r == role { diagonal(n) } else { vec![0; n as usize] }));
            assert_eq!(no_rows(&question(n, 8, &[[7, role, 0, 0]], 0, n - 1)), expected);
        }
    }
}

#[test]
fn kind_7_in_pass_order() {
    // X ascending, and only what is new: 1 r 1 is there before.
    let records = [[3, 1, 0, 1], [7, 0, 0, 0], [4, 0, 2, 0]];
    let expected = [[0, 1, 0, 0], [1, 0, 0, 0], [1, 2, 0, 0], [2, 2, 2, 0]];
    assert_eq!(yes_steps(&question(3, 1, &records, 2, 0)), expected);
    // What stands before it in the pack sees its links in the second pass.
    let q = question(2, 1, &[[4, 0, 0, 1], [7, 0, 0, 0]], 0, 1);
    assert_eq!(yes_steps(&q), [[1, 0, 0, 0], [1, 1, 0, 0], [0, 0, 0, 0]]);
    assert_eq!(reasoner::passes(&q).count, 3);
    // Of two alike records the first one adds, and the second where it alone is marked.
    let mut q = question(2, 1, &[[7, 0, 0, 0], [7, 0, 0, 0], [4, 0, 0, 1]], 0, 1);
    assert_eq!(yes_steps(&q), [[0, 0, 0, 0], [0, 1, 0, 0], [2, 0, 0, 0]]);
    q.marks = marks([1, 2]);
    assert_eq!(yes_steps(&q), [[1, 0, 0, 0], [1, 1, 0, 0], [2, 0, 0, 0]]);
    // The sheet ends with the goal, which no step of kind 7 concludes.
    let q = question(2, 1, &[[1, 0, 1, 0], [7, 0, 0, 0]], 0, 1);
    assert_eq!(yes_steps(&q), [[0, 0, 0, 0]]);
}

#[test]
fn kind_7_under_roles_and_in_chains() {
    // r0 under r1: every X r1 X too.
    let records = [[7, 0, 0, 0], [5, 0, 1, 0], [4, 1, 0, 1]];
    let expected = [[0, 0, 0, 0], [0, 1, 0, 0], [1, 0, 0, 0], [1, 1, 1, 0], [2, 0, 0, 0]];
    assert_eq!(yes_steps(&question(2, 2, &records, 0, 1)), expected);
    // 0 r0 1. With r1 from everything to itself both chains make a link by r0 one by r2.
    let self_links = [[1, 0, 0, 0], [1, 1, 0, 0], [1, 2, 0, 0]];
    for (chain, step) in [([6, 0, 1, 2], [2, 0, 1, 1]), ([6, 1, 0, 2], [2, 0, 0, 1])] {
        let q = question(3, 3, &[[3, 0, 0, 1], [7, 1, 0, 0], chain, [4, 2, 1, 2]], 0, 2);
        let expected = [&[[0, 0, 0, 0]], &self_links[..], &[step, [3, 0, 1, 0]]].concat();
        assert_eq!(yes_steps(&q), expected);
        // 0 r0 1, and nothing by r2.
        let struck = Question { marks: marks([0, 2, 3]), ..q };
        assert_eq!(no_rows(&struck), [1, 2, 4, 2, 0, 0, 0, 0, 0, 0, 0, 0]);
    }
}

#[test]
fn every_fact_there_can_be_with_kind_7() {
    // The bound stays: the first 8 records give 512 of the links, and the others what is left.
    let full = runs::fullest();
    let all: Vec<[u8; 4]> = (0..8).map(|role| [7, role, 0, 0]).collect();
    let q = Question { pack: [packs::pack(&all), full.pack.clone()].concat(), marks: marks(0..646), ..full };
    let run = reasoner::passes(&q);
    let ours = settle(&q, &run, 1000, 200_000);
    assert_eq!((ours.follows, ours.count, run.added.len()), (true, 36_800, 36_800));
    let first = (0..8).flat_map(|role| (0..64).map(move |x| [role, x, 0, 0]));
    assert_eq!(ours.sheet[..8 * 512], steps(&first.collect::<Vec<_>>()));
    assert_eq!(ours.sheet[8 * 36_799..], steps(&[[645, 62, 0, 0]]));
}

#[test]
fn damaged_fields_of_kind_7() {
    for (q, expected) in damage::fields_of_kind_7() {
        match expected {
            Err(number) => refused(&q, number),
            Ok(_) => assert_eq!(calls::verdict(&q), 0),
        }
    }
}

// ---- Run only: sizes, lengths, the longest pack; and refusals ----

#[test]
fn sizes_and_lengths() {
    for (n, m) in [(0, 0), (65, 0), (64, 9), (1, 9), (0, 9), ((1 << 32) + 5, 0), (5, 1 << 32), (u64::MAX, u64::MAX)] {
        refused(&packs::of_length(n, m, 8), SIZES);
    }
    for (n, m) in [(1, 0), (64, 0), (1, 8), (64, 8)] {
        for len in [0, 8, 8192] {
            let q = packs::of_length(n, m, len);
            assert!(yes_steps(&q).is_empty());
            if n > 1 {
                // Nothing holds but what is free.
                let free: Vec<u64> = (0..64).map(|x| 1 << x).chain(vec![0; 64 * m as usize]).collect();
                assert_eq!(no_rows(&Question { a: 63, b: 62, ..q }), free);
            }
        }
        for len in [7, 9, 8191, 8193, 8200, 16384] {
            refused(&packs::of_length(n, m, len), PACK);
        }
    }
}

#[test]
fn the_longest_pack_with_its_last_record_marked() {
    let q = packs::longest();
    assert_eq!(calls::verdict(&q), 256);
    assert_eq!(calls::write_sheet(&q, &[7; 9]), (0x300, vec![0xFF, 3, 0, 0, 0, 0, 0, 0, 7]));
    assert_eq!(yes_steps(&q), [[1023, 0, 0, 0]]);
    let other = Question { marks: marks([1022]), ..q.clone() };
    assert_eq!(no_rows(&other).len(), 576);
    let all = Question { marks: marks(0..1024), ..q.clone() };
    assert!(answer(&all).follows);
    let mut longer = q;
    longer.pack.extend([1, 0, 1, 0, 0, 0, 0, 0]);
    refused(&longer, PACK);
}

#[test]
fn every_single_mark() {
    let pack = packs::pack(&[[1, 0, 1, 0]; 1024]);
    for place in 0..1024 {
        let q = Question { n: 2, m: 0, pack: pack.clone(), marks: marks([place]), a: 0, b: 1 };
        let sheet = steps(&[[place as u16, 0, 0, 0]]);
        assert_eq!(calls::verdict(&q), 256);
        assert_eq!(calls::write_sheet(&q, &[7; 8]), (0x300, sheet));
        // Not where the pack ends before it.
        let short = Question { pack: pack[..8 * place].to_vec(), ..q };
        refused(&short, MARKS);
    }
}

#[test]
fn of_several_faults_the_lowest_number() {
    damage::several_at_once().into_iter().for_each(|(q, number)| refused(&q, number));
}

#[test]
fn refused_goals_and_marks() {
    for far in [5, 6, 64, 255, 256, 257, 1 << 32, (1 << 32) + 1, u64::MAX] {
        // Also where the goal would be free.
        [(far, 0), (0, far), (far, far)].iter().for_each(|&(a, b)| refused(&packs::valve(a, b), GOAL));
    }
    for len in [0, 1, 8, 16, 64, 120, 127, 129, 136, 256] {
        refused(&Question { marks: vec![0; len], ..packs::valve(0, 1) }, MARKS);
        refused(&Question { marks: vec![0; len], ..packs::valve(1, 1) }, MARKS);
    }
}

#[test]
fn every_length_of_a_buffer() {
    let valves = [(packs::valve(0, 1), 32), (packs::valve(2, 1), 120), (packs::valve(2, 2), 0)];
    for (q, len) in valves.into_iter().chain([(packs::kind_7(), 24)]) {
        let ours = answer(&q);
        assert_eq!(ours.sheet.len(), len);
        for room in 0..300 {
            let before = filled(room);
            let (back, after) = calls::write_sheet(&q, &before);
            if room < len {
                assert_eq!((back, after), (desk_code(Err(no_room(len))), before));
            } else {
                assert_eq!(back, written(ours.follows, ours.count));
                assert_eq!(after, [&ours.sheet[..], &before[len..]].concat());
            }
        }
        // Longer than any sheet may be.
        let before = filled(600_000);
        let (back, after) = calls::write_sheet(&q, &before);
        assert_eq!(back, written(ours.follows, ours.count));
        assert!(after == [&ours.sheet[..], &before[len..]].concat());
    }
}

// ---- Frauds and old errors ----

#[test]
fn a_later_record_does_not_hide_an_earlier_one() {
    // Two records with one left side, and what shows the conclusion of each.
    let pairs: [(&[[u8; 4]], [[u8; 4]; 2], &[[u8; 4]], [u64; 2]); 7] = [
        (&[], [[1, 0, 1, 0], [1, 0, 2, 0]], &[], [1, 2]),
        (&[], [[2, 0, 0, 1], [2, 0, 0, 2]], &[], [1, 2]),
        (&[], [[3, 0, 0, 1], [3, 0, 0, 2]], &[[4, 0, 1, 3], [4, 0, 2, 4]], [3, 4]),
        (&[[3, 0, 0, 1]], [[4, 0, 1, 2], [4, 0, 1, 3]], &[], [2, 3]),
        (&[[3, 0, 0, 1]], [[5, 0, 1, 0], [5, 0, 2, 0]], &[[4, 1, 1, 2], [4, 2, 1, 3]], [2, 3]),
        (
            &[[3, 0, 0, 1], [3, 1, 0, 2]],
            [[6, 0, 0, 1], [6, 0, 0, 2]],
            &[[4, 1, 2, 3], [4, 2, 2, 4]],
            [3, 4],
        ),
        // Kind 7 has no left side.
        (&[], [[7, 0, 0, 0], [7, 1, 0, 0]], &[[4, 0, 0, 1], [4, 1, 0, 2]], [1, 2]),
    ];
    for (first, [one, other], last, goals) in pairs {
        for both in [[one, other], [other, one]] {
            let records = [first, &both, last].concat();
            for goal in goals {
                let q = question(5, 3, &records, 0, goal);
                assert_eq!(calls::verdict(&q), 256, "{records:?} {goal}");
                assert!(answer(&q).follows);
                // Each of the two is needed for its own goal.
                let place = first.len() + usize::from((both[0] == one) == (goal == goals[1]));
                let marks = marks((0..records.len()).filter(|&i| i != place));
                assert_eq!(calls::verdict(&Question { marks, ..q }), 0, "{records:?} {goal}");
            }
        }
    }
}

#[test]
fn kind_2_needs_both_premises() {
    for record in [[2, 0, 1, 2], [2, 1, 0, 2]] {
        assert_eq!(no_rows(&question(3, 0, &[record], 0, 2)), [1, 2, 4]);
        assert_eq!(no_rows(&question(3, 0, &[record], 1, 2)), [1, 2, 4]);
        let q = question(3, 0, &[[1, 0, 1, 0], record], 0, 2);
        assert_eq!(yes_steps(&q), [[0, 0, 0, 0], [1, 0, 0, 0]]);
        // 1 is still in 1 alone.
        assert_eq!(no_rows(&Question { a: 1, ..q }), [7, 2, 4]);
    }
}

#[test]
fn kind_4_needs_the_link_and_the_concept() {
    // A link to 1, and 2 under some r.
    assert_eq!(no_rows(&question(4, 1, &[[3, 0, 0, 1], [4, 0, 2, 3]], 0, 3)), [1, 2, 4, 8, 2, 0, 0, 0]);
    // A link by another role.
    assert_eq!(
        no_rows(&question(3, 2, &[[3, 0, 0, 1], [4, 1, 1, 2]], 0, 2)),
        [1, 2, 4, 2, 0, 0, 0, 0, 0],
    );
    // Of several ends the lowest one that is in the concept stands in the step.
    let records = [[3, 0, 0, 3], [3, 0, 0, 2], [3, 0, 0, 1], [1, 2, 4, 0], [1, 3, 4, 0], [4, 0, 4, 5]];
    let all = [[0, 0, 0, 0], [1, 0, 0, 0], [2, 0, 0, 0], [3, 2, 0, 0], [4, 3, 0, 0], [5, 0, 2, 0]];
    assert_eq!(yes_steps(&question(6, 1, &records, 0, 5)), all);
}

#[test]
fn kind_6_sees_what_its_own_sweep_links_from_x() {
    // t = r. 0 and 4 reach 1 by r; 1 leads to 2 and 2 to 3 by s; a snapshot of the row of X would add
    // 0 r 3 and 4 r 3 only in the next pass.
    let records =
        [[3, 0, 0, 1], [3, 4, 0, 1], [3, 1, 1, 2], [3, 2, 1, 3], [6, 0, 1, 0], [4, 0, 3, 5]];
    let q = question(6, 2, &records, 4, 5);
    let expected = [
        [0, 0, 0, 0],
        [1, 4, 0, 0],
        [2, 1, 0, 0],
        [3, 2, 0, 0],
        [4, 0, 1, 2],
        [4, 0, 2, 3],
        [4, 4, 1, 2],
        [4, 4, 2, 3],
        [5, 0, 3, 0],
        [5, 4, 3, 0],
    ];
    assert_eq!(yes_steps(&q), expected);
    // Downwards the sweep has passed already: from 3 by s to 2, from 2 to 1, one pass each.
    let records = [[3, 0, 0, 3], [3, 3, 1, 2], [3, 2, 1, 1], [6, 0, 1, 0], [4, 0, 1, 4]];
    let q = question(5, 2, &records, 0, 4);
    let expected =
        [[0, 0, 0, 0], [1, 3, 0, 0], [2, 2, 0, 0], [3, 0, 3, 2], [3, 0, 2, 1], [4, 0, 1, 0]];
    assert_eq!(yes_steps(&q), expected);
    assert_eq!(reasoner::passes(&q).count, 3);
}

#[test]
fn kind_6_sees_what_its_own_sweep_linked_from_earlier_ones() {
    // s = t. 1 leads to 0 and 2 to 1 by r, 0 to 3 by s: 1 s 3, and at once 2 s 3; then 5 under some r 2
    // and 5 s 3. A snapshot of s would need a pass for each.
    let records =
        [[3, 1, 0, 0], [3, 2, 0, 1], [3, 5, 0, 2], [3, 0, 1, 3], [6, 0, 1, 1], [4, 1, 3, 4]];
    let q = question(6, 2, &records, 5, 4);
    let expected = [
        [0, 1, 0, 0],
        [1, 2, 0, 0],
        [2, 5, 0, 0],
        [3, 0, 0, 0],
        [4, 1, 0, 3],
        [4, 2, 1, 3],
        [4, 5, 2, 3],
        [5, 0, 3, 0],
        [5, 1, 3, 0],
        [5, 2, 3, 0],
        [5, 5, 3, 0],
    ];
    assert_eq!(yes_steps(&q), expected);
    assert_eq!(reasoner::passes(&q).count, 2);
}

#[test]
fn kind_6_with_one_role_alone() {
    // r = s = t: 0 to 1 to 2 to 3, closed in two sweeps, and with a loop at 3.
    let records = [[6, 0, 0, 0], [3, 0, 0, 1], [3, 1, 0, 2], [3, 2, 0, 3], [3, 3, 0, 3], [4, 0, 3, 4]];
    let q = question(5, 1, &records, 0, 4);
    let expected = [
        [1, 0, 0, 0],
        [2, 1, 0, 0],
        [3, 2, 0, 0],
        [4, 3, 0, 0],
        [5, 2, 3, 0],
        [5, 3, 3, 0],
        [0, 0, 1, 2],
        [0, 0, 2, 3],
        [0, 1, 2, 3],
        [5, 0, 3, 0],
    ];
    assert_eq!(yes_steps(&q), expected);
}

#[test]
fn kind_4_sees_what_its_own_sweep_put_under() {
    // 1 leads to 0, 2 to 1, 0 to 3: whoever leads to one in 3 is in 3, and 0, 1, 2 come one after the other.
    let records = [[3, 1, 0, 0], [3, 2, 0, 1], [3, 0, 0, 3], [4, 0, 3, 3]];
    let expected =
        [[0, 1, 0, 0], [1, 2, 0, 0], [2, 0, 0, 0], [3, 0, 3, 0], [3, 1, 0, 0], [3, 2, 1, 0]];
    assert_eq!(yes_steps(&question(4, 1, &records, 2, 3)), expected);
}

#[test]
fn the_sheet_ends_with_the_goal() {
    // One record for X = 0, 1, 2, 3: the sheet ends in the middle of its sweep.
    let records = [[1, 1, 0, 0], [1, 2, 0, 0], [1, 3, 0, 0], [1, 0, 4, 0], [1, 4, 5, 0]];
    let first = [[0, 1, 0, 0], [1, 2, 0, 0], [2, 3, 0, 0]];
    for a in 0..4 {
        let goal = |b: u64| yes_steps(&question(6, 0, &records, a.into(), b));
        let sweep = |place: u16, last: u16| (0..=last).map(move |x| [place, x, 0, 0]);
        let all: Vec<[u16; 4]> = first.iter().copied().chain(sweep(3, a)).collect();
        assert_eq!(goal(4), all);
        // X = 4 is in 5 before the others come to it.
        let all: Vec<[u16; 4]> = first.iter().copied().chain(sweep(3, 3)).chain(sweep(4, a)).collect();
        assert_eq!(goal(5), all);
    }
    // Also where nothing but the goal is left to add, and where a whole pass would come after it.
    assert_eq!(yes_steps(&question(2, 0, &[[1, 0, 1, 0]], 0, 1)).len(), 1);
    let long = [[1, 0, 1, 0], [1, 1, 2, 0], [3, 2, 0, 0], [5, 0, 1, 0]];
    assert_eq!(yes_steps(&question(3, 2, &long, 0, 1)), [[0, 0, 0, 0]]);
}

#[test]
fn a_free_goal_needs_no_step() {
    // Whatever else there is to add.
    for q in [packs::valve(0, 0), packs::valve(4, 4), Question { a: 7, b: 7, ..runs::fullest() }] {
        assert_eq!(calls::verdict(&q), 256);
        assert_eq!(calls::write_sheet(&q, &[]), (256, vec![]));
        assert_eq!(calls::write_sheet(&q, &[7; 24]), (256, vec![7; 24]));
    }
}

#[test]
fn a_rejected_yes_sheet_is_no_proof_of_no() {
    // Goal (0,1) follows, though each of these yes sheets is rejected; no world refutes it.
    let q = packs::valve(0, 1);
    let good = calls::write_sheet(&q, &[0; 32]).1;
    for bad in [&[][..], &good[..24], &good[8..], &good[..31], &[&good[..], &[9; 8]].concat()] {
        assert_ne!(yes_check(&q, bad), ACCEPTED);
        assert_ne!(no_check(&q, bad), ACCEPTED);
        assert_eq!(calls::verdict(&q), 256);
        // The writer does not read what the buffer holds, a rejected sheet included.
        let before = [bad, &vec![1; 40 - bad.len()]].concat();
        assert_eq!(calls::write_sheet(&q, &before), (written(true, 4), [&good[..], &before[32..]].concat()));
    }
    assert_eq!(no_check(&q, &packs::valve_no_sheet()), Err(NOT_SHOWN));
    // Goal (2,1) does not follow; a rejected no sheet is no proof of yes either.
    let q = packs::valve(2, 1);
    let good = calls::write_sheet(&q, &[0; 120]).1;
    for bad in [&[][..], &good[8..], &good[..112], &[0; 120]] {
        assert_ne!(no_check(&q, bad), ACCEPTED);
        assert_ne!(yes_check(&q, bad), ACCEPTED);
        assert_eq!(calls::verdict(&q), 0);
    }
    assert_eq!(no_check(&q, &good), ACCEPTED);
}

#[test]
fn statement_numbers_do_not_matter() {
    let mut rng = Rng::new(45);
    for _ in 0..200 {
        let mut q = packs::random_question(&mut rng, 5, 2, 9);
        let run = reasoner::passes(&q);
        let ours = settle(&q, &run, 0, 0);
        for i in (0..q.pack.len()).filter(|i| i % 8 >= 4) {
            q.pack[i] = rng.pick(&[0, 1, 255]);
        }
        assert!(settle(&q, &run, 0, 0).sheet == ours.sheet);
    }
}

// ---- Long runs and full tables ----

#[test]
fn records_in_reverse_order() {
    for n in [2, 3, 17, 64] {
        let q = runs::reverse(n);
        let run = reasoner::passes(&q);
        assert_eq!(run.count, n.into());
        let ours = settle(&q, &run, 100, 100);
        let all = usize::from(n) * (usize::from(n) - 1) / 2;
        assert!(ours.follows);
        assert_eq!((ours.count, run.added.len()), (all, all));
        // Nothing leads back.
        let back = Question { a: q.b, b: q.a, ..q };
        assert!(!settle(&back, &run, 100, 100).follows);
    }
}

#[test]
fn over_a_thousand_passes() {
    for (n, m) in [(36, 3), (24, 6)] {
        let q = runs::counters(n, m);
        let run = reasoner::passes(&q);
        println!("counts: counters, n {n} m {m}, {} passes, {} facts", run.count, run.added.len());
        assert!(run.count > 1000);
        let ours = settle(&q, &run, 100, 5000);
        assert!(ours.follows);
        assert_eq!(ours.count, run.added.len());
        assert!(!settle(&Question { b: 0, ..q }, &run, 100, 5000).follows);
    }
}

#[test]
fn every_fact_there_can_be() {
    let q = runs::fullest();
    let run = reasoner::passes(&q);
    let ours = settle(&q, &run, 1000, 200_000);
    assert!(ours.follows);
    // n·n - n + m·n·n.
    assert_eq!(ours.count, 36_800);
    assert_eq!(calls::write_sheet_to_null(&q), desk_code(Err(no_room(294_400))));
    assert_eq!(ours.sheet[8 * 36_799..], steps(&[[637, 62, 0, 0]]));
    // Without the last record the same tables stay open at one place a thing.
    let less = Question { marks: marks(0..637), ..q };
    assert_eq!(no_rows(&less)[..2], [u64::MAX >> 1, u64::MAX >> 1]);
}

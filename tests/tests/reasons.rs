//! The module and the printed set against the independent ones: on random packs, on document 01's cases, and
//! in every refusal.

use noolukask_tests::calls::filled;
use noolukask_tests::compared::{ask_module, ask_set, minimal, module, set};
use noolukask_tests::packs::{self, kind_7, marks, places, question, steps, valve, Shape, SHAPES, VALVE};
use noolukask_tests::reasons::{self, only};
use noolukask_tests::rng::Rng;
use noolukask_tests::rules::{
    desk_code, number, record, show, Question, Refused, GOAL, MARKS, NOT_FOLLOWS, PACK, SIZES,
};
use noolukask_tests::threads::{self, on_two_threads};
use noolukask_tests::{calls, chains, damage, reasoner, runs, worlds};

const SMALL_PACKS: u64 = 20_000;
/// Further ones in which a fifth of the records are of kind 7.
const SELF_LINKED_PACKS: u64 = 5_000;
/// 56 of them, and some of the few, with a fifth of kind 7.
const LARGE_PACKS: u64 = 360;
const SUBSETS: u64 = 2_000_000;

/// Lengths that out marks may not have.
const LENGTHS: [usize; 9] = [0, 1, 8, 64, 120, 127, 129, 136, 256];

// ---- Random packs ----

/// Counts of what came up in a run of random packs.
#[derive(Default)]
struct Counts {
    packs: u64,
    /// The empty sets of free goals, and sets of one, two, three and more records.
    sizes: [u64; 5],
    /// How many sets have a record of kinds 1 to 7.
    kinds: [u64; 7],
    /// How often each number came back.
    numbers: [u64; 8],
    /// The most records of each in one answer.
    module: usize,
    set: usize,
    subsets: u64,
    /// For large packs: how many sets there were of each shape.
    shapes: [u64; SHAPES.len()],
}

impl Counts {
    fn answered(&mut self, q: &Question, module: &[usize], set: Option<&[usize]>) {
        self.module = self.module.max(module.len());
        match set {
            Some(set) => self.printed(q, set),
            None => self.numbers[7] += 1,
        }
    }

    fn printed(&mut self, q: &Question, set: &[usize]) {
        self.set = self.set.max(set.len());
        self.sizes[set.len().min(4)] += 1;
        for kind in 1..=7 {
            let has = set.iter().any(|&place| record(&q.pack, place).kind == kind);
            self.kinds[usize::from(kind) - 1] += u64::from(has);
        }
    }

    /// Over so many sets have three records or more, and over so many have a record of each kind.
    fn assert_varied(&self, long: u64, each_kind: u64) {
        assert!(self.sizes[3] + self.sizes[4] > long, "{:?}", self.sizes);
        assert!(self.kinds.iter().all(|&times| times > each_kind), "{:?}", self.kinds);
    }

    fn print(&self, what: &str) {
        println!(
            "counts: reasons on {} {what}: sets of 0, 1, 2, 3 and more records {:?}, the largest of {}; with \
             kinds 1 to 7 {:?}; the largest module of {}; refused with 1 to 7 {:?}; subsets asked {}; by shape {:?}",
            self.packs, self.sizes, self.set, self.kinds, self.module, &self.numbers[1..], self.subsets, self.shapes,
        );
    }
}

impl threads::Counts for Counts {
    fn join(mut self, other: Counts) -> Counts {
        fn add<const N: usize>(to: &mut [u64; N], more: [u64; N]) {
            to.iter_mut().zip(more).for_each(|(to, more)| *to += more);
        }
        self.packs += other.packs;
        add(&mut self.sizes, other.sizes);
        add(&mut self.kinds, other.kinds);
        add(&mut self.numbers, other.numbers);
        add(&mut self.shapes, other.shapes);
        self.module = self.module.max(other.module);
        self.set = self.set.max(other.set);
        self.subsets += other.subsets;
        self
    }
}

/// The question and the question with faults, with random out marks of right and wrong lengths.
fn with_faults(rng: &mut Rng, q: &Question, counts: &mut Counts) {
    for faulty in damage::questions(rng, q).iter().chain([q]) {
        for len in [128, rng.pick(&LENGTHS)] {
            let before = rng.bytes(len);
            counts.numbers[number(ask_module(faulty, &before))] += 1;
            counts.numbers[number(ask_set(faulty, &before))] += 1;
        }
    }
}

/// Every goal of the pack; and the module's records say as much of its concept as all of them do.
fn every_goal(q: &Question, counts: &mut Counts) {
    for a in 0..q.n {
        let module = module(&Question { a, ..q.clone() });
        for b in 0..q.n {
            let q = Question { a, b, ..q.clone() };
            assert_eq!(calls::verdict(&only(&q, &module)), calls::verdict(&q), "{}", show(&q));
            let set = set(&q);
            assert!(a != b || set.as_deref() == Some(&[]), "{}", show(&q));
            counts.answered(&q, &module, set.as_deref());
        }
    }
}

/// One small pack; sometimes with faults and for every goal.
fn small_pack(rng: &mut Rng, q: &Question, counts: &mut Counts) {
    counts.answered(q, &module(q), set(q).as_deref());
    if counts.packs % 50 == 0 {
        with_faults(rng, q, counts);
        every_goal(q, counts);
    }
    counts.packs += 1;
}

#[test]
fn twenty_thousand_small_packs() {
    let counts = on_two_threads(61, Counts::default, |counts| counts.packs == SMALL_PACKS / 2, |rng, counts| {
        let q = chains::small_question(rng, 80);
        small_pack(rng, &q, counts);
    });
    counts.print("small packs");
    assert_eq!(counts.packs, SMALL_PACKS);
    assert!(counts.sizes[0] > 2_000 && counts.numbers[7] > 8_000);
    counts.assert_varied(6_000, 1_500);
    assert!(counts.numbers[1..6].iter().all(|&times| times > 400) && counts.numbers[6] == 0);
}

#[test]
fn five_thousand_small_packs_with_a_fifth_of_kind_7() {
    let done = |counts: &Counts| counts.packs == SELF_LINKED_PACKS / 2;
    let counts = on_two_threads(67, Counts::default, done, |rng, counts| {
        let q = chains::fifth_of_kind_7(rng);
        // Marked records of kind 7 are in every module.
        let mut always = places(&q.marks).into_iter().filter(|&place| record(&q.pack, place).kind == 7);
        let inside = module(&q);
        assert!(always.all(|place| inside.contains(&place)), "{inside:?}\n{}", show(&q));
        small_pack(rng, &q, counts);
    });
    counts.print("small packs with a fifth of kind 7");
    assert_eq!(counts.packs, SELF_LINKED_PACKS);
    assert!(counts.numbers[7] > 1_000);
    counts.assert_varied(200, 25);
    assert!(counts.kinds[6] > 500, "{:?}", counts.kinds);
}

#[test]
fn all_subsets_of_up_to_twelve_records() {
    let counts = on_two_threads(63, Counts::default, |counts| counts.subsets > SUBSETS / 2, |rng, counts| {
        // One of five with a fifth of kind 7.
        let q = if counts.packs % 5 == 4 { chains::fifth_of_kind_7(rng) } else { chains::small_question(rng, 80) };
        let set = set(&q);
        assert_eq!(set, reasons::printed_of_all(&q), "{}", show(&q));
        counts.answered(&q, &module(&q), set.as_deref());
        counts.subsets += 1 << places(&q.marks).len();
        counts.packs += 1;
    });
    counts.print("packs of up to 12 records");
    assert!(counts.numbers[7] > 200);
    counts.assert_varied(450, 100);
}

#[test]
fn three_hundred_and_sixty_large_packs() {
    let counts = on_two_threads(65, Counts::default, |counts| counts.packs == LARGE_PACKS / 2, |rng, counts| {
        // A set of 1,024 dense records takes as long as a hundred others: few of them.
        let shape = match Shape::at(counts.packs) {
            Shape::Dense if counts.packs % 96 != 13 => Shape::Sparse,
            shape => shape,
        };
        counts.packs += 1;
        let mut q = packs::large_question(rng, shape);
        let run = reasoner::passes(&q);
        run.draw_goal(rng, &mut q);
        let module = module(&q);
        let before = rng.bytes(128);
        let (back, after) = calls::printed_set(&q, &before);
        if !run.answer(q.a, q.b).follows {
            assert_eq!((back, after), (desk_code(Err(NOT_FOLLOWS)), before), "{}", show(&q));
            return counts.answered(&q, &module, None);
        }
        let set = places(&after);
        assert_eq!((back, after), (256 * set.len() as u64, marks(set.iter().copied())), "{}", show(&q));
        minimal(&q, &set);
        assert!(reasons::is_printed(&q, &set, |q| calls::verdict(q) == 256), "{set:?}\n{}", show(&q));
        assert!(reasons::is_printed(&q, &set, worlds::follows), "{set:?}\n{}", show(&q));
        counts.answered(&q, &module, Some(&set));
        counts.shapes[SHAPES.iter().position(|&other| other == shape).expect("a shape")] += 1;
    });
    counts.print("packs of n = 64, m = 8");
    assert_eq!(counts.packs, LARGE_PACKS);
    assert!(counts.numbers[7] > 50 && counts.shapes.iter().all(|&times| times > 2));
    counts.assert_varied(60, 20);
}

// ---- Document 01's cases ----

/// Out marks with just these bytes set, the rest zero.
fn out(bytes: &[(usize, u8)]) -> Vec<u8> {
    let mut out = vec![0; 128];
    bytes.iter().for_each(|&(at, byte)| out[at] = byte);
    out
}

#[test]
fn c1_and_c2() {
    let q = question(1, 0, &[], 0, 0);
    assert_eq!(calls::printed_set(&q, &[7; 128]), (0, vec![0; 128]));
    assert_eq!(calls::module(&q, &[7; 128]), (0, vec![0; 128]));
    assert_eq!((module(&q), set(&q)), (vec![], Some(vec![])));
    let q = question(2, 0, &[], 0, 1);
    assert_eq!(calls::printed_set(&q, &[7; 128]), (7, vec![7; 128]));
    assert_eq!((module(&q), set(&q)), (vec![], None));
}

#[test]
fn c3_to_c6() {
    let q = valve(0, 1);
    assert_eq!(calls::module(&q, &[7; 128]), (0x600, out(&[(0, 0x3F)])));
    assert_eq!(calls::printed_set(&q, &[7; 128]), (0x200, out(&[(0, 0x30)])));
    assert_eq!((module(&q), set(&q)), (vec![0, 1, 2, 3, 4, 5], Some(vec![4, 5])));
    // C4: the open chest repair is out of reach.
    let q = only(&q, &[0, 1, 2, 3, 5]);
    assert_eq!(calls::printed_set(&q, &[7; 128]), (0x400, out(&[(0, 0x0F)])));
    assert_eq!((module(&q), set(&q)), (vec![0, 1, 2, 3], Some(vec![0, 1, 2, 3])));
    // C5.
    let q = only(&q, &[0, 1, 3, 5]);
    assert_eq!((module(&q), set(&q)), (vec![0, 1, 3], None));
    // C6: the valve does not reach the role site.
    let q = valve(2, 1);
    assert_eq!(calls::module(&q, &[7; 128]), (0x100, out(&[(0, 0x02)])));
    assert_eq!((module(&q), set(&q)), (vec![1], None));
}

#[test]
fn c7_to_c10() {
    let q = question(2, 0, &[[1, 0, 1, 0], [1, 0, 1, 0]], 0, 1);
    assert_eq!(calls::printed_set(&q, &[7; 128]), (0x100, out(&[(0, 0x02)])));
    assert_eq!((module(&q), set(&q)), (vec![0, 1], Some(vec![1])));
    let q = question(2, 0, &[[2, 0, 0, 1]], 0, 1);
    assert_eq!((module(&q), set(&q)), (vec![0], Some(vec![0])));
    let q = question(3, 0, &[[1, 1, 2, 0], [1, 0, 1, 0]], 0, 2);
    assert_eq!((module(&q), set(&q)), (vec![0, 1], Some(vec![0, 1])));
    // C10: both roles are reached, yet the chain leads nowhere.
    let mut turned = VALVE;
    turned[2] = [6, 1, 0, 0];
    let q = only(&question(5, 2, &turned, 0, 1), &[0, 1, 2, 3, 5]);
    assert_eq!((module(&q), set(&q)), (vec![0, 1, 2, 3], None));
}

#[test]
fn kind_7_and_kind_4() {
    let q = kind_7();
    assert_eq!(calls::module(&q, &[7; 128]), (0x200, out(&[(0, 0x03)])));
    assert_eq!(calls::printed_set(&q, &[7; 128]), (0x200, out(&[(0, 0x03)])));
    assert_eq!((module(&q), set(&q)), (vec![0, 1], Some(vec![0, 1])));
    // From 1 the role is reached all the same, and record 1 asks for 0 besides.
    let back = Question { a: 1, b: 0, ..q.clone() };
    assert_eq!(calls::module(&back, &[7; 128]), (0x100, out(&[(0, 0x01)])));
    assert_eq!((module(&back), set(&back)), (vec![0], None));
    // Record 0 not marked: neither the role nor record 1 is reached.
    let q = only(&q, &[1]);
    assert_eq!(calls::module(&q, &[7; 128]), (0, vec![0; 128]));
    assert_eq!(calls::printed_set(&q, &[7; 128]), (7, vec![7; 128]));
    assert_eq!((module(&q), set(&q)), (vec![], None));
}

#[test]
fn kind_7_is_in_every_module() {
    // Role 1 is reached from every concept, and by it roles 2 and 3; role 0 from 6 alone, and 6 from 7.
    let records = [[7, 1, 0, 0], [5, 0, 3, 0], [7, 1, 0, 0], [5, 2, 3, 0], [5, 1, 2, 0], [4, 3, 7, 6], [3, 6, 0, 6]];
    for a in 0..8 {
        let q = question(8, 4, &records, a, a);
        let reached: &[usize] = match a {
            6 => &[0, 1, 2, 3, 4, 6],
            7 => &[0, 1, 2, 3, 4, 5, 6],
            _ => &[0, 2, 3, 4],
        };
        assert_eq!(module(&q), reached, "{a}");
        // One of the two is enough, and without either nothing is reached.
        assert_eq!(module(&only(&q, &[1, 2, 3, 4])), [2, 3, 4], "{a}");
        assert_eq!(module(&only(&q, &[1, 3, 4, 5])), [], "{a}");
    }
    // With 1,024 of them the module is the whole pack; of alike ones the last that is marked is in the set.
    let mut records = [[7, 0, 0, 0]; 1024];
    let q = question(2, 1, &records, 0, 1);
    assert_eq!(calls::module(&q, &[7; 128]), (0x40000, vec![255; 128]));
    assert_eq!(set(&q), None);
    records[500] = [4, 0, 0, 1];
    let q = question(2, 1, &records, 0, 1);
    assert_eq!(places(&calls::printed_set(&q, &filled(128)).1), [500, 1023]);
    let up_to = Question { marks: marks(0..=500), ..q };
    assert_eq!(places(&calls::printed_set(&up_to, &filled(128)).1), [499, 500]);
}

#[test]
fn every_goal_of_the_valve_pack() {
    let modules: [&[usize]; 5] = [&[0, 1, 2, 3, 4, 5], &[], &[1], &[], &[5]];
    for (a, b) in (0..5).flat_map(|a| (0..5).map(move |b| (a, b))) {
        let q = valve(a, b);
        assert_eq!(module(&q), modules[a as usize]);
        let expected = match (a, b) {
            (0, 1) => Some(vec![4, 5]),
            (0, 4) => Some(vec![4]),
            (4, 1) => Some(vec![5]),
            _ => (a == b).then(Vec::new),
        };
        assert_eq!(set(&q), expected);
    }
}

#[test]
fn the_page_on_striking_records() {
    // README's table: what is struck, the printed set, our sheet.
    let by_the_site = [[0, 0, 0, 0], [1, 2, 0, 0], [2, 0, 2, 3], [3, 0, 3, 0]];
    let by_the_chest = [[0, 0, 0, 0], [1, 2, 0, 0], [4, 0, 0, 0], [5, 0, 0, 0]];
    let without = |struck: &[usize]| {
        let left: Vec<usize> = (0..6).filter(|place| !struck.contains(place)).collect();
        only(&valve(0, 1), &left)
    };
    let lines: [(&[usize], &[usize], _); 3] =
        [(&[], &[4, 5], by_the_site), (&[4], &[0, 1, 2, 3], by_the_site), (&[2], &[4, 5], by_the_chest)];
    for (struck, reason, sheet) in lines {
        let (q, sheet) = (without(struck), steps(&sheet));
        assert_eq!(calls::verdict(&q), 256, "{struck:?}");
        assert_eq!(set(&q).as_deref(), Some(reason), "{struck:?}");
        assert_eq!(calls::write_sheet(&q, &[7; 32]), (256 * (2 * 4 + 1), sheet.clone()), "{struck:?}");
        assert_eq!(calls::check_yes(&q, &sheet), 0, "{struck:?}");
    }
    let q = without(&[2, 4]);
    assert_eq!((calls::verdict(&q), set(&q)), (0, None));
    let (back, sheet) = calls::write_sheet(&q, &[7; 120]);
    assert_eq!((back, calls::check_no(&q, &sheet)), (256 * 2 * 15, 0));
}

// ---- Run only, and refusals ----

/// Both calls refuse the question with this number, and out marks of any length keep every byte. Where a
/// number above 4 would be given, another length of the out marks is MARKS.
fn refused(q: &Question, refusal: Refused) {
    for len in LENGTHS.into_iter().chain([128]) {
        let late = len != 128 && refusal.number > MARKS.number;
        let expected = desk_code(Err(if late { MARKS } else { refusal }));
        let before = filled(len);
        assert_eq!(calls::module(q, &before), (expected, before.clone()), "{len}\n{}", show(q));
        assert_eq!(calls::printed_set(q, &before), (expected, before), "{len}\n{}", show(q));
    }
}

#[test]
fn sizes_and_lengths() {
    let of_length = |n: u64, m: u64, len: usize| {
        Question { marks: marks(0..(len / 8).min(1024)), ..packs::of_length(n, m, len) }
    };
    for (n, m) in [(0, 0), (65, 8), (64, 9), (1, u64::MAX), ((1 << 32) + 5, 0), (5, 1 << 32)] {
        [0, 7, 8].iter().for_each(|&len| refused(&of_length(n, m, len), SIZES));
    }
    for (n, m) in [(1, 0), (64, 0), (1, 8), (64, 8)] {
        for len in [0, 8, 8192] {
            let q = of_length(n, m, len);
            assert_eq!(module(&q), places(&q.marks));
            assert_eq!(calls::printed_set(&q, &filled(128)), (0, vec![0; 128]));
        }
        [7, 9, 8191, 8193, 8200].iter().for_each(|&len| refused(&of_length(n, m, len), PACK));
    }
}

#[test]
fn the_longest_pack_with_its_last_record_marked() {
    let q = packs::longest();
    assert_eq!(calls::module(&q, &[7; 128]), (0x100, out(&[(127, 0x80)])));
    assert_eq!(calls::printed_set(&q, &[7; 128]), (0x100, out(&[(127, 0x80)])));
    assert_eq!((module(&q), set(&q)), (vec![1023], Some(vec![1023])));
    let other = only(&q, &[1022]);
    assert_eq!((module(&other), set(&other)), (vec![], None));
    // With all 1,024 marked, 0 is still under 1 by the last one alone.
    let all = Question { marks: vec![255; 128], ..q.clone() };
    assert_eq!(calls::printed_set(&all, &[7; 128]), (0x100, out(&[(127, 0x80)])));
    // 438 records of kinds 5 to 7, since kind 7 brings in every role, the 10 others that name 1 on their left side, and
    // the last one.
    assert_eq!(module(&all).len(), 449);
    let mut longer = all;
    longer.pack.extend([1, 0, 1, 0, 0, 0, 0, 0]);
    refused(&longer, PACK);
}

#[test]
fn every_single_mark() {
    let pack = packs::pack(&[[1, 0, 1, 0]; 1024]);
    let all = Question { n: 2, m: 0, pack, marks: vec![255; 128], a: 0, b: 1 };
    assert_eq!(calls::module(&all, &[7; 128]), (0x40000, vec![255; 128]));
    for place in 0..1024 {
        let one = marks([place]);
        let q = Question { marks: one.clone(), ..all.clone() };
        assert_eq!(calls::module(&q, &[7; 128]), (0x100, one.clone()));
        assert_eq!(calls::printed_set(&q, &[7; 128]), (0x100, one.clone()));
        // Of alike records the last one that is marked; the old bits of out marks do not matter.
        let up_to = Question { marks: marks(0..=place), ..all.clone() };
        assert_eq!(calls::printed_set(&up_to, &[255; 128]), (0x100, one));
        // Not where the pack ends before it.
        let short = Question { pack: all.pack[..8 * place].to_vec(), ..q };
        refused(&short, MARKS);
    }
}

#[test]
fn of_several_faults_the_lowest_number() {
    damage::several_at_once().into_iter().for_each(|(q, number)| refused(&q, number));
}

#[test]
fn damaged_fields_of_kind_7() {
    for (q, expected) in damage::fields_of_kind_7() {
        match expected {
            Err(number) => refused(&q, number),
            Ok(_) => assert_eq!((module(&q), set(&q)), ((0..9).collect(), None)),
        }
    }
}

#[test]
fn marks_of_other_lengths() {
    for len in LENGTHS {
        refused(&Question { marks: vec![0; len], ..valve(0, 1) }, MARKS);
        // Also where the set would be empty, and where there is none.
        refused(&Question { marks: vec![0; len], ..valve(1, 1) }, MARKS);
        refused(&Question { marks: vec![0; len], ..valve(2, 1) }, MARKS);
    }
    for len in (0..300).filter(|&len| len != 128).chain([1024, 8192]) {
        for q in [valve(0, 1), valve(1, 1), valve(2, 1), valve(5, 1)] {
            assert_eq!([ask_module(&q, &filled(len)), ask_set(&q, &filled(len))], [Err(MARKS); 2]);
        }
    }
}

#[test]
fn goals() {
    for far in [5, 6, 64, 255, 256, 257, 1 << 32, (1 << 32) + 1, u64::MAX] {
        [(far, 0), (far, far)].iter().for_each(|&(a, b)| refused(&valve(a, b), GOAL));
        // A module has one concept for its goal.
        let q = valve(2, far);
        assert_eq!(module(&q), [1]);
        assert_eq!(ask_set(&q, &filled(128)), Err(GOAL));
    }
}

#[test]
fn not_follows_comes_last() {
    for q in [valve(2, 1), only(&valve(0, 1), &[]), question(64, 8, &[], 63, 62)] {
        assert_eq!(calls::printed_set(&q, &filled(128)), (7, filled(128)));
        assert_eq!(calls::printed_set(&q, &[255; 128]), (7, vec![255; 128]));
        assert_eq!(ask_set(&Question { b: q.n, ..q.clone() }, &filled(128)), Err(GOAL));
        assert_eq!(ask_set(&q, &filled(127)), Err(MARKS));
        assert_eq!(ask_set(&Question { m: 9, ..q }, &filled(128)), Err(SIZES));
    }
}

#[test]
fn a_free_goal_needs_no_record() {
    for q in [valve(0, 0), valve(4, 4), Question { a: 7, b: 7, ..runs::fullest() }] {
        assert_eq!(calls::printed_set(&q, &filled(128)), (0, vec![0; 128]));
        assert!(!module(&q).is_empty());
    }
}

// ---- Old errors ----

#[test]
fn a_record_is_in_the_module_when_all_its_left_side_is() {
    // A record, and for each name on its left side a record that brings it in: 0 under a concept, or 0 under
    // some role 7, which is in nothing else. Concepts 1 and 2, roles 0 and 1; then 5 shows what it brings.
    let cases: [([u8; 4], &[[u8; 4]], [u8; 4]); 7] = [
        ([1, 1, 5, 0], &[[1, 0, 1, 0]], [1, 5, 6, 0]),
        ([2, 1, 2, 5], &[[1, 0, 1, 0], [1, 0, 2, 0]], [1, 5, 6, 0]),
        ([3, 1, 2, 5], &[[1, 0, 1, 0]], [4, 2, 5, 6]),
        ([4, 0, 1, 5], &[[3, 0, 0, 7], [1, 0, 1, 0]], [1, 5, 6, 0]),
        ([5, 0, 2, 0], &[[3, 0, 0, 7]], [5, 2, 3, 0]),
        ([6, 0, 1, 2], &[[3, 0, 0, 7], [3, 0, 1, 7]], [5, 2, 3, 0]),
        ([7, 2, 0, 0], &[], [5, 2, 3, 0]),
    ];
    for (record, brings, shows) in cases {
        let records = [&[shows, record], brings].concat();
        let q = question(8, 4, &records, 0, 6);
        let all: Vec<usize> = (0..records.len()).collect();
        assert_eq!(module(&q), all, "{records:?}");
        // Without one of them neither the record nor what it brings is reached.
        for lost in 2..records.len() {
            let rest: Vec<usize> = all.iter().copied().filter(|&place| place != lost).collect();
            assert_eq!(module(&only(&q, &rest)), rest[2..], "{records:?} without {lost}");
        }
        // An unmarked record is neither in the module nor does it bring anything in.
        let unmarked: Vec<usize> = all.iter().copied().filter(|&place| place != 1).collect();
        assert_eq!(module(&only(&q, &unmarked)), unmarked[1..], "{records:?}");
    }
}

#[test]
fn a_later_record_does_not_hide_an_earlier_one() {
    let records = [[3, 0, 0, 1], [3, 0, 0, 2], [4, 0, 1, 3], [4, 0, 2, 4], [1, 0, 5, 0], [1, 0, 6, 0]];
    for (b, expected) in [(3, [0, 2].to_vec()), (4, vec![1, 3]), (5, vec![4]), (6, vec![5])] {
        let q = question(7, 1, &records, 0, b);
        assert_eq!(module(&q), [0, 1, 2, 3, 4, 5]);
        assert_eq!(set(&q), Some(expected));
    }
}

#[test]
fn what_can_be_spared_alone_is_not_dropped_together() {
    // Three ways from 0 to 4, the first by 1, then by 2, then by 3, and each record can be spared.
    let records = [[1, 0, 1, 0], [1, 1, 4, 0], [1, 0, 2, 0], [1, 2, 4, 0], [1, 0, 3, 0], [1, 3, 4, 0]];
    let q = question(5, 0, &records, 0, 4);
    assert_eq!(set(&q), Some(vec![4, 5]));
    assert_eq!(set(&only(&q, &[0, 1, 2, 3, 5])), Some(vec![2, 3]));
    assert_eq!(set(&only(&q, &[0, 1, 2, 4])), Some(vec![0, 1]));
    // Not the fewest records, but those that lack the lowest place: 0 alone would do.
    let records = [[1, 0, 3, 0], [1, 0, 1, 0], [1, 1, 2, 0], [1, 2, 3, 0]];
    assert_eq!(set(&question(4, 0, &records, 0, 3)), Some(vec![1, 2, 3]));
}

// ---- Long sets and full tables ----

#[test]
fn records_in_reverse_order() {
    let q = runs::reverse(64);
    let all: Vec<usize> = (0..63).collect();
    for a in [0u64, 1, 31, 62, 63] {
        // The record for x under x + 1 stands at 62 - x.
        let q = Question { a, ..q.clone() };
        let rest = &all[..63 - a as usize];
        assert_eq!(module(&q), rest);
        assert_eq!(places(&calls::printed_set(&q, &filled(128)).1), rest);
        minimal(&q, rest);
    }
}

#[test]
fn every_record_of_a_counter() {
    // Each of hundreds of passes goes one further, and no record can be spared.
    let q = runs::counters(20, 6);
    let (back, after) = calls::printed_set(&q, &filled(128));
    let set = places(&after);
    assert_eq!(back, 256 * set.len() as u64);
    minimal(&q, &set);
    assert!(reasons::is_printed(&q, &set, |q| calls::verdict(q) == 256));
    assert!(set.len() > 25, "{set:?}");
    assert!(!module(&q).is_empty());
}

#[test]
fn every_fact_there_can_be() {
    // 62 under 0 and 0 under 63; everything is reached.
    let q = runs::fullest();
    assert_eq!(module(&q).len(), 638);
    assert_eq!(calls::printed_set(&q, &filled(128)), (0x200, marks([61, 637])));
}

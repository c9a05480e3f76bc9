//! Makers of packs, marks and sheets: the valve pack, small ones by hand, random ones.

use crate::rng::Rng;
use crate::rules::{marked, Question};

/// Records from their first four bytes, statement number 0.
pub fn pack(records: &[[u8; 4]]) -> Vec<u8> {
    records.iter().flat_map(|&[kind, a, b, c]| [kind, a, b, c, 0, 0, 0, 0]).collect()
}

/// 128 bytes with these places marked.
pub fn marks(places: impl IntoIterator<Item = usize>) -> Vec<u8> {
    let mut words = [0u64; 16];
    places.into_iter().for_each(|place| words[place / 64] |= 1 << (place % 64));
    rows(&words)
}

/// The places that are marked, ascending.
pub fn places(marks: &[u8]) -> Vec<usize> {
    (0..1024).filter(|&place| marked(marks, place)).collect()
}

/// Words as little-endian bytes: marks, or the rows of a no sheet.
pub fn rows(words: &[u64]) -> Vec<u8> {
    words.iter().flat_map(|word| word.to_le_bytes()).collect()
}

/// Steps (place X Y Z) as the bytes of a yes sheet.
pub fn steps(list: &[[u16; 4]]) -> Vec<u8> {
    list.iter()
        .flat_map(|&[place, x, y, z]| {
            let [low, high] = place.to_le_bytes();
            [low, high, x as u8, y as u8, z as u8, 0, 0, 0]
        })
        .collect()
}

/// A question with every record marked.
pub fn question(n: u64, m: u64, records: &[[u8; 4]], a: u64, b: u64) -> Question {
    Question { n, m, pack: pack(records), marks: marks(0..records.len()), a, b }
}

/// Record `1 0 0 0`, good for every n, so often that there are this many bytes.
pub fn filler(len: usize) -> Vec<u8> {
    (0..len).map(|i| u8::from(i % 8 == 0)).collect()
}

/// A pack of such records, none marked, and the goal (0,0).
pub fn of_length(n: u64, m: u64, len: usize) -> Question {
    Question { n, m, pack: filler(len), marks: marks([]), a: 0, b: 0 }
}

pub const VALVE: [[u8; 4]; 6] =
    [[3, 0, 0, 2], [3, 2, 1, 3], [6, 0, 1, 0], [4, 0, 3, 1], [1, 0, 4, 0], [1, 4, 1, 0]];

/// The valve pack, every record marked.
pub fn valve(a: u64, b: u64) -> Question {
    question(5, 2, &VALVE, a, b)
}

/// C3: the yes sheet for goal (0,1).
pub fn valve_yes_sheet() -> Vec<u8> {
    steps(&[[0, 0, 0, 0], [1, 2, 0, 0], [2, 0, 2, 3], [3, 0, 3, 0]])
}

/// C6: the no sheet for goal (2,1).
pub fn valve_no_sheet() -> Vec<u8> {
    let (concepts, site, part_of) =
        ([0x13, 0x02, 0x04, 0x08, 0x12], [0x0C, 0, 0, 0, 0], [0, 0, 0x08, 0, 0]);
    rows(&[concepts, site, part_of].concat())
}

/// The further case of kind 7: everything is linked to itself, and some r 0 is under 1.
pub const KIND_7: [[u8; 4]; 2] = [[7, 0, 0, 0], [4, 0, 0, 1]];

/// It with goal (0,1), both records marked.
pub fn kind_7() -> Question {
    question(2, 1, &KIND_7, 0, 1)
}

/// The steps of its yes sheet.
pub const KIND_7_STEPS: [[u16; 4]; 3] = [[0, 0, 0, 0], [0, 1, 0, 0], [1, 0, 0, 0]];

/// The same in bytes: 0 r 0, 1 r 1, 0 in 1.
pub const KIND_7_SHEET: [u8; 24] = [
    0, 0, 0, 0, 0, 0, 0, 0, //
    0, 0, 1, 0, 0, 0, 0, 0, //
    1, 0, 0, 0, 0, 0, 0, 0,
];

/// 1,024 records of every kind, good for n = 64 and m = 8, of which only the last is marked. 61 and 7 have no common
/// factor, so that every concept comes with every kind.
pub fn longest() -> Question {
    let records: Vec<[u8; 4]> = (0..1024u32)
        .map(|i| {
            let (concept, role) = ((i % 61 + 1) as u8, (i % 8) as u8);
            match i % 7 {
                0 => [1, concept, 63, 0],
                1 => [2, concept, 63, concept],
                2 => [3, concept, role, 63],
                3 => [4, role, concept, 63],
                4 => [5, role, 7, 0],
                5 => [6, role, 7, role],
                _ => [7, role, 0, 0],
            }
        })
        .collect();
    let mut q = question(64, 8, &records, 0, 1);
    q.pack[8 * 1023..8 * 1023 + 4].copy_from_slice(&[1, 0, 1, 0]);
    q.marks = marks([1023]);
    q
}

/// A record of any kind that keeps its rules.
pub fn random_record(rng: &mut Rng, n: usize, m: usize) -> [u8; 4] {
    let kind = if m == 0 { rng.between(1, 2) } else { rng.between(1, 7) };
    record_of_kind(rng, kind, n, m)
}

/// A record of this kind; names come often from a few, so that rules meet.
fn record_of_kind(rng: &mut Rng, kind: usize, n: usize, m: usize) -> [u8; 4] {
    let few = if rng.chance(70) { 5 } else { 64 };
    let concept = |rng: &mut Rng| rng.below(n.min(few)) as u8;
    let role = |rng: &mut Rng| rng.below(m.min(few)) as u8;
    match kind {
        1 => [1, concept(rng), concept(rng), 0],
        2 => [2, concept(rng), concept(rng), concept(rng)],
        3 => [3, concept(rng), role(rng), concept(rng)],
        4 => [4, role(rng), concept(rng), concept(rng)],
        5 => [5, role(rng), role(rng), 0],
        6 => [6, role(rng), role(rng), role(rng)],
        _ => [7, role(rng), 0, 0],
    }
}

/// Two concepts that differ.
pub fn two_concepts(rng: &mut Rng, n: usize) -> (u64, u64) {
    let (a, far) = (rng.below(n), rng.between(1, n - 1));
    (a as u64, ((a + far) % n) as u64)
}

/// A good question of these records: statement numbers of any value, about so many of a hundred marked, any goal.
pub fn stated(rng: &mut Rng, n: usize, m: usize, records: &[[u8; 4]], share: usize) -> Question {
    let mut bytes = pack(records);
    bytes.chunks_exact_mut(8).for_each(|record| record[4..].copy_from_slice(&rng.bytes(4)));
    let places: Vec<usize> = (0..records.len()).filter(|_| rng.chance(share)).collect();
    let (a, b) = (rng.below(n) as u64, rng.below(n) as u64);
    Question { n: n as u64, m: m as u64, pack: bytes, marks: marks(places), a, b }
}

/// A good question of these sizes, most records marked. Of five packs with roles one has a fifth of kind 7.
pub fn random_question(rng: &mut Rng, n: usize, m: usize, count: usize) -> Question {
    if m > 0 && rng.chance(20) {
        return fifth_of_kind_7(rng, n, m, count);
    }
    let records: Vec<[u8; 4]> = (0..count).map(|_| random_record(rng, n, m)).collect();
    mostly_marked(rng, n, m, &records)
}

/// A good question in which a fifth of the records, rounded up, are of kind 7; m is 1 or more.
pub fn fifth_of_kind_7(rng: &mut Rng, n: usize, m: usize, count: usize) -> Question {
    let mut kinds = vec![7; count.div_ceil(5)];
    kinds.resize_with(count, || rng.between(1, 6));
    rng.shuffle(&mut kinds);
    let records: Vec<[u8; 4]> = kinds.into_iter().map(|kind| record_of_kind(rng, kind, n, m)).collect();
    mostly_marked(rng, n, m, &records)
}

fn mostly_marked(rng: &mut Rng, n: usize, m: usize, records: &[[u8; 4]]) -> Question {
    let share = rng.pick(&[100, 100, 90, 50]);
    stated(rng, n, m, records, share)
}

/// A record over all 64 concepts and 8 roles, its kind drawn from these.
fn wide_record(rng: &mut Rng, kinds: &[u8]) -> [u8; 4] {
    let kind = rng.pick(kinds);
    let mut concept = || rng.below(64) as u8;
    let [a, b, c] = [concept(), concept(), concept()];
    match kind {
        1 => [1, a, b, 0],
        2 => [2, a, b, c],
        3 => [3, a, b % 8, c],
        4 => [4, a % 8, b, c],
        5 => [5, a % 8, b % 8, 0],
        6 => [6, a % 8, b % 8, c % 8],
        _ => [7, a % 8, 0, 0],
    }
}

/// Records that fill every link and leave the concepts to others: all things under one concept, which is
/// under some r Y for all r and Y.
fn filling(rng: &mut Rng) -> Vec<[u8; 4]> {
    let top = rng.below(64) as u8;
    let mut records: Vec<[u8; 4]> = (0..64).filter(|&x| x != top).map(|x| [1, x, top, 0]).collect();
    records.extend((0..8).flat_map(|r| (0..64).map(move |y| [3, top, r, y])));
    records
}

/// What a pack of n = 64 and m = 8 may look like.
#[derive(Clone, Copy, PartialEq, Eq, Debug)]
pub enum Shape {
    /// Under 170 records, of every kind.
    Sparse,
    /// 1,024 records, few of them on roles alone.
    Dense,
    /// 100 to 1,024 records without links.
    Unlinked,
    /// Every link there can be, and few chains.
    Full,
    /// Under 120 records with names from a few, as in small packs.
    Few,
    /// Under 170 records, a fifth of them of kind 7.
    SelfLinked,
}

pub const SHAPES: [Shape; 6] =
    [Shape::Sparse, Shape::Dense, Shape::Unlinked, Shape::Full, Shape::Few, Shape::SelfLinked];

impl Shape {
    /// The shape of one pack in a run: of 24 packs most are sparse.
    pub fn at(turn: u64) -> Shape {
        match turn % 24 {
            0..=12 => Shape::Sparse,
            13 => Shape::Dense,
            14 | 15 => Shape::Unlinked,
            16 => Shape::Full,
            17..=19 => Shape::Few,
            _ => Shape::SelfLinked,
        }
    }
}

/// A question of n = 64 and m = 8.
pub fn large_question(rng: &mut Rng, shape: Shape) -> Question {
    let mut records: Vec<[u8; 4]> = Vec::new();
    let mut more = |rng: &mut Rng, count: usize, kinds: &[u8]| {
        (0..count).for_each(|_| records.push(wide_record(rng, kinds)));
    };
    match shape {
        Shape::Sparse => {
            let count = rng.below(170);
            more(rng, count, &[1, 1, 2, 3, 3, 4, 5, 6, 7]);
        }
        Shape::Dense => {
            more(rng, 1018, &[1, 2, 3, 3, 3, 4]);
            more(rng, 6, &[5, 6, 7]);
        }
        Shape::Unlinked => {
            let count = rng.between(100, 1024);
            more(rng, count, &[1, 2, 2, 2]);
        }
        Shape::Full => {
            let count = rng.below(12);
            more(rng, count, &[1, 2, 4, 6, 7]);
            records.extend(filling(rng));
        }
        Shape::Few => {
            let count = rng.below(120);
            return random_question(rng, 64, 8, count);
        }
        Shape::SelfLinked => {
            let count = rng.below(170);
            let fifth = count.div_ceil(5);
            more(rng, fifth, &[7]);
            more(rng, count - fifth, &[1, 1, 2, 3, 3, 4, 5, 6]);
        }
    }
    rng.shuffle(&mut records);
    let mut q = question(64, 8, &records, rng.below(64) as u64, rng.below(64) as u64);
    if rng.chance(30) {
        q.marks = marks((0..records.len()).filter(|_| rng.chance(80)));
    }
    q
}

#[cfg(test)]
mod tests {
    use super::*;
    use crate::rules::{check_pack, check_question, record};

    /// How many records of kinds 1 to 7 there are.
    fn kinds(q: &Question) -> [usize; 7] {
        let mut kinds = [0; 7];
        (0..q.pack.len() / 8).for_each(|place| kinds[usize::from(record(&q.pack, place).kind) - 1] += 1);
        kinds
    }

    #[test]
    fn random_questions_are_good() {
        let mut rng = Rng::new(3);
        let mut seen = [0; 7];
        for _ in 0..2000 {
            let (n, m, count) = (rng.between(1, 64), rng.between(0, 8), rng.below(60));
            let q = random_question(&mut rng, n, m, count);
            assert_eq!(check_question(&q), Ok(count as u64));
            (0..7).for_each(|i| seen[i] += kinds(&q)[i]);
        }
        assert!(seen.iter().all(|&times| times > 5000), "{seen:?}");
    }

    #[test]
    fn a_fifth_is_of_kind_7() {
        let mut rng = Rng::new(4);
        for count in 0..100 {
            let (n, m) = (rng.between(1, 64), rng.between(1, 8));
            let small = fifth_of_kind_7(&mut rng, n, m, count);
            assert_eq!(check_question(&small), Ok(count as u64));
            for q in [small, large_question(&mut rng, Shape::SelfLinked)] {
                let all = check_question(&q).expect("a good question") as usize;
                assert_eq!(kinds(&q)[6], all.div_ceil(5));
            }
        }
    }

    #[test]
    fn the_longest_pack_is_good() {
        let q = longest();
        assert_eq!(check_pack(64, 8, &q.pack), Ok(1024));
        assert_eq!(check_question(&q), Ok(1024));
        assert!(kinds(&q).iter().all(|&times| times > 140), "{:?}", kinds(&q));
    }
}

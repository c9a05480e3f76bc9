//! What is measured: packs, sheets and worlds from a fixed seed, of full size, n = 64 and m = 8, but where a
//! maker says otherwise.

use noolukask_tests::packs;
use noolukask_tests::rng::Rng;
use noolukask_tests::rules::Question;
use noolukask_tests::runs;

const STEPS: usize = 36_000;
const RECORDS: usize = 1024;
const CHAINS: usize = 400;
/// Bytes: room for any sheet of ours, and out marks.
pub const ROOM: usize = 8 * 36_800;
pub const OUT: usize = 128;

/// A question and a sheet that is accepted for it.
type Answered = (Question, Vec<u8>);

/// Everything that the table measures.
pub struct Inputs {
    pub yes: Answered,
    pub staircase: Answered,
    pub full: Answered,
    pub mixed: Vec<Question>,
    pub open: Question,
    pub self_linked: Question,
    pub chains: Question,
    pub open_sheet: Question,
    pub staged: Question,
    pub snomed: Question,
}

impl Inputs {
    pub fn drawn(rng: &mut Rng) -> Inputs {
        Inputs {
            yes: long_yes_sheet(rng),
            staircase: staircase_no_sheet(rng),
            full: full_no_sheet(rng),
            mixed: mixed_packs(rng),
            open: open_pack(rng, RECORDS),
            self_linked: self_linked_pack(),
            chains: chains_on_full(rng),
            open_sheet: open_pack(rng, RECORDS),
            staged: staged_pack(rng, RECORDS),
            snomed: snomed_pack(rng),
        }
    }
}

/// n - 1 records in reverse, with a goal that does not follow: the passes go to their end. m is 0.
pub fn reverse_to_the_end(n: u8) -> Question {
    Question { a: u64::from(n) - 1, b: 0, ..runs::reverse(n) }
}

/// 1,024 records of kinds 1 to 6, every one marked.
fn mixed_pack(rng: &mut Rng) -> Question {
    let any = |rng: &mut Rng| {
        let [kind, a, b, c] = [rng.between(1, 6), rng.below(64), rng.below(64), rng.below(64)];
        record(kind, a, b, c)
    };
    let records: Vec<[u8; 4]> = (0..RECORDS).map(|_| any(rng)).collect();
    packs::question(64, 8, &records, 0, 1)
}

/// 64 of them; all but the first have a seed of their own.
fn mixed_packs(rng: &mut Rng) -> Vec<Question> {
    let mut own = Rng::new(64);
    std::iter::once(mixed_pack(rng)).chain((1..64).map(|_| mixed_pack(&mut own))).collect()
}

/// A record of this kind; role fields are cut down to 0 to 7.
fn record(kind: usize, a: usize, b: usize, c: usize) -> [u8; 4] {
    let fields = match kind {
        1 => [1, a, b, 0],
        2 => [2, a, b, c],
        3 => [3, a, b % 8, c],
        4 => [4, a % 8, b, c],
        5 => [5, a % 8, b % 8, 0],
        6 => [6, a % 8, b % 8, c % 8],
        _ => [7, a % 8, 0, 0],
    };
    fields.map(|field| field as u8)
}

/// A yes sheet of 36,000 steps: records in random order, a step or a few of each at a time,
/// so that kinds alternate; one draw in five also takes conclusions again. The goal is shown.
fn long_yes_sheet(rng: &mut Rng) -> Answered {
    let mut q = mixed_pack(rng);
    let mut known = Known { concepts: std::array::from_fn(|x| 1 << x), links: [[0; 64]; 8] };
    let mut steps: Vec<[u16; 4]> = Vec::new();
    while steps.len() < STEPS {
        let place = rng.below(RECORDS);
        let fields: [u8; 4] = q.pack[8 * place..8 * place + 4].try_into().expect("4 bytes");
        let most = rng.between(1, 4).min(STEPS - steps.len());
        let found = known.steps(fields.map(usize::from), rng.below(64), most, rng.chance(20));
        steps.extend(found.iter().map(|&[x, y, z]| [place, x, y, z].map(|number| number as u16)));
    }
    let (a, b) = (0..64)
        .flat_map(|a| (0..64).map(move |b| (a, b)))
        .find(|&(a, b): &(usize, usize)| a != b && known.concepts[a] >> b & 1 == 1)
        .expect("some concept is shown");
    (q.a, q.b) = (a as u64, b as u64);
    (q, packs::steps(&steps))
}

/// What the steps so far conclude.
struct Known {
    concepts: [u64; 64],
    links: [[u64; 64]; 8],
}

impl Known {
    /// Up to `most` steps of one record, X counted from `start`, and their conclusions put in.
    fn steps(&mut self, fields: [usize; 4], start: usize, most: usize, repeat: bool) -> Vec<[usize; 3]> {
        let [kind, a, b, c] = fields;
        let mut found = Vec::new();
        for x in (0..64).map(|i| (start + i) % 64) {
            let row = self.concepts[x];
            let has = |concept: usize| row >> concept & 1 == 1;
            let ends = match kind {
                4..=6 => self.links[a][x],
                2 => u64::from(has(a) && has(b)),
                _ => u64::from(has(a)),
            };
            for y in (0..64).filter(|y| ends >> y & 1 == 1) {
                let (target, gained) = match kind {
                    1 => (&mut self.concepts[x], 1 << b),
                    2 => (&mut self.concepts[x], 1 << c),
                    3 => (&mut self.links[b][x], 1 << c),
                    4 => {
                        let held = self.concepts[y] >> b & 1;
                        (&mut self.concepts[x], held << c)
                    }
                    5 => (&mut self.links[b][x], 1 << y),
                    _ => {
                        let ends = self.links[b][y];
                        (&mut self.links[c][x], ends)
                    }
                };
                let gained = if repeat { gained } else { gained & !*target };
                if gained == 0 {
                    continue;
                }
                for bit in (0..64).filter(|bit| gained >> bit & 1 == 1) {
                    *target |= 1 << bit;
                    found.push([x, y, if kind == 6 { bit } else { 0 }]);
                    if found.len() == most {
                        return found;
                    }
                }
            }
        }
        found
    }
}

/// A world of 64 things and how it is drawn: rows of concepts, rows of links for each role.
struct World {
    concepts: [u64; 64],
    links: [[u64; 64]; 8],
}

/// Role r leads from x to every thing at least r + 1 further on; thing x is in the concepts above x.
fn staircase() -> World {
    let from = |end: usize| if end < 64 { u64::MAX << end } else { 0 };
    World {
        concepts: std::array::from_fn(|x| from(x + 1)),
        links: std::array::from_fn(|r| std::array::from_fn(|x| from(x + r + 1))),
    }
}

/// Every link is there, and every concept but 0, which only thing 5 has.
fn full() -> World {
    let concepts = std::array::from_fn(|x| if x == 5 { u64::MAX } else { u64::MAX << 1 });
    World { concepts, links: [[u64::MAX; 64]; 8] }
}

impl World {
    fn obeys(&self, [kind, a, b, c]: [u8; 4]) -> bool {
        let has = |x: usize, concept: u8| self.concepts[x] >> concept & 1 == 1;
        let linked = |x: usize, role: u8, y: usize| self.links[role as usize][x] >> y & 1 == 1;
        (0..64).all(|x| match kind {
            1 => !has(x, a) || has(x, b),
            2 => !(has(x, a) && has(x, b)) || has(x, c),
            3 => !has(x, a) || (0..64).any(|y| linked(x, b, y) && has(y, c)),
            4 => has(x, c) || (0..64).all(|y| !(linked(x, a, y) && has(y, b))),
            5 => (0..64).all(|y| !linked(x, a, y) || linked(x, b, y)),
            _ => (0..64).all(|y| {
                !linked(x, a, y) || (0..64).all(|z| !linked(y, b, z) || linked(x, c, z))
            }),
        })
    }

    fn sheet(&self) -> Vec<u8> {
        packs::rows(&[&self.concepts[..], &self.links.concat()].concat())
    }

    /// 1,024 records that this world obeys, 400 of them chains, in random order, all marked.
    fn pack(&self, rng: &mut Rng) -> Vec<[u8; 4]> {
        let mut records = Vec::new();
        while records.len() < RECORDS {
            let kind = if records.len() < CHAINS { 6 } else { rng.between(1, 5) };
            let drawn = record(kind, rng.below(64), rng.below(64), rng.below(64));
            if self.obeys(drawn) {
                records.push(drawn);
            }
        }
        rng.shuffle(&mut records);
        records
    }
}

/// An accepted no sheet on links that are half there.
fn staircase_no_sheet(rng: &mut Rng) -> Answered {
    let world = staircase();
    // Thing 3 is in 10 and not in 2.
    (packs::question(64, 8, &world.pack(rng), 10, 2), world.sheet())
}

/// An accepted no sheet on full links.
fn full_no_sheet(rng: &mut Rng) -> Answered {
    let world = full();
    (packs::question(64, 8, &world.pack(rng), 1, 0), world.sheet())
}

/// So many records of kinds 1 to 6 of which none puts anything into 0: that 1 is under 0 never follows.
pub fn open_pack(rng: &mut Rng, count: usize) -> Question {
    let mut records = Vec::new();
    while records.len() < count {
        let drawn = record(rng.between(1, 6), rng.below(64), rng.below(64), rng.below(64));
        let gained = match drawn[0] {
            1 => drawn[2],
            2 | 4 => drawn[3],
            _ => 1,
        };
        if gained != 0 {
            records.push(drawn);
        }
    }
    packs::question(64, 8, &records, 1, 0)
}

/// An open pack with a seed of its own, in which every fifth record is one of kind 7 instead.
fn self_linked_pack() -> Question {
    let mut q = open_pack(&mut Rng::new(7), RECORDS);
    for (i, bytes) in q.pack.chunks_exact_mut(8).enumerate().filter(|(i, _)| i % 5 == 0) {
        bytes[..4].copy_from_slice(&record(7, i, 0, 0));
    }
    q
}

/// The question with no chain marked.
pub fn without_chains(q: &Question) -> Question {
    let others = (0..q.pack.len() / 8).filter(|place| q.pack[8 * place] != 6);
    Question { marks: packs::marks(others), ..q.clone() }
}

/// Every link there can be, by 134 records, and then 400 chains, which find nothing to add.
/// That 1 is under 0 does not follow.
fn chains_on_full(rng: &mut Rng) -> Question {
    let mut records: Vec<[u8; 4]> = (0..64).filter(|&x| x != 1).map(|x| [1, x, 1, 0]).collect();
    records.extend((0..64).map(|y| [3, 1, 0, y]));
    records.extend((1..8).map(|role| [5, 0, role, 0]));
    records.extend((0..CHAINS).map(|_| record(6, rng.below(8), rng.below(8), rng.below(8))));
    packs::question(64, 8, &records, 1, 0)
}

/// Stages of the next pack: three concepts each, and the last one the rest.
const STAGES: usize = 17;

fn stage(concept: usize) -> usize {
    (concept / 3).min(STAGES - 1)
}

/// So many records of kinds 1 to 6, 128 or more and every one marked, whose printed set is about 30 of them: the
/// goal leads from the first stage to the last. From a stage to the next there are three ways, of one sort;
/// every other record leads from concepts of a stage to concepts of the same or of earlier ones.
pub fn staged_pack(rng: &mut Rng, count: usize) -> Question {
    let mut records: Vec<[u8; 4]> = Vec::new();
    for (from, to) in (0..STAGES - 1).map(|stage| (3 * stage, 3 * stage + 3)) {
        for _ in 0..3 {
            let role = rng.below(8);
            match stage(from) % 3 {
                0 => records.push(record(1, from, to, 0)),
                1 => records.extend([record(1, from, from + 1, 0), record(2, from, from + 1, to)]),
                _ => records.extend([record(3, from, role, from + 2), record(4, role, from + 2, to)]),
            }
        }
    }
    while records.len() < count {
        let [kind, a, b, c] = [rng.between(1, 6), rng.below(64), rng.below(64), rng.below(64)];
        let back = match kind {
            1 => stage(b) <= stage(a),
            2 => stage(c) <= stage(a).max(stage(b)),
            3 => stage(c) <= stage(a),
            4 => stage(c) <= stage(b),
            _ => true,
        };
        if back {
            records.push(record(kind, a, b, c));
        }
    }
    rng.shuffle(&mut records);
    packs::question(64, 8, &records, 0, 3 * (STAGES as u64 - 1))
}

/// 120 records such as SNOMED CT has, every one marked: 20 body structures, each but the first part of another;
/// a disease of each, defined by it ("disease and some site structure"); part-of is transitive, and a site
/// is inherited along it. The goal: a disease of the last structure is one of the first. n is 62 and m is 3.
fn snomed_pack(rng: &mut Rng) -> Question {
    const STRUCTURES: usize = 20;
    let (part_of, site, exact_site) = (0, 1, 2);
    let (structure, disease) = (60, 61);
    let (disease_of, at) = (|of: usize| 20 + of, |of: usize| 40 + of);
    let mut records = vec![
        record(6, part_of, part_of, part_of),
        record(6, site, part_of, site),
        record(5, exact_site, site, 0),
    ];
    records.extend((1..STRUCTURES).map(|part| record(3, part, part_of, (part - 1) / 2)));
    records.extend((0..18).map(|part| record(1, part, structure, 0)));
    for of in 0..STRUCTURES {
        records.push(record(1, disease_of(of), disease, 0));
        records.push(record(3, disease_of(of), site, of));
        records.push(record(4, site, of, at(of)));
        records.push(record(2, disease, at(of), disease_of(of)));
    }
    rng.shuffle(&mut records);
    packs::question(62, 3, &records, disease_of(STRUCTURES - 1) as u64, disease_of(0) as u64)
}

//! The independent module and printed set, written from document 01, "Meaning", document 000, definition 3, and
//! document 02 for kind 7. A printed set is found by deletion or among all subsets, and a given one is judged.

use crate::packs::{marks, places};
use crate::reasoner::{closure, passes};
use crate::rules::{check_question, record, Fact, Question, Record, Refused, MARKS, NOT_FOLLOWS};
use std::collections::BTreeSet;
use Name::{Concept, Role};

/// Roles are names too.
#[derive(Clone, Copy, PartialEq, Eq, PartialOrd, Ord)]
enum Name {
    Concept(u8),
    Role(u8),
}

/// The names on a record's left side and those on its right side.
fn sides(line: Record) -> (Vec<Name>, Vec<Name>) {
    let Record { kind, a, b, c } = line;
    match kind {
        1 => (vec![Concept(a)], vec![Concept(b)]),
        2 => (vec![Concept(a), Concept(b)], vec![Concept(c)]),
        3 => (vec![Concept(a)], vec![Role(b), Concept(c)]),
        4 => (vec![Role(a), Concept(b)], vec![Concept(c)]),
        5 => (vec![Role(a)], vec![Role(b)]),
        6 => (vec![Role(a), Role(b)], vec![Role(c)]),
        7 => (vec![], vec![Role(a)]),
        _ => unreachable!("the pack was checked"),
    }
}

/// The places of the module for `q.a`: marked records whose left-side names all lie in the smallest set that
/// holds `q.a` and, with all left-side names of a marked record, its right-side names.
pub fn module(q: &Question) -> Vec<usize> {
    let sides_at = |place: usize| sides(record(&q.pack, place));
    let mut names = BTreeSet::from([Concept(q.a as u8)]);
    loop {
        let reached = |place: &usize| sides_at(*place).0.iter().all(|name| names.contains(name));
        let inside: Vec<usize> = places(&q.marks).into_iter().filter(reached).collect();
        let before = names.len();
        inside.iter().for_each(|&place| names.extend(sides_at(place).1));
        if names.len() == before {
            return inside;
        }
    }
}

/// The question with just these records marked.
pub fn only(q: &Question, places: &[usize]) -> Question {
    Question { marks: marks(places.iter().copied()), ..q.clone() }
}

fn follows(q: &Question) -> bool {
    closure(q).contains(&Fact::In(q.a as u8, q.b as u8))
}

/// The same by passes, which are faster where there are many facts.
pub fn follows_by_passes(q: &Question) -> bool {
    passes(q).answer(q.a, q.b).follows
}

/// The printed set by deletion: each marked record, ascending, goes when the goal follows without it.
pub fn printed(q: &Question) -> Option<Vec<usize>> {
    let mut kept = follows(q).then(|| places(&q.marks))?;
    for place in kept.clone() {
        let less: Vec<usize> = kept.iter().copied().filter(|&other| other != place).collect();
        if follows(&only(q, &less)) {
            kept = less;
        }
    }
    Some(kept)
}

/// The printed set among all subsets of the marked records from which the goal follows: the one that, at the
/// lowest place where it differs from any other, lacks that record. For few records.
pub fn printed_of_all(q: &Question) -> Option<Vec<usize>> {
    let marked = places(&q.marks);
    // Bit i of a subset is for the i-th marked record.
    let chosen = |subset: u32| -> Vec<usize> {
        (0..marked.len()).filter(|i| subset >> i & 1 == 1).map(|i| marked[i]).collect()
    };
    let enough: Vec<u32> =
        (0..1 << marked.len()).filter(|&subset| follows(&only(q, &chosen(subset)))).collect();
    let lacks = |one: u32, other: u32| one == other || one >> (one ^ other).trailing_zeros() & 1 == 0;
    let printed: Vec<u32> =
        enough.iter().copied().filter(|&one| enough.iter().all(|&other| lacks(one, other))).collect();
    assert_eq!(printed.len(), usize::from(!enough.is_empty()), "there is one exactly when the goal follows");
    printed.first().map(|&subset| chosen(subset))
}

/// Whether these marked records are the printed set: the goal follows from them, and from no subset that lacks
/// one of them and is the same before it, not even from the largest. Who is asked what follows is given.
pub fn is_printed(q: &Question, set: &[usize], follows: impl Fn(&Question) -> bool) -> bool {
    let enough = |places: &[usize]| follows(&only(q, places));
    let marked = places(&q.marks);
    let without = |place: usize| -> Vec<usize> {
        let before = set.iter().filter(|&&other| other < place);
        before.chain(marked.iter().filter(|&&other| other > place)).copied().collect()
    };
    set.iter().all(|place| marked.contains(place))
        && enough(set)
        && set.iter().all(|&place| !enough(&without(place)))
}

/// Numbers 1 to 5 for a call with out marks of this length: their length is tested as number 4.
fn taken(q: &Question, out: usize) -> Result<(), Refused> {
    match check_question(q) {
        Err(refused) if refused.number <= 4 => Err(refused),
        _ if out != 128 => Err(MARKS),
        back => back.map(|_| ()),
    }
}

/// Why the module call refuses this question, if it does. The goal of a module is one concept.
pub fn module_taken(q: &Question, out: usize) -> Result<(), Refused> {
    taken(&Question { b: q.a, ..q.clone() }, out)
}

/// Why the set call refuses this question, if it does.
pub fn set_taken(q: &Question, out: usize) -> Result<(), Refused> {
    taken(q, out)?;
    follows_by_passes(q).then_some(()).ok_or(NOT_FOLLOWS)
}

#[cfg(test)]
mod tests {
    use super::*;
    use crate::chains;
    use crate::packs::{kind_7, question, random_question, valve};
    use crate::rng::Rng;
    use crate::rules::GOAL;

    #[test]
    fn three_ways_to_one_set() {
        let mut rng = Rng::new(51);
        let mut seen = [0; 5];
        for turn in 0..600 {
            let q = if turn % 10 == 0 { chains::question(&mut rng) } else { few_records(&mut rng) };
            let set = printed(&q);
            assert_eq!(set, printed_of_all(&q));
            // No set, and sets of none, one, two, three and more records.
            seen[set.as_ref().map_or(0, |set| 1 + set.len().min(3))] += 1;
            // Every other subset is judged to be another.
            let marked = places(&q.marks);
            for subset in 0u32..1 << marked.len() {
                let chosen: Vec<usize> =
                    (0..marked.len()).filter(|i| subset >> i & 1 == 1).map(|i| marked[i]).collect();
                assert_eq!(is_printed(&q, &chosen, follows_by_passes), set.as_ref() == Some(&chosen));
            }
        }
        assert!(seen.iter().all(|&times| times > 20), "{seen:?}");
    }

    /// So few records that every subset can be judged.
    fn few_records(rng: &mut Rng) -> Question {
        let (n, m, count) = (rng.between(1, 5), rng.between(0, 3), rng.below(8));
        let mut q = random_question(rng, n, m, count);
        passes(&q).draw_goal(rng, &mut q);
        q
    }

    #[test]
    fn the_set_lies_in_the_module() {
        let mut rng = Rng::new(52);
        let mut less = 0;
        for _ in 0..2000 {
            let q = chains::small_question(&mut rng, 50);
            let (set, module) = (printed(&q), module(&q));
            assert_eq!(set, printed(&only(&q, &module)));
            less += u32::from(set.is_some() && module.len() < places(&q.marks).len());
        }
        // Often the module is not the whole pack.
        assert!(less > 300, "{less}");
    }

    #[test]
    fn the_valve_pack() {
        let q = valve(0, 1);
        assert_eq!(module(&q), [0, 1, 2, 3, 4, 5]);
        assert_eq!(printed(&q), Some(vec![4, 5]));
        assert_eq!(module(&valve(2, 1)), [1]);
        assert_eq!(printed(&valve(2, 1)), None);
        // C7.
        let q = question(2, 0, &[[1, 0, 1, 0], [1, 0, 1, 0]], 0, 1);
        assert_eq!(printed(&q), Some(vec![1]));
        assert_eq!(printed_of_all(&q), Some(vec![1]));
    }

    #[test]
    fn kind_7_is_in_every_module() {
        let q = kind_7();
        assert_eq!((module(&q), printed(&q)), (vec![0, 1], Some(vec![0, 1])));
        // From 1 its role is reached, and record 1 asks for 0 besides.
        assert_eq!(module(&Question { a: 1, ..q.clone() }), [0]);
        assert_eq!((module(&only(&q, &[1])), printed(&only(&q, &[1]))), (vec![], None));
    }

    #[test]
    fn what_is_refused() {
        let q = valve(5, 1);
        assert_eq!([module_taken(&q, 128), module_taken(&q, 127)], [Err(GOAL), Err(MARKS)]);
        assert_eq!([set_taken(&q, 128), set_taken(&q, 0)], [Err(GOAL), Err(MARKS)]);
        let q = valve(2, 5);
        assert_eq!([module_taken(&q, 128), set_taken(&q, 128)], [Ok(()), Err(GOAL)]);
        assert_eq!([set_taken(&valve(2, 1), 128), set_taken(&valve(0, 1), 128)], [Err(NOT_FOLLOWS), Ok(())]);
    }
}

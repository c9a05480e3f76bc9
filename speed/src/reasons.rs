//! The Rust module and printed sets that the calls are measured against, written from documents 01 and 02: the set by
//! halving within the module, and by deletion record by record. Both ask whether the goal follows from marks.

use crate::concepts::Columns;
use crate::engine::Engine;
use crate::fast::{desk_code, each_bit, fields, marked, question, MarkWords};
use crate::ours;
use noolukask_tests::rules::Question;
use std::cmp::Ordering;

/// A record that waits for its left side: names as bits, concepts and from 64 on roles.
struct Waiting {
    left: u128,
    right: u128,
    place: usize,
}

fn waiting(place: usize, [kind, a, b, c]: [usize; 4]) -> Waiting {
    let (concept, role) = (|number: usize| 1u128 << number, |number: usize| 1u128 << (64 + number));
    let (left, right) = match kind {
        1 => (concept(a), concept(b)),
        2 => (concept(a) | concept(b), concept(c)),
        3 => (concept(a), concept(c) | role(b)),
        4 => (concept(b) | role(a), concept(c)),
        5 => (role(a), role(b)),
        6 => (role(a) | role(b), role(c)),
        _ => (0, role(a)),
    };
    Waiting { left, right, place }
}

/// The module: over and over through the records that wait still, each read from the pack once.
fn module_of(pack: &[u8], marks: &MarkWords, a: u64) -> MarkWords {
    let read = |place| waiting(place, fields(pack, place));
    let mut rest: Vec<Waiting> = places(marks).into_iter().map(read).collect();
    let mut names = 1u128 << a;
    let mut inside = [0; 16];
    loop {
        let before = names;
        rest.retain(|record| {
            let reached = record.left & !names == 0;
            if reached {
                names |= record.right;
                inside[record.place / 64] |= 1 << (record.place % 64);
            }
            !reached
        });
        if names == before {
            return inside;
        }
    }
}

/// The module: over and over through the records that wait still, each read from the pack whenever it is come to.
fn module_by_passes_of(pack: &[u8], marks: &MarkWords, a: u64) -> MarkWords {
    let (mut rest, mut inside) = (*marks, [0; 16]);
    let mut names = 1u128 << a;
    loop {
        let before = names;
        for (i, (rest, inside)) in rest.iter_mut().zip(&mut inside).enumerate() {
            each_bit(*rest, |index| {
                let record = waiting(64 * i + index, fields(pack, 64 * i + index));
                if record.left & !names == 0 {
                    names |= record.right;
                    *inside |= 1 << index;
                }
            });
            *rest &= !*inside;
        }
        if names == before {
            return inside;
        }
    }
}

/// The marked places, ascending.
fn places(marks: &MarkWords) -> Vec<usize> {
    let mut places = Vec::with_capacity(1024);
    for (i, &marked) in marks.iter().enumerate() {
        each_bit(marked, |index| places.push(64 * i + index));
    }
    places
}

/// Writes 16 words as the out marks; what a call returns for them.
fn give(words: &MarkWords, out: &mut [u8]) -> u64 {
    for (word, part) in words.iter().zip(out.chunks_exact_mut(8)) {
        part.copy_from_slice(&word.to_le_bytes());
    }
    256 * words.iter().map(|word| u64::from(word.count_ones())).sum::<u64>()
}

/// What the module call returns and leaves, with the module found this way.
fn told(q: &Question, out: &mut [u8], find: fn(&[u8], &MarkWords, u64) -> MarkWords) -> u64 {
    match marked(q) {
        Ok((_, marks)) if q.a < q.n => give(&find(&q.pack, &marks, q.a), out),
        Ok(_) => 5,
        Err(back) => desk_code(back),
    }
}

pub fn module(q: &Question, out: &mut [u8]) -> u64 {
    told(q, out, module_of)
}

pub fn module_by_passes(q: &Question, out: &mut [u8]) -> u64 {
    told(q, out, module_by_passes_of)
}

/// Whether the goal follows from marks.
type Follows<'a> = &'a mut dyn FnMut(&MarkWords) -> bool;

/// How the set is picked of marks from which the goal follows.
pub type Pick = fn(&Question, &MarkWords, Follows) -> MarkWords;

/// The marked places from this one on.
fn from(marks: &MarkWords, place: usize) -> MarkWords {
    std::array::from_fn(|i| match i.cmp(&(place / 64)) {
        Ordering::Less => 0,
        Ordering::Equal => marks[i] & u64::MAX << (place % 64),
        Ordering::Greater => marks[i],
    })
}

fn either(one: &MarkWords, other: &MarkWords) -> MarkWords {
    std::array::from_fn(|i| one[i] | other[i])
}

/// The set by halving, for a goal that follows. Of the module's records those before a place are settled, the
/// rest are candidates. While the goal does not follow from the settled ones alone, the next one to keep is
/// that with which too many candidates have gone.
pub fn by_halving(q: &Question, marks: &MarkWords, follows: Follows) -> MarkWords {
    let module = module_of(&q.pack, marks, q.a);
    let all = places(&module);
    let (mut kept, mut candidates) = ([0; 16], &all[..]);
    while !follows(&kept) {
        // So many candidates can go, and so many cannot.
        let (mut can, mut cannot) = (0, candidates.len());
        while can + 1 < cannot {
            let half = (can + cannot) / 2;
            if follows(&either(&kept, &from(&module, candidates[half]))) {
                can = half;
            } else {
                cannot = half;
            }
        }
        kept[candidates[can] / 64] |= 1 << (candidates[can] % 64);
        candidates = &candidates[cannot..];
    }
    kept
}

/// The set by deletion, for a goal that follows: each marked record goes when the goal follows without it.
pub fn by_deletion(_: &Question, marks: &MarkWords, follows: Follows) -> MarkWords {
    let mut kept = *marks;
    for place in places(marks) {
        let bit = 1 << (place % 64);
        kept[place / 64] ^= bit;
        if !follows(&kept) {
            kept[place / 64] ^= bit;
        }
    }
    kept
}

/// The Rust engine's answer.
fn rust_follows(q: &Question) -> impl FnMut(&MarkWords) -> bool + '_ {
    |marks| Engine::<Columns>::settle::<false>(q, marks).follows()
}

/// The verdict call's answer.
fn our_follows(q: &Question) -> impl FnMut(&MarkWords) -> bool {
    let mut asked = q.clone();
    move |marks| {
        give(marks, &mut asked.marks);
        ours::verdict(&asked, &mut []) == 256
    }
}

/// What the set call returns and leaves, where the set is picked so.
fn set(q: &Question, out: &mut [u8], pick: Pick, follows: Follows) -> u64 {
    match question(q) {
        Ok((_, marks)) if follows(&marks) => give(&pick(q, &marks, follows), out),
        Ok(_) => 7,
        Err(back) => desk_code(back),
    }
}

pub fn set_by_halving(q: &Question, out: &mut [u8]) -> u64 {
    set(q, out, by_halving, &mut rust_follows(q))
}

pub fn set_by_deletion(q: &Question, out: &mut [u8]) -> u64 {
    set(q, out, by_deletion, &mut rust_follows(q))
}

pub fn set_by_our_verdicts(q: &Question, out: &mut [u8]) -> u64 {
    set(q, out, by_deletion, &mut our_follows(q))
}

/// The size of a set that is picked so, and how often it is asked for it whether the goal follows.
pub fn counted(q: &Question, pick: Pick) -> (u64, u64) {
    let (mut follows, mut asked) = (rust_follows(q), 0);
    let mut count = |marks: &MarkWords| {
        asked += 1;
        follows(marks)
    };
    let back = set(q, &mut [0; 128], pick, &mut count);
    (back / 256, asked)
}
